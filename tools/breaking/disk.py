"""Fills the disk under the state file."""

from __future__ import annotations

import os
import subprocess

from .site import Site, demand, exchange, id_of, pay, read_saved

# The disk has so many bytes at first, and then so many.
SMALL, LARGE = 600 << 10, 4 << 20


def mount(folder: str, size: int) -> None:
    """Mounts a file system in memory, which needs root's rights."""
    os.makedirs(folder, exist_ok=True)
    subprocess.run(["mount", "-t", "tmpfs", "-o", f"size={size}", "tmpfs", folder], check=True)


def enlarge(folder: str, size: int) -> None:
    subprocess.run(["mount", "-o", f"remount,size={size}", folder], check=True)


def unmount(folder: str) -> None:
    subprocess.run(["umount", folder], check=True)


class Filler:
    """A gateway whose state file is on a small disk."""

    def __init__(self, site: Site, disk: str) -> None:
        self._site, self._disk, self._left = site, disk, sorted(site.outputs)
        self._accepted: list[str] = []
        self.facts: list[str] = []

    async def run(self) -> None:
        """Saves until the disk is full, ends there, kills, and goes on with a larger disk."""
        site = self._site
        site.start()
        await site.wait_up()
        count = await self._fill()
        self.facts.append(f"{count} transactions fit, and the save after is refused")
        await self._demand_former(count)
        demand("can't be written: No space left on device" in site.read_log(), "the log doesn't say why")
        demand(site.end() == 1, "it ends with another status than 1, though it couldn't save")
        await self._demand_former(count)
        site.start()
        await site.wait_up()
        demand(len(await site.held()) == count, "after its end the pool has others than the former file")
        self._accepted = self._accepted[:count]
        await self._post(50)
        demand((await site.ask("o", "save"))[0].startswith("fault: "), "the disk isn't full any more")
        enlarge(self._disk, LARGE)
        demand(await site.ask("o", "save") == [f"saved {count + 50}"], "a save on the larger disk fails")
        site.kill()
        site.start()
        await site.wait_up()
        demand(await site.held() == self._accepted, "after kill -9 the pool has others than the last file")
        demand(site.end() == 0, "it ends with another status than 0")

    async def _fill(self) -> int:
        """Posts and saves until a save fails, and returns how many transactions the last file has."""
        count = 0
        while True:
            await self._post(50)
            (answer,) = await self._site.ask("o", "save")
            if answer == "fault: No space left on device":
                return count
            demand(answer == f"saved {len(self._accepted)}", f"a save is answered {answer!r:.80}")
            count = len(self._accepted)

    async def _post(self, count: int) -> None:
        reader, writer = await self._site.connect()
        for _ in range(count):
            data = pay(self._left.pop())
            status, answer = await exchange(reader, writer, data)
            demand((status, answer) == (202, id_of(data)), f"a post is answered {status} {answer}")
            self._accepted.append(id_of(data))
        writer.close()

    async def _demand_former(self, count: int) -> None:
        """The former file is there, and nothing else."""
        file = read_saved(self._site.state)
        demand([id_of(data) for data in file.transactions] == self._accepted[:count], "the former file is another now")
        demand(os.listdir(self._disk) == ["state"], f"the disk has {os.listdir(self._disk)}")
        if self._site.is_alive():
            demand((await self._site.get("/health"))[0] == 200, "the pool isn't there")
            await self._post(1)
