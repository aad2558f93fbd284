"""Kills the gateway and the pool's process at random moments, and looks at what is left."""

from __future__ import annotations

import asyncio
import contextlib
import os
import random
import signal
import time
from collections import Counter

from .site import LONG, Output, Saved, Site, Wrong, demand, exchange, id_of, pay, read_saved

CLIENTS = 8
# More ids don't fit on a line.
OF_A_BLOCK = 61


class Model:
    """What the gateway has answered, and what it has to know therefore."""

    def __init__(self, outputs: set[Output]) -> None:
        self.tick = 0
        # The outputs of the ledger state after each block.
        self.ledgers = {0: set(outputs)}
        self.held: dict[str, bytes] = {}
        # What was posted, and isn't answered.
        self.unknown: dict[str, bytes] = {}
        self.posted: dict[str, bytes] = {}
        # What the state file has at least.
        self.saved: tuple[int, frozenset[str]] = (-1, frozenset())

    def find_free(self) -> list[Output]:
        """Returns the outputs that no transaction spends."""
        spent = {id_of(pay(one)): one for one in self.ledgers[self.tick]}
        return [one for name, one in spent.items() if name not in self.held and name not in self.unknown]

    def take(self, file: Saved) -> None:
        """Goes on from a state file."""
        self.tick = file.tick
        self.ledgers = {file.tick: set(file.outputs)}
        self.held = {id_of(data): data for data in file.transactions}
        self.unknown.clear()


class Killer:
    """A gateway under load, and a random choice of what is killed and when."""

    def __init__(self, site: Site, seed: int) -> None:
        self._site, self._random = site, random.Random(seed)
        self._model = Model(site.outputs)
        self._is_posting = False
        self.counts: Counter[str] = Counter()
        self.longest = 0.0

    # The load.

    async def _post_all(self, outputs: list[Output]) -> None:
        """Posts over one connection until an answer doesn't come."""
        model = self._model
        with contextlib.suppress(OSError, EOFError):
            reader, writer = await self._site.connect()
            try:
                while outputs and self._is_posting:
                    data = pay(outputs.pop())
                    name = id_of(data)
                    model.unknown[name] = model.posted[name] = data
                    if not self._take_answer(name, *await exchange(reader, writer, data)):
                        return
            finally:
                writer.close()

    def _take_answer(self, name: str, status: int, answer: object) -> bool:
        """Notes an answer, and returns whether the pool is there."""
        self.counts[f"answered {status}"] += 1
        if status == 503:
            return False
        demand((status, answer) == (202, name), f"{name} is answered {status} {answer}")
        self._model.held[name] = self._model.unknown.pop(name)
        return True

    async def _post_again(self) -> None:
        """Posts again what wasn't answered: it is accepted now, or the pool holds these bytes already."""
        reader, writer = await self._site.connect()
        for name, data in list(self._model.unknown.items()):
            status, answer = await exchange(reader, writer, data)
            is_there = status == 400 and answer.get("refused") == "already" and answer.get("sameBytes") is True
            demand((status, answer) == (202, name) or is_there, f"posted again, {name} is answered {status} {answer}")
            self.counts["already there" if is_there else "accepted again"] += 1
            self._model.held[name] = self._model.unknown.pop(name)
        writer.close()

    async def _adopt(self) -> None:
        """Adopts some of what the pool holds as a block."""
        model, count = self._model, self._random.randrange(1, OF_A_BLOCK)
        names = list(model.held)[:count]
        (answer,) = await self._site.ask("o", f"adopt {model.tick + 1} " + " ".join(f"#{name}" for name in names))
        demand(answer.startswith("kept "), f"a block is answered {answer!r:.80}")
        before = model.ledgers[model.tick]
        model.tick += 1
        spent = {one for one in before if id_of(pay(one)) in names}
        model.ledgers[model.tick] = before - spent | {(name, 0) for name in names}
        for name in names:
            del model.held[name]

    async def _save(self) -> None:
        """Saves, while clients post. What was accepted before has to be in the file."""
        known = self._model.tick, frozenset(self._model.held)
        with contextlib.suppress(OSError, EOFError):
            (answer,) = await self._site.ask("o", "save")
            demand(answer.startswith("saved "), f"a save is answered {answer!r:.80}")
            self._model.saved = known

    # A kill.

    async def run(self, kills: int) -> None:
        """Kills so often."""
        self._site.start()
        await self._site.wait_up()
        await self._save()
        while self.counts["kills"] < kills:
            await self._run_round()
            print(f"{self.counts['kills']} kills", end="\r", flush=True)
        demand(self._site.end() == 0, "the gateway ends with another status than 0")
        file = read_saved(self._site.state)
        demand({id_of(data) for data in file.transactions} == set(self._model.held), "the last file has others than were accepted")
        demand(file.outputs == self._model.ledgers[self._model.tick], "the last file has another ledger state")

    async def _run_round(self) -> None:
        """Posts, adopts, saves and kills at random moments."""
        if self._model.held and self._random.random() < 0.7:
            await self._adopt()
        free = self._model.find_free()
        self._is_posting = True
        posts = [asyncio.create_task(self._post_all(free[place::CLIENTS])) for place in range(CLIENTS)]
        await asyncio.sleep(self._random.random())
        save = asyncio.create_task(self._save()) if self._random.random() < 0.6 else None
        await asyncio.sleep(self._random.random() * self._random.choice((0.02, 0.3)))
        kills_pool = self._random.random() < 0.5
        self._kill_pool() if kills_pool else self._kill_gateway()
        began = time.monotonic()
        await asyncio.gather(*posts, *([save] if save else []))
        self._is_posting = False
        await (self._look_after_the_pool() if kills_pool else self._look_after_the_gateway())
        self.longest = max(self.longest, time.monotonic() - began)
        await self._post_again()
        for name in self._random.sample(sorted(self._model.held), min(3, len(self._model.held))):
            found = await self._site.get(f"/mempool/txs/{name}")
            demand(found == (200, self._model.held[name]), f"the pool has other bytes of {name}")

    def _kill_pool(self) -> None:
        pid = self._site.find_pool()
        if pid is not None:
            os.kill(pid, signal.SIGKILL)
            self.counts["kills"] += 1
            self.counts["kills of the pool"] += 1

    def _kill_gateway(self) -> None:
        self._pool_before = self._site.find_pool()
        self._site.kill()
        self.counts["kills"] += 1
        self.counts["kills of the gateway"] += 1

    # What is left.

    async def _look_after_the_pool(self) -> None:
        """All that was accepted is there again. Now and then the next process is killed at its start too."""
        while self._random.random() < 0.3:
            await asyncio.sleep(self._random.random() * 0.5)
            self._kill_pool()
        await asyncio.sleep(0.05)
        await self._site.wait_up()
        found = await self._site.held()
        model = self._model
        demand(set(model.held) <= set(found), f"the pool has lost {len(set(model.held) - set(found))} transactions")
        demand(set(found) <= {*model.held, *model.unknown}, "the pool has a transaction that it can't have")
        await self._compare_tick(model.tick)
        demand(await self._site.ask("o", "back 1") == ["refused back 0"], "the pool knows a former ledger state")

    async def _look_after_the_gateway(self) -> None:
        """The file is whole and has what was saved, the pool has ended, and a new gateway has what the file has."""
        await self._wait_for_end(self._pool_before)
        file = self._compare_file()
        self._site.start()
        while self._random.random() < 0.3:
            await asyncio.sleep(self._random.random() * 0.8)
            self._kill_gateway()
            await self._wait_for_end(self._pool_before)
            demand(self._compare_file() == file, "a gateway that started has changed the file")
            self._site.start()
        await self._site.wait_up()
        found = await self._site.held()
        demand(found == [id_of(data) for data in file.transactions], "the gateway has others than the file, or in another order")
        await self._compare_tick(file.tick)
        self.counts["lost with the gateway"] += len(set(self._model.held) - set(found))
        self._model.take(file)

    async def _wait_for_end(self, pid: int | None) -> None:
        """Waits for the end of a pool without a gateway."""
        until = time.monotonic() + LONG
        while pid is not None and os.path.exists(f"/proc/{pid}") and time.monotonic() < until:
            with open(f"/proc/{pid}/stat", encoding="ascii") as file:
                if file.read().rpartition(")")[2].split()[0] == "Z":
                    return
            await asyncio.sleep(0.02)
        if pid is not None and os.path.exists(f"/proc/{pid}"):
            os.kill(pid, signal.SIGKILL)
            raise Wrong(f"the pool's process {pid} goes on without a gateway")

    def _compare_file(self) -> Saved:
        file, model = read_saved(self._site.state), self._model
        tick, names = model.saved
        found = {id_of(data) for data in file.transactions}
        demand(file.tick >= tick, f"the file has tick {file.tick}, and {tick} was saved")
        demand(file.tick > tick or names <= found, f"the file lacks {len(names - found)} transactions that were saved")
        demand(found <= set(model.posted), "the file has a transaction that was never posted")
        demand(file.outputs == model.ledgers[file.tick], f"the file has another ledger state of tick {file.tick}")
        return file

    async def _compare_tick(self, tick: int) -> None:
        _, pool = await self._site.get("/mempool")
        demand(pool["tick"] == tick, f"the tick is {pool['tick']}, and {tick} is right")
