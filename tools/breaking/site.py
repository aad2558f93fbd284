"""A gateway as a process, and what its files and its answers say."""

from __future__ import annotations

import asyncio
import contextlib
import json
import os
import re
import socket
import subprocess
import sys
import time
from hashlib import sha256
from typing import IO, Any, NamedTuple

from repository import TOP

sys.path.insert(0, f"{TOP}/clients/python")
from example import output_bytes, transaction_bytes

COIN = 100
# What has to come comes within so many seconds, also on a machine that has much else to do.
LONG = 600.0
# An output: the id of its transaction, and its place there.
Output = tuple[str, int]


class Wrong(Exception):
    """What the gateway did that it must not do."""


def demand(holds: bool, what: str) -> None:
    if not holds:
        raise Wrong(what)


def id_of(data: bytes) -> str:
    return sha256(data[:-2]).hexdigest()


def pay(spent: Output) -> bytes:
    return transaction_bytes(*spent, COIN)


class Saved(NamedTuple):
    """What a state file has."""

    tick: int
    outputs: set[Output]
    transactions: list[bytes]


def read_saved(path: str) -> Saved:
    """Reads a state file, which has to be whole."""
    with open(path, encoding="ascii") as file:
        lines = file.read().split("\n")
    demand(lines[-2:] == ["end", ""], f"{path} isn't whole: it ends with {lines[-2:]}")
    words = [line.split() for line in lines[:-2]]
    tick = next(int(word[1]) for word in words if word[0] == "tick")
    outputs = [word[1].partition("#") for word in words if word[0] == "utxo"]
    gives = [bytes.fromhex(word[1]) for word in words if word[0] == "give"]
    return Saved(tick, {(name, int(index)) for name, _, index in outputs}, gives)


async def exchange(reader: asyncio.StreamReader, writer: asyncio.StreamWriter, data: bytes) -> tuple[int, Any]:
    """Posts a transaction, and returns the status and the JSON. Raises an EOFError or an OSError if no answer comes."""
    writer.write(b"POST /api/submit/tx HTTP/1.1\r\nHost: x\r\nContent-Length: %d\r\n\r\n" % len(data) + data)
    head = await asyncio.wait_for(reader.readuntil(b"\r\n\r\n"), LONG)
    length = re.search(rb"Content-Length: (\d+)", head)
    demand(length is not None, f"an answer without a length: {head!r:.80}")
    body = await asyncio.wait_for(reader.readexactly(int(length[1])), LONG)  # type: ignore[index]
    return int(head.split()[1]), json.loads(body)


class Site:
    """A gateway in a folder, with a ledger state of some outputs."""

    def __init__(self, program: str, folder: str, outputs: int, *words: str) -> None:
        self.folder, self.state = folder, f"{folder}/state"
        self.outputs = {(sha256(number.to_bytes(4, "big")).hexdigest(), 0) for number in range(outputs)}
        with open(f"{folder}/ledger", "w", encoding="ascii") as file:
            file.write("block 4000000\n")
            file.writelines(f"utxo {name}#{index} {output_bytes(COIN).hex()}\n" for name, index in self.outputs)
        with socket.create_server(("127.0.0.1", 0)) as server:
            self.port = server.getsockname()[1]
        files = ["--ledger", f"{folder}/ledger", "--client-socket", f"{folder}/c", "--operator-socket", f"{folder}/o"]
        here = ["--program", program, "--http", f"127.0.0.1:{self.port}", "--signatures", "checked"]
        self._words = [sys.executable, "-m", "keltuvar_gateway", *here, *files, *words]
        self._process: subprocess.Popen[bytes] | None = None
        self._log: IO[bytes] = open(f"{folder}/log", "ab")

    # The process.

    def start(self) -> None:
        surroundings = {**os.environ, "PYTHONPATH": f"{TOP}/clients/python", "PYTHONDONTWRITEBYTECODE": "1"}
        self._process = subprocess.Popen(self._words, env=surroundings, stderr=self._log)

    @property
    def pid(self) -> int:
        demand(self._process is not None, "the gateway isn't started")
        return self._process.pid  # type: ignore[union-attr]

    def find_pool(self) -> int | None:
        """Returns the number of the pool's process, or None if there is none."""
        with contextlib.suppress(OSError), open(f"/proc/{self.pid}/task/{self.pid}/children", encoding="ascii") as file:
            for word in file.read().split():
                with contextlib.suppress(OSError), open(f"/proc/{word}/cmdline", "rb") as line:
                    if b"\0serve\0" in (words := line.read()) and b"--help" not in words:
                        return int(word)
        return None

    def kill(self) -> None:
        """Kills the gateway, and waits for its end."""
        if self._process:
            self._process.kill()
            self._process.wait()

    def end(self) -> int:
        """Asks the gateway to end, and returns its status."""
        demand(self._process is not None, "the gateway isn't started")
        self._process.terminate()  # type: ignore[union-attr]
        return self._process.wait(LONG)  # type: ignore[union-attr]

    def is_alive(self) -> bool:
        return self._process is not None and self._process.poll() is None

    async def wait_up(self) -> None:
        """Waits until the pool takes transactions."""
        until = time.monotonic() + LONG
        while time.monotonic() < until:
            demand(self.is_alive(), f"the gateway has ended: {self.read_log()[-300:]}")
            with contextlib.suppress(OSError, EOFError):
                if (await self.get("/health"))[0] == 200:
                    return
            await asyncio.sleep(0.02)
        raise Wrong("the pool doesn't come back")

    def read_log(self) -> str:
        with open(f"{self.folder}/log", encoding="utf-8", errors="replace") as file:
            return file.read()

    # Requests.

    async def connect(self) -> tuple[asyncio.StreamReader, asyncio.StreamWriter]:
        return await asyncio.open_connection("127.0.0.1", self.port)

    async def get(self, path: str) -> tuple[int, Any]:
        """Returns the status and the JSON or the bytes of an answer."""
        reader, writer = await self.connect()
        writer.write(f"GET {path} HTTP/1.1\r\nHost: x\r\nConnection: close\r\n\r\n".encode())
        try:
            head, _, body = (await asyncio.wait_for(reader.read(-1), LONG)).partition(b"\r\n\r\n")
        finally:
            writer.close()
        if not head:
            raise EOFError
        return int(head.split()[1]), json.loads(body) if b"application/json" in head else body

    async def ask(self, socket_name: str, *lines: str) -> list[str]:
        """Returns the answers to lines on a Unix socket: `c` is that of clients and `o` the operator's."""
        reader, writer = await asyncio.open_unix_connection(f"{self.folder}/{socket_name}", limit=1 << 26)
        answers = []
        try:
            for line in lines:
                writer.write(f"{line}\n".encode())
                answers.append((await asyncio.wait_for(reader.readuntil(), LONG)).decode().removesuffix("\n"))
        finally:
            writer.close()
        return answers

    async def held(self) -> list[str]:
        """Returns the ids in the pool, oldest first."""
        (answer,) = await self.ask("c", "snapshot")
        demand(answer.startswith("snapshot "), f"a snapshot is {answer!r:.80}")
        return [item.partition(":")[2] for item in answer.split()[4:]]

    def memory(self) -> tuple[float, float]:
        """Returns the resident memory of the gateway and of the pool, in MB."""
        return read_memory(self.pid), read_memory(self.find_pool() or self.pid)


def read_memory(pid: int) -> float:
    with open(f"/proc/{pid}/status", encoding="ascii") as status:
        return next(int(line.split()[1]) / 1000 for line in status if line.startswith("VmRSS:"))
