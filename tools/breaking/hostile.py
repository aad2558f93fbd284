"""Clients that are slow, many, endless or wrong, all at once, while a good client is served."""

from __future__ import annotations

import asyncio
import contextlib
import os
import random
import struct
import time
from collections.abc import Awaitable, Callable
from typing import NamedTuple

from .site import LONG, Site, demand, exchange, id_of, pay

POST = b"POST /api/submit/tx HTTP/1.1\r\nHost: x\r\n"
UPGRADE = (
    b"GET /monitor HTTP/1.1\r\nHost: x\r\nUpgrade: websocket\r\nConnection: Upgrade\r\n"
    b"Sec-WebSocket-Version: 13\r\nSec-WebSocket-Key: AAAAAAAAAAAAAAAAAAAAAA==\r\n\r\n"
)
ACQUIRE = b'{"jsonrpc": "2.0", "method": "acquireMempool"}'
NEXT = b'{"jsonrpc": "2.0", "method": "nextTransaction", "params": {"fields": "all"}}'
RELEASE = b'{"jsonrpc": "2.0", "method": "releaseMempool"}'
# How many connections are opened at once.
AT_ONCE = 100
Streams = tuple[asyncio.StreamReader, asyncio.StreamWriter]


def frame(payload: bytes, code: int = 0x81, *, masked: bool = True) -> bytes:
    """Returns a frame of a WebSocket, whose mask is zero."""
    size, mask = len(payload), 0x80 if masked else 0
    head = bytes([code, mask | size]) if size < 126 else bytes([code, mask | 127]) + struct.pack(">Q", size)
    if 126 <= size < 1 << 16:
        head = bytes([code, mask | 126]) + struct.pack(">H", size)
    return head + bytes(4 if masked else 0) + payload


class Address(NamedTuple):
    """Where a gateway is."""

    port: int
    folder: str

    async def connect(self) -> Streams:
        return await asyncio.open_connection("127.0.0.1", self.port)


def attack(address: Address, seconds: float, many: int, seed: int) -> dict[str, int]:
    """Attacks for some time, in a process of its own, and returns how often each kind of client came."""
    one = Attack(address, seconds, many, seed)
    asyncio.run(one.run())
    return one.counts


class Attack:
    """Some hostile clients of each kind, one after the other, until the time is over."""

    def __init__(self, site: Address, seconds: float, many: int, seed: int) -> None:
        self._site, self._until, self._many = site, time.monotonic() + seconds, many
        self._random = random.Random(seed)
        self.counts: dict[str, int] = {}
        self._kinds: dict[str, tuple[int, Callable[[], Awaitable[None]]]] = {
            "headers, a byte at a time": (100, lambda: self._drip(POST + b"X-Long: " + b"y" * 9999)),
            "bodies, a byte at a time": (100, lambda: self._drip(POST + b"Content-Length: 9999\r\n\r\n" + b"y" * 9999)),
            "bodies that never end": (5, self._pour_chunks),
            "bodies past the limit": (5, self._pour_length),
            "silent": (50, self._wait),
            "random bytes": (5, lambda: self._throw(self._random.randbytes(self._random.randrange(1, 9999)))),
            "half requests, closed at once": (5, self._break_off),
            "wrong lengths": (5, self._lie),
            "requests sent ahead": (3, lambda: self._throw(b"GET /mempool HTTP/1.1\r\nHost: x\r\n\r\n" * 20_000)),
            "not reading": (10, lambda: self._ignore(b"GET / HTTP/1.1\r\nHost: x\r\n\r\n", 10)),
            "lines that never end": (3, lambda: self._pour_line("c")),
            "half lines, closed at once": (3, self._break_line),
            "random lines": (3, lambda: self._throw_at("c", self._random.randbytes(9999))),
            "lines whose answers aren't read": (2, lambda: self._ignore_lines("c", b"snapshot\n" * 20_000)),
            "operator's lines that never end": (1, lambda: self._pour_line("o")),
            "operator's random lines": (1, lambda: self._throw_at("o", self._random.randbytes(9999))),
            "long messages": (3, lambda: self._watch(frame(b"x" * 100_000))),
            "half frames": (3, lambda: self._watch(frame(ACQUIRE)[:9])),
            "wrong frames": (3, lambda: self._watch(self._random.choice([frame(ACQUIRE, masked=False), b"\xff" * 99, frame(b"", 0x80)]))),
            "messages in endless parts": (3, lambda: self._watch(frame(b"x" * 9, 0x01), frame(b"x" * 9, 0x00) * 9999)),
            "pings": (3, lambda: self._watch(frame(b"x" * 99, 0x89) * 9999)),
            "answers of the monitor that aren't read": (8, self._ignore_monitor),
        }

    async def run(self) -> None:
        """Attacks until the time is over."""
        clients = [self._repeat(name, act) for name, (count, act) in self._kinds.items() for _ in range(count)]
        await asyncio.gather(*clients, *([self._hold_many()] if self._many else []))

    async def _repeat(self, name: str, act: Callable[[], Awaitable[None]]) -> None:
        while (left := self._until - time.monotonic()) > 0:
            with contextlib.suppress(OSError, EOFError, TimeoutError):
                await asyncio.wait_for(act(), left)
            self.counts[name] = self.counts.get(name, 0) + 1
            await asyncio.sleep(0.05)

    # HTTP.

    @contextlib.asynccontextmanager
    async def _open(self, socket_name: str = ""):  # type: ignore[no-untyped-def]
        """Opens a connection, and breaks it off at the end."""
        if socket_name:
            streams = await asyncio.open_unix_connection(f"{self._site.folder}/{socket_name}")
        else:
            streams = await self._site.connect()
        try:
            yield streams
        finally:
            streams[1].transport.abort()

    async def _drip(self, data: bytes) -> None:
        async with self._open() as (reader, writer):
            for place in range(len(data)):
                writer.write(data[place : place + 1])
                await writer.drain()
                await asyncio.sleep(0.2)

    async def _pour(self, streams: Streams, head: bytes, part: bytes) -> None:
        """Sends a part again and again."""
        streams[1].write(head)
        while True:
            streams[1].write(part)
            await streams[1].drain()
            await asyncio.sleep(0.01)

    async def _pour_chunks(self) -> None:
        async with self._open() as streams:
            await self._pour(streams, POST + b"Transfer-Encoding: chunked\r\n\r\n", b"1000\r\n" + b"x" * 4096 + b"\r\n")

    async def _pour_length(self) -> None:
        async with self._open() as streams:
            await self._pour(streams, POST + b"Content-Length: 999999999999\r\n\r\n", b"x" * 4096)

    async def _wait(self) -> None:
        async with self._open() as (reader, writer):
            await reader.read(1)

    async def _throw(self, data: bytes) -> None:
        """Sends bytes, and reads what comes until the end."""
        async with self._open() as (reader, writer):
            writer.write(data)
            while await reader.read(1 << 16):
                continue

    async def _break_off(self) -> None:
        request = POST + b"Content-Length: 99\r\n\r\n" + b"y" * 99
        async with self._open() as (reader, writer):
            writer.write(request[: self._random.randrange(len(request))])
            await writer.drain()
            await asyncio.sleep(self._random.choice((0, 0.1)))

    async def _lie(self) -> None:
        lengths = [b"-1", b"9" * 30, b"3\r\nContent-Length: 5", b"zz", b"5\r\nTransfer-Encoding: chunked", b"0x5", b""]
        await self._throw(POST + b"Content-Length: " + self._random.choice(lengths) + b"\r\n\r\n" + b"y" * 50)

    async def _ignore(self, request: bytes, count: int) -> None:
        """Sends requests, and reads nothing."""
        async with self._open() as (reader, writer):
            reader._transport.pause_reading()  # type: ignore[attr-defined]
            writer.write(request * count)
            await asyncio.sleep(30)

    async def _hold_many(self) -> None:
        """Opens very many connections, and holds them."""
        held: list[Streams] = []
        while time.monotonic() < self._until and len(held) < self._many:
            opened = await asyncio.gather(*(self._site.connect() for _ in range(AT_ONCE)), return_exceptions=True)
            held += [one for one in opened if not isinstance(one, BaseException)]
        self.counts["connections opened"] = len(held)
        while time.monotonic() < self._until:
            await asyncio.sleep(0.1)
        for _, writer in held:
            writer.transport.abort()

    # The Unix sockets.

    async def _pour_line(self, name: str) -> None:
        async with self._open(name) as streams:
            await asyncio.wait_for(self._pour(streams, b"", b"x" * 4096), 3)

    async def _break_line(self) -> None:
        async with self._open("c") as (reader, writer):
            writer.write(b"give 0102"[: self._random.randrange(9)])
            await asyncio.sleep(self._random.choice((0, 0.1)))

    async def _throw_at(self, name: str, data: bytes) -> None:
        async with self._open(name) as (reader, writer):
            writer.write(data)
            writer.write_eof()
            while await reader.read(1 << 16):
                continue

    async def _ignore_lines(self, name: str, lines: bytes) -> None:
        async with self._open(name) as (reader, writer):
            reader._transport.pause_reading()  # type: ignore[attr-defined]
            writer.write(lines)
            await asyncio.sleep(30)

    # The monitor.

    async def _watch(self, *parts: bytes) -> None:
        """Opens a session of the monitor, sends bytes, and reads until the end or for a while."""
        async with self._open() as (reader, writer):
            for part in (UPGRADE, *parts):
                writer.write(part)
            async with asyncio.timeout(5):
                while await reader.read(1 << 16):
                    continue

    async def _ignore_monitor(self) -> None:
        """Asks for transactions at half of the allowed rate, and reads nothing."""
        async with self._open() as (reader, writer):
            reader._transport.pause_reading()  # type: ignore[attr-defined]
            writer.write(UPGRADE)
            for _ in range(3000):
                writer.write(frame(ACQUIRE) + frame(NEXT) * 20 + frame(RELEASE))
                await writer.drain()
                await asyncio.sleep(0.05)


class Good:
    """A client that posts what is accepted, each after the answer before."""

    def __init__(self, site: Site) -> None:
        self._site, self._left = site, sorted(site.outputs)
        self.accepted: list[str] = []
        self.times: list[float] = []

    async def run(self, seconds: float) -> None:
        until = time.monotonic() + seconds
        while time.monotonic() < until and self._left:
            data = pay(self._left.pop())
            began = time.monotonic()
            # Others may have taken all connections: an answer 503 closes this one.
            while not await self._post(data):
                await asyncio.sleep(0.01)
            self.times.append(time.monotonic() - began)
            await asyncio.sleep(0.005)

    async def _post(self, data: bytes) -> bool:
        try:
            reader, writer = await self._streams()
            status, answer = await exchange(reader, writer, data)
        except (OSError, EOFError):
            self._open = None
            return False
        if status == 503:
            self._open = None
            return False
        is_there = status == 400 and answer.get("refused") == "already" and answer.get("sameBytes") is True
        demand((status, answer) == (202, id_of(data)) or is_there, f"a good post is answered {status} {answer}")
        self.accepted.append(id_of(data))
        return True

    _open: Streams | None = None

    async def _streams(self) -> Streams:
        if self._open is None:
            self._open = await self._site.connect()
        return self._open


async def look_after(site: Site, good: Good) -> None:
    """All is as before once the hostile clients are gone."""
    await asyncio.sleep(1)
    demand(sorted(await site.held()) == sorted(good.accepted), "the pool has others than were accepted")
    for _ in range(7):
        demand((await site.ask("c", "stats"))[0].startswith("stats "), "a client's line isn't answered")
    demand((await site.ask("o", "stats"))[0].startswith("stats "), "the operator's line isn't answered")
    until = time.monotonic() + LONG
    while (count := await count_connections(site)) > 2 or len(os.listdir(f"/proc/{site.pid}/fd")) > 80:
        demand(time.monotonic() < until, f"{count} connections and {len(os.listdir(f'/proc/{site.pid}/fd'))} files stay open")
        await asyncio.sleep(0.5)
    # Each of these is a session of the monitor, of which there are 64.
    sessions = [await open_session(site) for _ in range(64)]
    demand(all(sessions), f"the monitor has room for {sum(map(bool, sessions))} sessions only")
    for writer in sessions:
        writer.transport.abort()  # type: ignore[union-attr]


async def count_connections(site: Site) -> int:
    _, text = await site.get("/metrics")
    return next(int(line.split()[1]) for line in text.decode().splitlines() if line.startswith("keltuvar_connections "))


async def open_session(site: Site) -> asyncio.StreamWriter | None:
    """Opens a session of the monitor, or returns None if there is no room."""
    reader, writer = await site.connect()
    writer.write(UPGRADE)
    head = await asyncio.wait_for(reader.readuntil(b"\r\n\r\n"), LONG)
    return writer if b" 101 " in head.split(b"\r\n")[0] else None
