"""Unix sockets on which a line is answered with a line."""

from __future__ import annotations

import asyncio
import contextlib
import logging
import os
import socket
from abc import ABC, abstractmethod
from collections.abc import Awaitable, Callable

from .limits import Limits
from .program import Down

_LOG = logging.getLogger(__name__)
# Gives the answer to a line.
Answer = Callable[[str], Awaitable[str]]
# Every line of a conversation is shorter.
_MOST_LINE = 1 << 16


def _listen(path: str, mode: int) -> socket.socket:
    """Returns a socket at a path. It replaces one on which no program listens any more."""
    with contextlib.suppress(FileNotFoundError, ConnectionRefusedError):
        with socket.socket(socket.AF_UNIX) as probe:
            probe.connect(path)
        raise FileExistsError(17, "another program listens there", path)
    with contextlib.suppress(FileNotFoundError):
        os.unlink(path)
    listener = socket.socket(socket.AF_UNIX)
    before = os.umask(0o777 & ~mode)
    try:
        listener.bind(path)
    finally:
        os.umask(before)
    return listener


class LineServer(ABC):
    """A Unix socket. Each connection's lines are answered in order, and numbered from 1."""

    mode = 0o660

    def __init__(self, limits: Limits) -> None:
        self._limits = limits
        self._open: set[asyncio.Task[None]] = set()

    async def listen(self, path: str) -> asyncio.Server:
        """Starts to listen. Raises an OSError if that isn't possible."""
        listener = _listen(path, self.mode)
        return await asyncio.start_unix_server(self._accept, sock=listener, limit=_MOST_LINE)

    async def close(self) -> None:
        """Closes all connections."""
        for task in self._open:
            task.cancel()
        if self._open:
            await asyncio.wait(self._open)

    @abstractmethod
    async def talk(self, reader: asyncio.StreamReader, writer: asyncio.StreamWriter) -> None:
        """Answers a connection's lines until it ends."""

    async def _accept(self, reader: asyncio.StreamReader, writer: asyncio.StreamWriter) -> None:
        task = asyncio.current_task()
        assert task
        self._open.add(task)
        try:
            if len(self._open) <= self._limits.connections:
                await self.talk(reader, writer)
            async with asyncio.timeout(self._limits.request_seconds):
                writer.close()
                await writer.wait_closed()
        except (Down, OSError, TimeoutError) as error:
            _LOG.info("a connection is closed: %s", error or type(error).__name__)
        finally:
            self._open.discard(task)
            writer.transport.abort()

    async def _answer_lines(
        self,
        reader: asyncio.StreamReader,
        writer: asyncio.StreamWriter,
        idle: float | None,
        answer: Answer,
        first: bytes = b"",
    ) -> None:
        """Answers lines, of which one may have been read, until the input ends or is silent.

        An answer that begins with `bad` gets the line's number.
        """
        number, line = 1, first or await self._read_line(reader, idle)
        while line:
            told = await _answer_one(line, answer)
            if told.startswith("bad "):
                told = f"bad {number}: {told.partition(': ')[2]}"
            writer.write(told.encode("ascii", "replace") + b"\n")
            async with asyncio.timeout(self._limits.request_seconds):
                await writer.drain()
            number, line = number + 1, await self._read_line(reader, idle)

    async def _read_line(self, reader: asyncio.StreamReader, idle: float | None) -> bytes:
        """Returns the next line, or nothing at the end. Of one that is too long it reads a part."""
        async with asyncio.timeout(idle):
            try:
                return await reader.readuntil()
            except asyncio.IncompleteReadError as error:
                return error.partial
            except asyncio.LimitOverrunError as error:
                # It is answered, and what follows of it is answered as lines of its own.
                return await reader.readexactly(error.consumed + 1)


async def _answer_one(line: bytes, answer: Answer) -> str:
    if len(line) > _MOST_LINE:
        return f"bad 0: a line has at most {_MOST_LINE} bytes here"
    return await answer(line.decode("latin-1").removesuffix("\n"))
