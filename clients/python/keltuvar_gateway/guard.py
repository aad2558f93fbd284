"""Closes connections that are slow or silent, or send too much ahead.

aiohttp waits for as long as a client likes until a first request has come. So a guard is between
each HTTP connection and aiohttp.
"""

from __future__ import annotations

import asyncio
import math
import time
from collections.abc import Callable
from typing import cast

from .limits import Limits
from .one_write import OneWrite

# How many bytes, and how many requests, a client may send before its first one is answered.
_MOST_AHEAD, _MOST_REQUESTS = 1 << 18, 16
_FULL = b"HTTP/1.1 503 Service Unavailable\r\nConnection: close\r\nContent-Length: 0\r\n\r\n"


class Guard(asyncio.Protocol):
    """A connection, which is closed at its deadline."""

    def __init__(self, guards: Guards, inner: asyncio.Protocol) -> None:
        self._guards, self._inner = guards, inner
        self._ahead = 0
        self._is_idle = True
        self.deadline = math.inf

    # What the handler of a request says.

    def handle(self) -> None:
        """The request has arrived: the pool may take its time now, and then the client."""
        self.deadline = time.monotonic() + 2 * self._guards.limits.request_seconds

    def finish(self) -> None:
        """The request is answered."""
        self._is_idle, self._ahead = True, 0
        self.deadline = time.monotonic() + self._guards.limits.idle_seconds

    def release(self) -> None:
        """The connection is a WebSocket's, which has limits of its own."""
        self._is_idle, self._ahead, self.deadline = False, -1, math.inf

    def is_late(self, now: float) -> bool:
        """Returns whether the deadline has passed. A WebSocket that is closing has none left."""
        return self.deadline < now or (self.deadline == math.inf and self.transport.is_closing())

    def abort(self) -> None:
        """Closes the connection at once."""
        self.transport.abort()

    # What asyncio calls.

    def connection_made(self, transport: asyncio.BaseTransport) -> None:
        self.transport = OneWrite(cast(asyncio.Transport, transport))
        if self._guards.add(self):
            self.deadline = time.monotonic() + self._guards.limits.request_seconds
            self._inner.connection_made(self.transport)
        else:
            self.transport.write(_FULL)
            self.transport.close()

    def data_received(self, data: bytes) -> None:
        if self not in self._guards:
            return
        if self._is_idle:
            self._is_idle = False
            self.deadline = time.monotonic() + self._guards.limits.request_seconds
        if self._ahead >= 0:
            self._ahead += len(data)
        if self._ahead <= _MOST_AHEAD:
            self._inner.data_received(data)
        # aiohttp keeps all requests that have come.
        if self._ahead > _MOST_AHEAD or len(getattr(self._inner, "_messages", ())) > _MOST_REQUESTS:
            self.abort()

    def eof_received(self) -> bool | None:
        return self._inner.eof_received() if self in self._guards else None

    def connection_lost(self, exc: Exception | None) -> None:
        if self in self._guards:
            self._guards.remove(self)
            self._inner.connection_lost(exc)

    def pause_writing(self) -> None:
        self._inner.pause_writing()

    def resume_writing(self) -> None:
        self._inner.resume_writing()


class Guards:
    """The guards of all connections of a listener."""

    def __init__(self, limits: Limits) -> None:
        self.limits = limits
        self._guards: dict[asyncio.BaseTransport, Guard] = {}

    def __len__(self) -> int:
        return len(self._guards)

    def __contains__(self, guard: Guard) -> bool:
        return self._guards.get(guard.transport) is guard

    def make(self, inner: Callable[[], asyncio.Protocol]) -> Guard:
        """Returns the protocol of a new connection."""
        return Guard(self, inner())

    def add(self, guard: Guard) -> bool:
        """Adds a connection if there is room, and returns whether it did."""
        if len(self._guards) >= self.limits.connections:
            return False
        self._guards[guard.transport] = guard
        return True

    def remove(self, guard: Guard) -> None:
        """Takes out a connection that is closed."""
        del self._guards[guard.transport]

    def of(self, transport: asyncio.BaseTransport | None) -> Guard | None:
        """Returns the guard of a connection, or None if it is closed."""
        return self._guards.get(transport) if transport else None

    async def watch(self) -> None:
        """Closes each connection whose deadline has passed."""
        while True:
            await asyncio.sleep(min(1.0, self.limits.request_seconds / 4))
            now = time.monotonic()
            for guard in [one for one in self._guards.values() if one.is_late(now)]:
                guard.abort()
