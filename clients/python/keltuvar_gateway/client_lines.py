"""The Unix socket for clients: transactions by their bytes and ids, and reads."""

from __future__ import annotations

import asyncio

from keltuvar import KeltuvarError

from .backend import Backend, Busy, Session
from .limits import Limits
from .lines import LineServer


class _Connection:
    """A connection, which has a session from its first line on."""

    def __init__(self, pool: Backend, limits: Limits) -> None:
        self._pool, self._limits = pool, limits
        self._session: Session | None = None

    async def answer(self, line: str) -> str:
        """Returns the answer to a line."""
        try:
            async with asyncio.timeout(self._limits.request_seconds):
                if self._session is None:
                    self._session = await self._pool.open_session()
                return await self._session.ask(line)
        except ValueError as error:
            return f"bad 0: {error}"
        except Busy:
            return "busy"
        except KeltuvarError:
            return "fault: no memory"

    def end(self) -> None:
        """Ends the session."""
        if self._session:
            self._session.end()


class ClientLines(LineServer):
    """Each connection is a conversation in which transactions have ids and no names."""

    def __init__(self, pool: Backend, limits: Limits) -> None:
        super().__init__(limits)
        self._pool = pool

    async def talk(self, reader: asyncio.StreamReader, writer: asyncio.StreamWriter) -> None:
        connection = _Connection(self._pool, self._limits)
        try:
            idle = self._limits.idle_seconds
            await self._answer_lines(reader, writer, idle, connection.answer)
        finally:
            connection.end()
