"""The Unix socket for the operator: every line of the pool's conversation, and `save`."""

from __future__ import annotations

import asyncio
import json

from .backend import Backend
from .keeper import Keeper
from .limits import Limits
from .lines import LineServer

_SAVE = b"POST /admin/save HTTP/1."


class OperatorLines(LineServer):
    """One connection is answered at a time, the others wait for its end."""

    mode = 0o600

    def __init__(self, pool: Backend, keeper: Keeper, limits: Limits) -> None:
        super().__init__(limits)
        self._pool, self._keeper = pool, keeper
        self._turn = asyncio.Lock()

    async def talk(self, reader: asyncio.StreamReader, writer: asyncio.StreamWriter) -> None:
        async with self._turn:
            first = await self._read_line(reader, None)
            if first.startswith(_SAVE):
                await self._answer_http(reader, writer)
            elif first:
                await self._answer_lines(reader, writer, None, self.answer, first)

    async def answer(self, line: str) -> str:
        """Returns the answer to a line."""
        if line.split() != ["save"]:
            return await self._pool.operate(line)
        try:
            return f"saved {await self._keeper.save()}"
        except OSError as error:
            return f"fault: {error.strerror}"

    async def _answer_http(
        self, reader: asyncio.StreamReader, writer: asyncio.StreamWriter
    ) -> None:
        """Saves, and answers one request of HTTP, as `curl --unix-socket` sends it."""
        while (await self._read_line(reader, self._limits.request_seconds)).strip():
            continue
        answer = await self.answer("save")
        status = "200 OK" if answer.startswith("saved") else "500 Internal Server Error"
        body = json.dumps({"message": answer})
        head = f"HTTP/1.1 {status}\r\nContent-Type: application/json\r\nConnection: close\r\n"
        writer.write(f"{head}Content-Length: {len(body)}\r\n\r\n{body}".encode("ascii"))
        await writer.drain()
