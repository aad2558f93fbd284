"""The local tx monitor: JSON-RPC over a WebSocket, with the methods that Ogmios has."""

from __future__ import annotations

import asyncio
import contextlib
import json
from collections.abc import Iterator
from typing import Any

from aiohttp import WSMsgType, web
from keltuvar import KeltuvarError

from .backend import Backend, Busy, View
from .holdings import Held
from .limits import Limits, Rates
from .program import Down

# The longest message, and how many may wait while one is answered.
_MOST_MESSAGE, _MOST_QUEUED = 4096, 64
# A session may keep transactions in memory that the pool has dropped since.
_MOST_SESSIONS = 64
# The code of a request that needs a snapshot first is that of Ogmios; the others are JSON-RPC's.
_NOT_ACQUIRED, _NOT_JSON, _NOT_A_REQUEST, _NO_METHOD, _BAD_PARAMS, _FAILED = (
    4000,
    -32700,
    -32600,
    -32601,
    -32602,
    -32603,
)


class _Fault(Exception):
    """A request that can't be answered: a code, and why."""


class _Session:
    """One connection, with the snapshot that it has acquired."""

    def __init__(self, pool: Backend) -> None:
        self._pool = pool
        self._view: View | None = None
        self._left: Iterator[Held] = iter(())
        self._ids: frozenset[str] | None = None

    async def answer(self, text: str) -> dict[str, Any]:
        """Returns the answer to a request."""
        shape: dict[str, Any] = {"jsonrpc": "2.0", "method": None, "id": None}
        try:
            request = json.loads(text)
            if not isinstance(request, dict) or request.get("jsonrpc") != "2.0":
                raise _Fault(_NOT_A_REQUEST, "it is no request of JSON-RPC 2.0")
            shape |= {"method": request.get("method"), "id": request.get("id")}
            params = request.get("params", {})
            if not isinstance(params, dict):
                raise _Fault(_BAD_PARAMS, "the parameters have names")
            return shape | {"result": await self._call(request.get("method"), params)}
        except (ValueError, RecursionError):
            code, message = _NOT_JSON, "it is no JSON"
        except (Down, KeltuvarError) as error:
            code, message = _FAILED, str(error)
        except _Fault as fault:
            code, message = fault.args
        return shape | {"error": {"code": code, "message": message}}

    async def _call(self, method: object, params: dict[str, Any]) -> object:
        if method == "acquireMempool":
            return await self._acquire()
        if method not in ("nextTransaction", "hasTransaction", "sizeOfMempool", "releaseMempool"):
            raise _Fault(_NO_METHOD, f"there is no method {method!r:.40}")
        if self._view is None:
            raise _Fault(_NOT_ACQUIRED, "acquireMempool has to come first")
        if method == "nextTransaction":
            return self._next(params.get("fields"))
        if method == "hasTransaction":
            return self._has(params.get("id"))
        if method == "sizeOfMempool":
            return self._size(self._view)
        self._view, self._left, self._ids = None, iter(()), None
        return {"released": "mempool"}

    async def _acquire(self) -> object:
        """Takes a snapshot. If the session has one, it waits for one that differs."""
        while True:
            view = await self._pool.snapshot()
            if self._view is None or view.transactions != self._view.transactions:
                break
            await self._pool.wait_for_change()
        self._view, self._left, self._ids = view, iter(view.transactions), None
        return {"acquired": "mempool", "slot": view.tick}

    def _next(self, fields: object) -> object:
        if fields not in (None, "all"):
            raise _Fault(_BAD_PARAMS, "fields is 'all' or absent")
        held = next(self._left, None)
        if held is None:
            return {"transaction": None}
        if fields is None:
            return {"transaction": {"id": held.id}}
        return {"transaction": {"id": held.id, "ticket": held.ticket, "cbor": held.data.hex()}}

    def _has(self, transaction_id: object) -> bool:
        if not isinstance(transaction_id, str):
            raise _Fault(_BAD_PARAMS, "id is the transaction's id")
        if self._ids is None and self._view is not None:
            self._ids = frozenset(held.id for held in self._view.transactions)
        return self._ids is not None and transaction_id.lower() in self._ids

    def _size(self, view: View) -> object:
        return {
            "maxCapacity": {"bytes": view.stats.size + view.stats.free},
            "currentSize": {"bytes": view.stats.size},
            "transactions": {"count": view.stats.count},
        }


class Monitor:
    """Holds the sessions of all WebSockets."""

    def __init__(self, pool: Backend, rates: Rates, limits: Limits) -> None:
        self._pool, self._rates, self._limits = pool, rates, limits
        self._sessions = 0

    async def talk(self, request: web.BaseRequest) -> web.StreamResponse:
        """Holds a session until the connection ends. Raises `Busy` if there are too many."""
        if self._sessions >= _MOST_SESSIONS:
            raise Busy
        self._sessions += 1
        try:
            return await self._hold(request)
        finally:
            self._sessions -= 1

    async def _hold(self, request: web.BaseRequest) -> web.StreamResponse:
        """Reads the requests of a session, and has them answered."""
        socket = web.WebSocketResponse(
            heartbeat=self._limits.idle_seconds / 2,
            max_msg_size=_MOST_MESSAGE,
            compress=False,
        )
        await socket.prepare(request)
        requests: asyncio.Queue[str] = asyncio.Queue(_MOST_QUEUED)
        # A client that doesn't read ends the answers, and the requests that wait for them.
        tasks = [
            asyncio.create_task(self._read_all(socket, request.remote or "", requests)),
            asyncio.create_task(self._answer_all(socket, requests)),
        ]
        try:
            await asyncio.wait(tasks, return_when=asyncio.FIRST_COMPLETED)
        finally:
            for task in tasks:
                task.cancel()
            await asyncio.wait(tasks)
            await self._close(socket, request)
        return socket

    async def _close(self, socket: web.WebSocketResponse, request: web.BaseRequest) -> None:
        """Closes a session. Of a client that doesn't take part in time it drops the connection."""
        try:
            async with asyncio.timeout(self._limits.request_seconds):
                await socket.close()
        except TimeoutError:
            if request.transport:
                request.transport.abort()

    async def _read_all(
        self, socket: web.WebSocketResponse, address: str, requests: asyncio.Queue[str]
    ) -> None:
        """Reads the requests of a session."""
        async for message in socket:
            if message.type is not WSMsgType.TEXT or not self._rates.take(address):
                break
            await requests.put(message.data)

    async def _answer_all(
        self, socket: web.WebSocketResponse, requests: asyncio.Queue[str]
    ) -> None:
        """Answers the requests of a session, one after the other."""
        session = _Session(self._pool)
        with contextlib.suppress(TimeoutError, ConnectionError):
            while True:
                answer = await session.answer(await requests.get())
                async with asyncio.timeout(self._limits.request_seconds):
                    await socket.send_json(answer)
