"""All parts of a gateway, from its start to its end."""

from __future__ import annotations

import asyncio
import contextlib
import logging
import os
import resource
import signal
from collections.abc import Callable, Coroutine
from typing import Any, cast

from aiohttp import web

from .backend import BadStart
from .client_lines import ClientLines
from .conversations import Conversations
from .guard import Guards
from .keeper import Keeper
from .limits import MOST_BODY, Limits
from .lines import LineServer
from .operator_lines import OperatorLines
from .options import Options
from .program import Down, knows_clients
from .state import BadFile, State, read_state
from .web import Site

_LOG = logging.getLogger(__name__)
# File descriptors that aren't connections.
_OTHER_FILES = 320
# How many seconds the requests under way have at the end.
_PATIENCE = 1.0


class NoStart(Exception):
    """Why a gateway can't start."""


class Gateway:
    """A gateway."""

    def __init__(self, options: Options) -> None:
        self._options = options
        clients = options.clients if knows_clients(options.command) else 0
        first = _read_first(options)
        self._pool = Conversations(
            options.command, first, options.most_waiting, clients, options.history
        )
        self._keeper = Keeper(self._pool, options.state)
        self._guards = Guards(options.limits)
        self._tasks: list[asyncio.Task[None]] = []
        self._servers: list[asyncio.Server] = []
        self._lines: dict[str, LineServer] = {}
        self._web: web.Server | None = None

    @property
    def port(self) -> int:
        """The port on which HTTP is answered."""
        port: int = self._servers[0].sockets[0].getsockname()[1]
        return port

    async def start(self) -> None:
        """Starts the pool, and then listens. Raises `NoStart`."""
        options = self._options
        try:
            await self._keeper.start()
            await self._listen_http()
            if options.client_socket:
                await self._listen(ClientLines(self._pool, options.limits), options.client_socket)
            if options.operator_socket:
                lines = OperatorLines(self._pool, self._keeper, options.limits)
                await self._listen(lines, options.operator_socket)
        except (BadStart, Down) as error:
            raise NoStart(str(error)) from None
        except OSError as error:
            raise NoStart(f"{error.strerror}: {error.filename or options.host}") from None
        self._run(self._keeper.watch())
        self._run(self._guards.watch())
        if options.state and options.save_seconds:
            self._run(self._keeper.save_regularly(options.save_seconds))

    async def end(self, *, save: bool = True) -> bool:
        """Closes all connections, saves, and ends the pool. Returns whether all was saved."""
        for server in self._servers:
            server.close()
        for path, lines in self._lines.items():
            with contextlib.suppress(OSError):
                os.unlink(path)
            await lines.close()
        for task in self._tasks:
            task.cancel()
        if self._tasks:
            await asyncio.wait(self._tasks)
        if self._web:
            await self._web.shutdown(_PATIENCE)
        return await self._keeper.end(save=save)

    async def _listen_http(self) -> None:
        options, loop = self._options, asyncio.get_running_loop()
        site = Site(self._pool, self._keeper, self._guards, options.limits)
        # Bodies aren't unpacked: a small one could become a large one.
        self._web = web.Server(
            site.handle,
            request_factory=_make_request,
            access_log=None,
            auto_decompress=False,
            keepalive_timeout=options.limits.idle_seconds,
            lingering_time=1.0,
        )
        inner = cast(Callable[[], asyncio.Protocol], self._web)
        server = await loop.create_server(
            lambda: self._guards.make(inner), options.host, options.port, backlog=1024
        )
        self._servers.append(server)

    async def _listen(self, lines: LineServer, path: str) -> None:
        self._servers.append(await lines.listen(path))
        self._lines[path] = lines

    def _run(self, work: Coroutine[Any, Any, None]) -> None:
        self._tasks.append(asyncio.create_task(work))


def _make_request(
    message: Any, payload: Any, protocol: Any, writer: Any, task: Any
) -> web.BaseRequest:
    """Returns a request whose body has at most the bytes of a transaction."""
    loop = asyncio.get_running_loop()
    # aiohttp refuses bodies of that size, and not only longer ones.
    most = MOST_BODY + 1
    return web.BaseRequest(message, payload, protocol, writer, task, loop, client_max_size=most)


def _read_first(options: Options) -> State:
    """Returns what the pool is to begin with."""
    try:
        if options.state and os.path.exists(options.state):
            return read_state(options.state, whole=True)
        return read_state(options.ledger, whole=False) if options.ledger else State()
    except BadFile as error:
        raise NoStart(str(error)) from None


def allow_files(limits: Limits) -> None:
    """Has the system allow as many open files as there may be connections."""
    soft, hard = resource.getrlimit(resource.RLIMIT_NOFILE)
    wanted = 3 * limits.connections + _OTHER_FILES
    if soft != resource.RLIM_INFINITY and soft < wanted:
        most = wanted if hard == resource.RLIM_INFINITY else min(wanted, hard)
        resource.setrlimit(resource.RLIMIT_NOFILE, (max(soft, most), hard))


async def run(options: Options) -> int:
    """Runs a gateway until it is asked to end, and returns the exit status."""
    asked = asyncio.Event()
    for number in (signal.SIGTERM, signal.SIGINT):
        asyncio.get_running_loop().add_signal_handler(number, asked.set)
    gateway = Gateway(options)
    try:
        await gateway.start()
    except NoStart:
        await gateway.end(save=False)
        raise
    _LOG.warning("answering HTTP on %s port %d", options.host, gateway.port)
    await asked.wait()
    return 0 if await gateway.end() else 1
