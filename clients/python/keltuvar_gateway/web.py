"""What the gateway answers over HTTP."""

from __future__ import annotations

import asyncio
import contextlib
import logging
import re
import time
from collections.abc import Awaitable, Callable
from importlib import resources

from aiohttp import web
from keltuvar import KeltuvarError

from .backend import Backend, Busy
from .guard import Guards
from .holdings import Held
from .keeper import Keeper
from .limits import MOST_BODY, Limits, Rates
from .metrics import Histogram, format_counter, format_gauge
from .monitor import Monitor
from .program import Down
from .shapes import is_final, shape_list, shape_pool, shape_refusal, shape_transaction

_LOG = logging.getLogger(__name__)
Handler = Callable[[web.BaseRequest], Awaitable[web.StreamResponse]]

_ID = re.compile("[0-9a-fA-F]{64}")
_MOST_LISTED = 1000
_SUBMIT, _ONE = "/api/submit/tx", "/mempool/txs/"
_FILES = resources.files(__package__)
_PAGE_HEADERS = {
    "Content-Security-Policy": "default-src 'none'; style-src 'unsafe-inline'; "
    "script-src 'unsafe-inline'; connect-src 'self'; img-src data:",
    "Cache-Control": "no-cache",
}
_NOT_NOW = {"Retry-After": "1"}
_JSON = {"Content-Type": "application/json"}


def _say(status: int, message: str, headers: dict[str, str] | None = None) -> web.Response:
    """Returns an answer that has only a message."""
    return web.json_response({"message": message}, status=status, headers=headers)


def _number(request: web.BaseRequest, name: str, default: int, most: int) -> int:
    """Returns a number of the query. Raises a ValueError if there is something else."""
    text = request.query.get(name, str(default))
    if not re.fullmatch("[0-9]{1,20}", text) or int(text) > most:
        raise ValueError(f"{name} isn't a number from 0 to {most}")
    return int(text)


class Site:
    """All that is answered over HTTP.

    It is a handler of aiohttp's low-level server, as an application's routes and middlewares take
    a third of the time of a request.
    """

    def __init__(self, pool: Backend, keeper: Keeper, guards: Guards, limits: Limits) -> None:
        self._pool, self._keeper, self._guards, self._limits = pool, keeper, guards, limits
        self._rates = Rates(limits.rate)
        self._times = Histogram()
        self._monitor = Monitor(pool, self._rates, limits)
        self._page = _FILES.joinpath("page.html").read_text("utf-8")
        self._description = _FILES.joinpath("openapi.json").read_text("utf-8")
        self._reads: dict[str, Handler] = {
            "/mempool": self._mempool,
            "/mempool/txs": self._list,
            "/metrics": self._metrics,
            "/health": self._health,
            "/openapi.json": self._openapi,
            "/monitor": self._watch,
            "/": self._index,
        }

    async def handle(self, request: web.BaseRequest) -> web.StreamResponse:
        """Reads the whole request, has it answered in time, and answers what went wrong."""
        guard = self._guards.of(request.transport)
        try:
            if not self._rates.take(request.remote or ""):
                return _say(429, "this address makes too many requests", _NOT_NOW)
            await request.read()
            if guard:
                guard.handle()
            return await self._answer(request)
        except web.HTTPRequestEntityTooLarge:
            return _say(413, f"a transaction has at most {MOST_BODY} bytes")
        except web.HTTPException as error:
            return _say(error.status, error.text or error.reason)
        except (ConnectionError, web.RequestPayloadError):
            return _say(400, "the request is broken off, or its body is wrong")
        except Exception:
            _LOG.exception("a request of %s failed", request.path)
            return _say(500, "this is a fault of the gateway's")
        finally:
            if guard:
                guard.finish()

    async def _answer(self, request: web.BaseRequest) -> web.StreamResponse:
        """Has a request answered, in time unless it is a WebSocket's."""
        seconds = None if request.path == "/monitor" else self._limits.request_seconds
        try:
            async with asyncio.timeout(seconds):
                return await self._find_handler(request)(request)
        except ValueError as error:
            return _say(400, str(error))
        except Busy:
            return _say(
                503, "too many wait, or too many sessions of the monitor are open", _NOT_NOW
            )
        except TimeoutError:
            return _say(503, "the pool didn't answer in time; it may do so yet", _NOT_NOW)
        except (Down, KeltuvarError) as error:
            return _say(503, str(error), _NOT_NOW)

    def _find_handler(self, request: web.BaseRequest) -> Handler:
        """Returns what answers a request."""
        path, method = request.path, request.method
        is_submit = path == _SUBMIT
        found = self._submit if is_submit else self._reads.get(path)
        if path.startswith(_ONE):
            found = self._transaction
        if found is None:
            return self._say_not_found
        return (
            found
            if method in (("POST",) if is_submit else ("GET", "HEAD"))
            else self._say_wrong_method
        )

    async def _say_not_found(self, request: web.BaseRequest) -> web.Response:
        return _say(404, "there is no such path")

    async def _say_wrong_method(self, request: web.BaseRequest) -> web.Response:
        allowed = "POST" if request.path == _SUBMIT else "GET, HEAD"
        return _say(405, f"the methods are {allowed}", {"Allow": allowed})

    async def _submit(self, request: web.BaseRequest) -> web.Response:
        data = await request.read()
        if not data:
            return web.json_response(
                {"undecodable": "truncated", "message": "there are no bytes"}, status=400
            )
        began = time.perf_counter()
        receipt = await self._pool.submit(data)
        self._times.observe(time.perf_counter() - began)
        if receipt.error is None:
            return web.Response(body=f'"{receipt.id}"'.encode(), status=202, headers=_JSON)
        if not is_final(receipt.error):
            raise receipt.error
        held = self._pool.find(receipt.id) if receipt.id else None
        return web.json_response(shape_refusal(receipt, held, data), status=400)

    async def _mempool(self, request: web.BaseRequest) -> web.Response:
        tick, stats = await self._pool.stats()
        return web.json_response(shape_pool(tick, stats, dict(self._pool.answers)))

    async def _list(self, request: web.BaseRequest) -> web.Response:
        newest = _number(request, "newest", 0, _MOST_LISTED)
        if newest:
            found = self._pool.newest(newest)
        else:
            after = _number(request, "after", 0, 2**64 - 1)
            limit = _number(request, "limit", 100, _MOST_LISTED)
            found = await self._pool.after(after, limit)
        return web.json_response({"transactions": shape_list(found)})

    async def _transaction(self, request: web.BaseRequest) -> web.Response:
        held = self._find(request.path.removeprefix(_ONE))
        if held is None:
            return _say(404, "the pool has no such transaction")
        if _number(request, "decoded", 0, 1):
            return web.json_response(shape_transaction(self._pool, held))
        headers = {"Keltuvar-Ticket": str(held.ticket)}
        return web.Response(
            body=held.data, content_type="application/octet-stream", headers=headers
        )

    def _find(self, transaction_id: str) -> Held | None:
        if not _ID.fullmatch(transaction_id):
            raise ValueError("an id has 64 hexadecimal digits")
        if not self._pool.running:
            raise Down("the pool's process isn't there")
        return self._pool.find(transaction_id.lower())

    async def _metrics(self, request: web.BaseRequest) -> web.Response:
        gauge = format_gauge
        lines = [
            gauge("keltuvar_up", "Whether the pool takes transactions.", int(self._pool.running)),
            gauge("keltuvar_connections", "Open HTTP connections.", len(self._guards)),
            gauge("keltuvar_waiting_lines", "Lines the pool hasn't answered.", self._pool.waiting),
            format_counter(
                "keltuvar_submits_total", "Submits by answer.", "answer", self._pool.answers
            ),
            format_counter(
                "keltuvar_gateway_events_total",
                "Starts of the pool's process, and saves of the state.",
                "event",
                self._keeper.counts,
            ),
            self._times.format("keltuvar_submit_seconds", "How long the pool took for a submit."),
        ]
        with contextlib.suppress(Down, KeltuvarError):
            tick, stats = await self._pool.stats()
            lines += [
                gauge("keltuvar_transactions", "Transactions in the pool.", stats.count),
                gauge("keltuvar_bytes", "Their bytes.", stats.size),
                gauge("keltuvar_free_bytes", "Bytes that are free.", stats.free),
                gauge("keltuvar_last_ticket", "The last ticket.", stats.last_ticket),
                gauge("keltuvar_changes", "Changes of the pool's process.", stats.changes),
                gauge("keltuvar_tick", "The tick of the ledger state.", tick),
            ]
        return web.Response(
            text="".join(lines), headers={"Content-Type": "text/plain; version=0.0.4"}
        )

    async def _health(self, request: web.BaseRequest) -> web.Response:
        if self._pool.running:
            return web.json_response({"status": "up"})
        return web.json_response({"status": "down"}, status=503, headers=_NOT_NOW)

    async def _openapi(self, request: web.BaseRequest) -> web.Response:
        return web.Response(text=self._description, content_type="application/json")

    async def _index(self, request: web.BaseRequest) -> web.Response:
        return web.Response(text=self._page, content_type="text/html", headers=_PAGE_HEADERS)

    async def _watch(self, request: web.BaseRequest) -> web.StreamResponse:
        guard = self._guards.of(request.transport)
        if guard:
            guard.release()
        return await self._monitor.talk(request)
