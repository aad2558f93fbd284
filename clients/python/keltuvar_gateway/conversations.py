"""A pool, over conversations with `keltuvar serve`."""

from __future__ import annotations

import asyncio
import contextlib
import logging
import os
from collections import Counter, deque
from collections.abc import Callable, Iterable, Iterator, Sequence
from dataclasses import replace
from datetime import UTC, datetime
from itertools import chain, count, islice
from typing import Any, NamedTuple, TypeVar

from keltuvar import KeltuvarError, Refused, Stats, answers, error_in

from .backend import BadStart, Backend, Busy, Receipt, Session, View
from .holdings import Held, Holdings
from .ledger import Ledger
from .operation import Operation
from .program import Conversation, Down, Program
from .sessions import OwnSession, SharedSession
from .state import State

T = TypeVar("T")

_LOG = logging.getLogger(__name__)
# How many lines of a start are sent at once.
_BATCH = 1000
# A pool of many conversations refuses all changes after its limit.
_MOST_CHANGES = 2**32


class _Event(NamedTuple):
    """What an answer to the operator's conversation does, once all tickets are known up to one."""

    ticket: int
    act: Callable[[], None]
    future: asyncio.Future[Any]


class Conversations(Backend):
    """A pool whose lines are sent without waiting for the answers before.

    The operator's conversation has the operator's lines and all reads. The submits of requests go
    to the conversations of clients, and to the operator's if there are none.

    Each answer changes the copies of the pool and of the ledger state. Transactions come into the
    copy in the order of their tickets, of which none is left out. What the operator is answered
    waits for all tickets that it mentions. So a read is of the pool and of the ledger state at
    one moment, and so are the copies but for what is accepted at the same time.
    """

    def __init__(
        self,
        command: Sequence[str],
        state: State,
        most_waiting: int,
        clients: int = 0,
        histories: str | None = None,
    ) -> None:
        self.answers: Counter[str] = Counter()
        self._command, self._clients = command, clients
        # The folder of the histories, and the numbers of the processes.
        self._histories, self._numbers = histories, count(1)
        self._most_waiting = most_waiting
        self._ledger = Ledger(state.tick, state.block, state.outputs)
        self._limit, self._last = state.limit, state.last
        self._holdings = Holdings()
        # What is accepted, by the tickets, while a smaller ticket isn't known.
        self._early: dict[int, Held] = {}
        self._events: deque[_Event] = deque()
        # What a new process of the pool hasn't answered yet, oldest first.
        self._missing = dict.fromkeys(state.transactions)
        self._program: Program | None = None
        # The conversations that no session has.
        self._free: list[Conversation] = []
        self._changed = asyncio.Event()
        self._is_open = False

    # The process.

    async def open(self) -> Program:
        self._stop_waiting()
        state = self.copy_state()
        self._is_open, self._holdings = False, Holdings()
        self._missing = dict.fromkeys(state.transactions)
        self._ledger.forget_former()
        history = self._name_history()
        words = ["--history", history] if history else []
        self._program = program = await Program.start([*self._command, *words], self._clients)
        try:
            # The last line opens the pool.
            last = ["ids", "stats"]
            if self._clients and state.limit is None:
                state.limit = _MOST_CHANGES
            lines = chain(state.settings(), state.utxo_lines(), last)
            await self._ask_each(program.operator, lines)
            await self._give_missing(program)
            for client in program.clients:
                await self._ask_each(client, iter(["ids"]))
            program.forget_pipes()
        except BaseException:
            program.kill("it couldn't be given what it is to begin with")
            if history:
                # Nobody was answered by this process.
                with contextlib.suppress(OSError):
                    os.unlink(history)
            raise
        self._free = list(program.clients)
        self._is_open = True
        return program

    def _name_history(self) -> str | None:
        """Returns the file in which the next process is to record its changes."""
        if self._histories is None:
            return None
        os.makedirs(self._histories, mode=0o700, exist_ok=True)
        name = f"{datetime.now(UTC):%Y%m%dT%H%M%SZ}-{os.getpid()}-{next(self._numbers)}"
        return os.path.join(self._histories, name)

    async def _ask_each(self, conversation: Conversation, lines: Iterator[str]) -> None:
        """Sends the lines of a start."""
        while batch := list(islice(lines, _BATCH)):
            got = await asyncio.gather(*(conversation.ask(line) for line in batch))
            for line, answer in zip(batch, got, strict=True):
                error = error_in(answer)
                if error is not None:
                    raise BadStart(f"'{line:.100}': {error}")

    async def _give_missing(self, program: Program) -> None:
        """Submits again what the pool held, in order."""
        counts: Counter[str] = Counter()
        while self._missing:
            batch = list(islice(self._missing, _BATCH))
            gives = (self._give(program.operator, data, counts) for data in batch)
            await asyncio.gather(*gives)
            if counts["no-memory"]:
                raise BadStart("there is no memory for what the pool held")
        refused = counts.total() - counts["accepted"] - counts["already"]
        if refused:
            _LOG.warning("%d transactions aren't valid any more, and were dropped", refused)

    @property
    def running(self) -> bool:
        return self._is_open and self._program is not None and not self._program.ended.done()

    @property
    def waiting(self) -> int:
        return self._program.waiting if self._program else 0

    @property
    def count(self) -> int:
        return len(self._holdings)

    def _live(self) -> Program:
        if not self.running or self._program is None:
            raise Down("the pool's process isn't there, or has to take its transactions first")
        return self._program

    # Submits.

    async def submit(self, data: bytes) -> Receipt:
        program = self._live()
        if program.waiting >= self._most_waiting:
            raise Busy
        free = self._free or [program.operator]
        return await self._give(min(free, key=lambda one: one.waiting), data, self.answers)

    def _give(
        self, conversation: Conversation, data: bytes, counts: Counter[str]
    ) -> asyncio.Future[Receipt]:
        """Submits a transaction, which gets no name."""

        def read(answer: str) -> Receipt:
            return self._read_receipt(data, answer, counts)

        return _send(conversation, [], str, f"give {data.hex()}", read)

    def _read_receipt(self, data: bytes, answer: str, counts: Counter[str]) -> Receipt:
        error = _read_error(answer)
        if error is not None:
            receipt = Receipt(error.id if isinstance(error, Refused) else None, None, error)
        else:
            given = answers.read_given(answer)
            receipt = Receipt(given.id, given.ticket, None)
            self._add(Held(given.id, given.ticket, data))
        counts[receipt.word] += 1
        if receipt.word != "no-memory":
            self._missing.pop(data, None)
        return receipt

    # Sessions.

    async def open_session(self) -> Session:
        program = self._live()
        if not self._clients:
            return SharedSession(self)
        if len(self._free) < 2:
            # One stays for requests.
            raise Busy
        conversation = min(self._free, key=lambda one: one.waiting)
        self._free.remove(conversation)
        try:
            return OwnSession(
                lambda line: self._ask_own(program, conversation, line),
                lambda: self._give_back(program, conversation),
                await conversation.ask("stats"),
            )
        except BaseException:
            self._give_back(program, conversation)
            raise

    async def _ask_own(self, program: Program, conversation: Conversation, line: str) -> str:
        """Sends a line of a session's own conversation."""
        if line.startswith("give ") and program.waiting >= self._most_waiting:
            raise Busy

        def read(answer: str) -> str:
            match line.split():
                case ["give", digits] if not answer.startswith(("bad ", "fault: ")):
                    self._read_receipt(bytes.fromhex(digits), answer, self.answers)
            return answer

        return await _send(conversation, [], str, line, read)

    def _give_back(self, program: Program, conversation: Conversation) -> None:
        """Lets another one have a conversation, once it has forgotten what it was sent."""

        def read(answer: str) -> None:
            if answer != "ok":
                raise ValueError("a conversation goes on with what another one was sent")

        def free(answer: str) -> None:
            read(answer)
            if conversation in program.clients and program is self._program:
                self._free.append(conversation)

        with contextlib.suppress(Down):
            conversation.send("reset", read)
            conversation.send("ids", free)

    # Reads.

    def find(self, transaction_id: str) -> Held | None:
        early = (held for held in self._early.values() if held.id == transaction_id)
        return self._holdings.find(transaction_id) or next(early, None)

    def dependents(self, transaction_id: str, outputs: int) -> dict[str, list[int]]:
        return self._holdings.dependents(transaction_id, outputs)

    def has_output(self, reference: bytes) -> bool:
        return reference in self._ledger.outputs

    def newest(self, count: int) -> tuple[Held, ...]:
        self._live()
        return tuple(islice(reversed(self._holdings), count))

    async def after(self, ticket: int, limit: int) -> tuple[Held, ...]:
        def read(answer: str) -> list[int]:
            first = " ".join(answer.split(" ", limit + 1)[: limit + 1])
            return [item.ticket for item in answers.read_after(first)]

        return await self._read([f"after {ticket}"], lambda got: read(got[0]), self._holdings.pick)

    async def lookup(self, ticket: int) -> Held | None:
        def read(answer: str) -> list[int]:
            return [] if answers.read_lookup(answer) is None else [ticket]

        found = await self._read(
            [f"lookup {ticket}"], lambda got: read(got[0]), self._holdings.pick
        )
        return found[0] if found else None

    async def stats(self) -> tuple[int, Stats]:
        found: list[Stats] = []

        def read(got: list[str]) -> list[int]:
            found.append(answers.read_stats(got[0]))
            return []

        return await self._read(["stats"], read, lambda _: (self._ledger.tick, found[0]))

    async def snapshot(self) -> View:
        told: list[str] = []

        def read(got: list[str]) -> list[int]:
            told.extend(got)
            return [item.ticket for item in answers.read_snapshot(got[0]).items]

        def finish(tickets: list[int]) -> View:
            found, stats = answers.read_snapshot(told[0]), answers.read_stats(told[1])
            # More may have been accepted between the two lines.
            free = max(0, 2 * self._ledger.block - found.size)
            last = found.last_ticket
            same = replace(stats, count=found.count, size=found.size, free=free, last_ticket=last)
            return View(self._ledger.tick, same, self._holdings.pick(tickets))

        return await self._read(["snapshot", "stats"], read, finish)

    async def wait_for_change(self) -> None:
        await self._changed.wait()

    # The operator's lines.

    async def operate(self, line: str) -> str:
        operation = Operation(line)
        if operation.fault:
            return f"bad 0: {operation.fault}"
        take = operation.shown.append
        return await self._send_in_order(
            operation.before,
            take,
            line,
            lambda answer: self._hear_operation(operation, answer),
            lambda answer: self._do(operation, answer),
        )

    def _hear_operation(self, operation: Operation, answer: str) -> Iterable[int]:
        """Adds what a line of the operator's submits, and returns the tickets in its answer."""
        if _read_error(answer) is not None:
            return []
        match operation.words:
            case ["submit", _]:
                shown = operation.transactions()[0]
                self._add(Held(shown.id, answers.read_ticket(answer), shown.data))
            case ["give", digits]:
                self._read_receipt(bytes.fromhex(digits), answer, Counter())
            case ["remove", *_]:
                removed = answers.read_removed(answer)
                return [*removed.removed, *removed.dropped]
            case ["adopt" | "sync" | "back", *_]:
                change = answers.read_ledger_change(answer)
                return [*change.kept, *change.dropped]
        return []

    def _do(self, operation: Operation, answer: str) -> str:
        """Does what an answered line of the operator's has done, in the copies."""
        if error_in(answer) is None:
            match operation.words:
                case ["remove", *_]:
                    self._drop(self._hear_operation(operation, answer))
                case ["adopt" | "sync" | "back", *_]:
                    operation.move(self._ledger)
                    self._drop(answers.read_ledger_change(answer).dropped)
        return answer

    def copy_state(self) -> State:
        early = [self._early[ticket] for ticket in sorted(self._early)]
        transactions = [*(held.data for held in chain(self._holdings, early)), *self._missing]
        ledger, last = self._ledger, max([self._last, *self._early])
        outputs = dict(ledger.outputs)
        return State(ledger.block, last, ledger.tick, self._limit, outputs, transactions)

    # The order of answers, and the copies.

    async def _read(
        self,
        lines: Sequence[str],
        read: Callable[[list[str]], list[int]],
        finish: Callable[[list[int]], T],
    ) -> T:
        """Sends lines to the operator's conversation. Raises the error of an answer if one has it.

        Otherwise the tickets in the answers are read, and the rest is done once they are known.
        """
        got: list[str] = []
        tickets: list[int] = []

        def hear(answer: str) -> list[int]:
            got.append(answer)
            if not any(map(error_in, got)):
                tickets.extend(read(got))
            return tickets

        def give(answer: str) -> T | KeltuvarError:
            for error in map(error_in, got):
                if error is not None:
                    return error
            return finish(tickets)

        *before, line = lines
        result = await self._send_in_order(before, got.append, line, hear, give)
        if isinstance(result, KeltuvarError):
            raise result
        return result

    def _send_in_order(
        self,
        before: Iterable[str],
        take: Callable[[str], Any],
        line: str,
        hear: Callable[[str], Iterable[int]],
        finish: Callable[[str], T],
    ) -> asyncio.Future[T]:
        """Sends lines to the operator's conversation, and one more, with no other line between.

        The answers of the former are given to `take`. Of the last one `hear` returns the tickets.
        The future gets what is made of it once these are known, after that of the lines before.
        """
        future: asyncio.Future[T] = asyncio.get_running_loop().create_future()

        def hear_last(answer: str) -> None:
            def act() -> None:
                result = finish(answer)
                if not future.done():
                    future.set_result(result)

            self._events.append(_Event(max(hear(answer), default=0), act, future))
            self._settle()

        operator = self._live().operator
        for former in before:
            operator.send(former, take)
        operator.send(line, hear_last, future)
        return future

    def _settle(self) -> None:
        """Does all that waits for no further ticket."""
        while (held := self._early.pop(self._last + 1, None)) is not None:
            self._holdings.add(held)
            self._last += 1
            self._tell_change()
        while self._events and self._events[0].ticket <= self._last:
            self._events.popleft().act()

    def _stop_waiting(self) -> None:
        """Does what still waits, as the process that has ended reports no further ticket."""
        for ticket in sorted(self._early):
            self._last = ticket
            self._holdings.add(self._early.pop(ticket))
        while self._events:
            event = self._events.popleft()
            try:
                event.act()
            except ValueError:
                if not event.future.done():
                    event.future.set_exception(Down("the pool's process ended meanwhile"))
                    event.future.exception()

    def _add(self, held: Held) -> None:
        if held.ticket <= self._last or held.ticket in self._early:
            raise ValueError(f"ticket {held.ticket} was given before")
        self._early[held.ticket] = held
        self._settle()

    def _drop(self, tickets: Iterable[int]) -> None:
        self._holdings.drop(tickets)
        self._tell_change()

    def _tell_change(self) -> None:
        """Wakes those who wait for a change."""
        self._changed.set()
        self._changed = asyncio.Event()


def _read_error(answer: str) -> KeltuvarError | None:
    """Returns the error in an answer. Raises a ValueError if the process can't go on after it."""
    error = error_in(answer)
    if isinstance(error, Refused) and error.word == "history":
        raise ValueError("it has made as many changes as it may")
    return error


def _send(
    conversation: Conversation,
    before: Iterable[str],
    take: Callable[[str], Any],
    line: str,
    read: Callable[[str], T],
) -> asyncio.Future[T]:
    """Sends lines, and then one more, with no other line between them.

    The answers of the former are given to `take`, and the future gets what is read of the last
    one, also when nobody waits for it any more.
    """
    future: asyncio.Future[T] = asyncio.get_running_loop().create_future()

    def take_last(answer: str) -> None:
        result = read(answer)
        if not future.done():
            future.set_result(result)

    for former in before:
        conversation.send(former, take)
    conversation.send(line, take_last, future)
    return future
