"""A pool, and its calls."""

from __future__ import annotations

import contextlib
import math
import os
import threading
import time
from collections.abc import Callable, Iterable, Sequence
from types import TracebackType
from typing import Literal, Self, TypeAlias, TypeVar

from . import answers, words
from .channel import Cancelled, Channel, Ended, OutOfTime, Stream, Unasked
from .errors import Broken, Closed, KeltuvarError, Timeout
from .process import Process
from .values import (
    Block,
    Bundle,
    Declared,
    Given,
    Input,
    Item,
    LedgerChange,
    Output,
    Removed,
    Shown,
    Snapshot,
    Stats,
)

T = TypeVar("T")
Program: TypeAlias = str | os.PathLike[str]
Signatures: TypeAlias = Literal["trial", "checked", "ed25519", "scenarios"]


class NoTurn(Exception):
    """Other threads took all the time that a call has."""


# How many seconds a program that has closed a stream has to end, so that its status is its own.
LAST_WORDS = 1.0
# How many characters of a line an error shows.
_MOST_TOLD = 60
_MOST_BLOCK, _MOST_LIMIT = 2**39, 2**32
_MOST_NAMES = 2**32
# So many ids fit on a line.
_MOST_IDS = 490


class Pool:
    """A pool that a program holds.

    A transaction is its name, or `#` and the id of one that the pool holds.

    Each call sends one line to `keltuvar serve` and reads its answer. Any number of threads may
    call. A call raises `Refused`, `Undecodable`, `BadLine` or `OutOfMemory` if the answer says so.
    Then nothing has changed. An argument that can't be a word of the line raises a
    ValueError, and nothing is sent.

    Each call has a `timeout` in seconds. None means that of the pool, and `math.inf` no limit. A
    call that a timeout or another exception interrupts, like KeyboardInterrupt, ends the program:
    its answer may still come, and would be mistaken for that to the next line. Then each call
    raises `Broken`.
    """

    def __init__(
        self,
        program: Program,
        *,
        signatures: Signatures = "trial",
        salt: int | None = None,
        names: int | None = None,
        timeout: float | None = None,
    ) -> None:
        """Starts `PROGRAM serve`. Raises an OSError if that can't be run.

        signatures: what the pool accepts. "trial" signatures, also called "scenarios", are the key
            and then the id. "checked" accepts every signature, as verified by the caller.
            "ed25519" accepts Ed25519 signatures of the id.
        salt: a number for the program's `--salt`; without one the program chooses.
        names: how many names may be declared, 1 to 2^32, default 65,536.
        timeout: the limit of each call that has none of its own; None is no limit.
        """
        limit = read_limit(timeout)
        process = Process(make_command(program, signatures, salt, names))
        self._set_up(process.channel, process, limit)

    @classmethod
    def from_streams(cls, answers: Stream, lines: Stream, *, timeout: float | None = None) -> Pool:
        """Returns a pool over the streams of a program that runs already.

        answers: what the program's answers are read from; nothing of it may be buffered.
        lines: what lines are written to. It may be the same socket.
        timeout: as of `Pool`.

        Both become non-blocking, and are closed with the pool.
        """
        return cls._over(Channel(answers, lines), None, read_limit(timeout))

    @classmethod
    def _over(cls, channel: Channel, process: Process | None, limit: float) -> Self:
        """Returns a pool over a channel, and perhaps the process that it ends with itself."""
        pool = cls.__new__(cls)
        pool._set_up(channel, process, limit)
        return pool

    def _set_up(self, channel: Channel, process: Process | None, limit: float) -> None:
        self._channel, self._process, self._limit = channel, process, limit
        self._owner = os.getpid()
        # It is held from a line to its answer. Only the thread that holds it can release it.
        self._turn = threading.RLock()
        self._closed = False
        # Why there is no further call. It is also set while an answer is awaited.
        self._fault: str | None = None

    def __enter__(self) -> Pool:
        return self

    def __exit__(
        self,
        kind: type[BaseException] | None,
        error: BaseException | None,
        traceback: TracebackType | None,
    ) -> None:
        self.close()

    @property
    def pid(self) -> int | None:
        """The number of the program's process; None if the pool didn't start it."""
        return self._process.pid if self._process else None

    @property
    def status(self) -> int | None:
        """The program's exit status once it has ended, negative if a signal ended it."""
        return self._process.status if self._process else None

    def close(self, timeout: float = 5.0) -> None:
        """Ends the conversation and the program. Any thread may do so, and more than once.

        So many seconds are left to a call that is under way, and to the program to end by itself.
        Then the call raises `Closed`, and the program is terminated, and killed if need be.
        """
        if os.getpid() != self._owner:
            self._channel.close()
            return
        seconds = _check_seconds(timeout)
        until = time.monotonic() + seconds
        self._closed = True
        try:
            with contextlib.suppress(NoTurn):
                self._in_turn(seconds, lambda: self._finish(until))
        finally:
            self._stop()

    def _finish(self, until: float) -> None:
        """Ends the conversation, and waits for the program's end."""
        self._channel.end_lines()
        if self._process:
            self._process.end(max(0.0, until - time.monotonic()))

    def _stop(self) -> None:
        """Ends the program at once, and with it the call that is under way."""
        self._channel.cancel()
        try:
            if self._process:
                self._process.kill()
        finally:
            with contextlib.suppress(NoTurn):
                self._in_turn(LAST_WORDS, self._channel.close)

    # Lines as they are.

    def ask(self, line: str, *, timeout: float | None = None) -> str:
        """Sends a line and returns its answer. Raises the error that the answer reports."""
        return self._ask([words.format_line(line)], lambda answer: answer, timeout)

    def ask_all(self, lines: Iterable[str], *, timeout: float | None = None) -> list[str]:
        """Sends many lines without waiting for each, and returns their answers.

        It is faster than a call for each. It raises nothing that an answer says is wrong;
        `error_in` reads that. The timeout is that of all together.
        """
        checked = words.format_lines(lines)
        return self._exchange(checked, lambda all_answers: all_answers, timeout) if checked else []

    # Before the first command.

    def settings(
        self,
        *,
        block: int | None = None,
        limit: int | None = None,
        last: int | None = None,
        tick: int | None = None,
        timeout: float | None = None,
    ) -> None:
        """Makes the given settings, each once in a conversation and before the first command.

        block: the bytes that a block may have, 1 to 2^39, default 500,000; room is twice that.
        limit: changes are counted from 0 again after this many, 1 to 2^32, default 1,000,000.
        last: the ticket that counts as the last one given, default 0.
        tick: the tick of the opening ledger state, default 0.

        Each is a line of its own. If one is bad, the others are done, and the first error is
        raised.
        """
        lines = []
        if block is not None:
            lines.append(f"block {words.format_number(block, _MOST_BLOCK)}")
        if limit is not None:
            lines.append(f"limit {words.format_number(limit, _MOST_LIMIT)}")
        if last is not None:
            lines.append(f"last {words.format_number(last)}")
        if tick is not None:
            lines.append(f"tick {words.format_number(tick)}")
        if lines:
            self._raise_first(self._exchange(lines, _each(answers.read_ok), timeout))

    def out(self, name: str, output: Output | Bundle, *, timeout: float | None = None) -> None:
        """Declares an output of the opening ledger state, as in `out("g0", 100)`."""
        line = ["out", words.format_name(name), words.format_output(output)]
        return self._ask(line, answers.read_ok, timeout)

    def utxo(
        self, transaction_id: str, index: int, data: bytes, *, timeout: float | None = None
    ) -> None:
        """Adds an output, given its bytes in a transaction, to the opening ledger state."""
        reference = words.format_output_id(transaction_id, index)
        return self._ask(["utxo", reference, words.format_bytes(data)], answers.read_ok, timeout)

    # Declarations.

    def script(self, name: str, code: bytes, *, timeout: float | None = None) -> None:
        """Declares a script by its bytes."""
        line = ["script", words.format_name(name), words.format_bytes(code)]
        return self._ask(line, answers.read_ok, timeout)

    def data(self, name: str, datum: bytes, *, timeout: float | None = None) -> None:
        """Declares a datum by its bytes."""
        line = ["data", words.format_name(name), words.format_bytes(datum)]
        return self._ask(line, answers.read_ok, timeout)

    def tx(
        self,
        name: str,
        *,
        inputs: Iterable[Input | str] = (),
        references: Iterable[str] = (),
        outputs: Iterable[Output | Bundle] = (),
        first_tick: int | None = None,
        last_tick: int | None = None,
        forge: Bundle | None = None,
        policies: Iterable[str] = (),
        signed_by: Iterable[int] = (),
        badly_signed_by: Iterable[int] = (),
        timeout: float | None = None,
    ) -> None:
        """Declares a transaction by its parts, at least one.

        inputs: what it spends, each an `Input` or just a reference.
        references: the outputs that it refers to and doesn't spend.
        outputs: what it pays, each an `Output`, or just a bundle that the script `yes` locks.
        first_tick, last_tick: when it is valid, else always.
        forge: what it forges, and burns where a quantity is negative.
        policies: the names of the policy scripts that it carries.
        signed_by: keys of good signatures, each a byte, as scenarios have them.
        badly_signed_by: keys of signatures that aren't good.
        """
        items = [f"in={words.format_input(spent)}" for spent in words.check_list(inputs)]
        items += [f"ref={word}" for word in words.format_references(references)]
        items += [f"out={words.format_output(output)}" for output in words.check_list(outputs)]
        if first_tick is not None:
            items.append(f"from={words.format_number(first_tick)}")
        if last_tick is not None:
            items.append(f"to={words.format_number(last_tick)}")
        if forge is not None:
            items.append(f"forge={words.format_bundle(forge)}")
        items += [f"policy={policy}" for policy in words.format_names(policies)]
        items += [f"sign={key}" for key in words.format_keys(signed_by)]
        items += [f"badsign={key}" for key in words.format_keys(badly_signed_by)]
        line = ["tx", words.format_transaction_name(name), *items]
        return self._ask(line, answers.read_ok, timeout)

    def tx_from_bytes(self, name: str, data: bytes, *, timeout: float | None = None) -> Declared:
        """Declares a transaction by its bytes. This is the line `bytes`."""
        line = ["bytes", words.format_transaction_name(name), words.format_bytes(data)]
        return self._ask(line, answers.read_declared, timeout)

    def show(self, transaction: str, *, timeout: float | None = None) -> Shown:
        """Returns the bytes of a transaction, by its name, or by `#ID` if the pool holds it."""
        line = ["show", words.format_transaction(transaction)]
        return self._ask(line, answers.read_shown, timeout)

    def forget(self, *names: str, timeout: float | None = None) -> int:
        """Forgets names of outputs and transactions, and returns how many it forgot.

        A name stays where the pool needs it for a transaction that it holds. One that isn't
        declared counts nothing.
        """
        line = ["forget", *words.format_some(words.format_names(names))]
        return self._ask(line, answers.read_forgotten, timeout)

    def ids(self, *, timeout: float | None = None) -> None:
        """Makes the pool report transactions by their ids from now on."""
        return self._ask(["ids"], answers.read_ok, timeout)

    def names(self, *, timeout: float | None = None) -> None:
        """Makes the pool report transactions by their names again."""
        return self._ask(["names"], answers.read_ok, timeout)

    def reset(self, *, timeout: float | None = None) -> None:
        """Forgets all names and what is staged, ends `ids`, and counts lines from 1.

        The pool holds what it held.
        """
        return self._ask(["reset"], answers.read_ok, timeout)

    # Changes.

    def check(self, transaction: str, *, timeout: float | None = None) -> int:
        """Returns the ticket that `submit` would give, or raises its refusal. Nothing changes."""
        line = ["check", words.format_transaction(transaction)]
        return self._ask(line, answers.read_ticket, timeout)

    def submit(self, transaction: str, *, timeout: float | None = None) -> int:
        """Submits a declared transaction, and returns its ticket."""
        return self._ask(["submit", words.format_name(transaction)], answers.read_ticket, timeout)

    def give(self, data: bytes, *, timeout: float | None = None) -> Given:
        """Submits a transaction by its bytes, without a name. A `Refused` has its id."""
        return self._ask(["give", words.format_bytes(data)], answers.read_given, timeout)

    def remove(self, *transactions: str, timeout: float | None = None) -> Removed:
        """Takes out transactions and their dependents. Those not in the pool have no effect."""
        line = ["remove", *words.format_some(words.format_transactions(transactions))]
        return self._ask(line, answers.read_removed, timeout)

    def sync(
        self,
        tick: int,
        references: Iterable[str],
        *,
        block: int | None = None,
        timeout: float | None = None,
    ) -> LedgerChange:
        """Adopts the ledger state at the tick with exactly these unspent outputs.

        block: the bytes that a block may have from now on, else those of `settings`.
        """
        line = ["sync", *_format_moment(tick, block), *words.format_references(references)]
        return self._ask(line, answers.read_ledger_change, timeout)

    def adopt(
        self,
        tick: int,
        transactions: Iterable[str],
        *,
        block: int | None = None,
        timeout: float | None = None,
    ) -> LedgerChange:
        """Adopts the ledger state after a block of these transactions, in this order.

        block: as of `sync`. Where a transaction isn't valid the refusal's word is `adopt`.

        Without a transaction it is `adopt_staged`.
        """
        line = ["adopt", *_format_moment(tick, block), *words.format_transactions(transactions)]
        return self._ask(line, answers.read_ledger_change, timeout)

    def stage(self, data: bytes, *, timeout: float | None = None) -> int:
        """Stages a transaction by its bytes for the next block. Returns how many are staged."""
        return self._ask(["stage", words.format_bytes(data)], answers.read_staged, timeout)

    def stage_ids(self, ids: Iterable[str], *, timeout: float | None = None) -> int:
        """Stages transactions that the pool holds, by their ids. Returns how many are staged.

        Many ids are several lines. If the pool lacks one, none of its line is staged, those of
        the others are, and the first error is raised.
        """
        chosen = words.format_some(words.format_ids(ids))
        starts = range(0, len(chosen), _MOST_IDS)
        lines = [" ".join(["stage", *chosen[start : start + _MOST_IDS]]) for start in starts]
        counts = self._raise_first(self._exchange(lines, _each(answers.read_staged), timeout))
        return counts[-1]

    def stage_output(
        self, transaction_id: str, index: int, data: bytes, *, timeout: float | None = None
    ) -> int:
        """Stages an output of the next ledger state, given its bytes in a transaction.

        Returns how many outputs are staged.
        """
        reference = words.format_output_id(transaction_id, index)
        line = ["stage", "utxo", reference, words.format_bytes(data)]
        return self._ask(line, answers.read_staged, timeout)

    def unstage(self, *, timeout: float | None = None) -> None:
        """Forgets all that is staged."""
        return self._ask(["unstage"], answers.read_ok, timeout)

    def adopt_staged(
        self, tick: int, *, block: int | None = None, timeout: float | None = None
    ) -> LedgerChange:
        """Adopts the ledger state after the block of the staged transactions, perhaps of none.

        block: as of `sync`. After a refusal they are still staged.
        """
        line = ["adopt", *_format_moment(tick, block)]
        return self._ask(line, answers.read_ledger_change, timeout)

    def sync_staged(
        self, tick: int, *, block: int | None = None, timeout: float | None = None
    ) -> LedgerChange:
        """Adopts the ledger state at the tick with exactly the staged outputs.

        block: as of `sync`. There may be no output called `staged`.
        """
        line = ["sync", *_format_moment(tick, block), "staged"]
        return self._ask(line, answers.read_ledger_change, timeout)

    def back(self, count: int, *, timeout: float | None = None) -> LedgerChange:
        """Adopts the ledger state before the last `count` calls of `adopt` or `sync`."""
        return self._ask(["back", words.format_number(count)], answers.read_ledger_change, timeout)

    # Reads.

    def snapshot(self, *, timeout: float | None = None) -> Snapshot:
        """Returns what the pool holds."""
        return self._ask(["snapshot"], answers.read_snapshot, timeout)

    def after(self, ticket: int, *, timeout: float | None = None) -> tuple[Item, ...]:
        """Returns the transactions with greater tickets, oldest first."""
        return self._ask(["after", words.format_number(ticket)], answers.read_after, timeout)

    def lookup(self, ticket: int, *, timeout: float | None = None) -> str | None:
        """Returns the name or the id of the transaction with this ticket, or None."""
        return self._ask(["lookup", words.format_number(ticket)], answers.read_lookup, timeout)

    def has(self, transaction: str, *, timeout: float | None = None) -> bool:
        """Returns whether the pool holds a transaction with this one's id."""
        return self._ask(["has", words.format_transaction(transaction)], answers.read_has, timeout)

    def take(self, size: int, *, timeout: float | None = None) -> Block:
        """Returns the oldest transactions, as long as they fit into `size` bytes in all."""
        return self._ask(["take", words.format_number(size)], answers.read_take, timeout)

    def forge(self, size: int, *, timeout: float | None = None) -> Block:
        """Returns a block of at most `size` bytes."""
        return self._ask(["forge", words.format_number(size)], answers.read_block, timeout)

    def offer(self, count: int, size: int, *, timeout: float | None = None) -> tuple[Item, ...]:
        """Returns what the pool's one peer is offered next. It is offered each transaction once.

        That is at most `count` transactions, of at most `size` bytes in all.
        """
        line = ["offer", words.format_number(count), words.format_number(size)]
        return self._ask(line, answers.read_offer, timeout)

    def try_ledger(
        self,
        tick: int,
        references: Iterable[str],
        *,
        block: int | None = None,
        timeout: float | None = None,
    ) -> tuple[Item, ...]:
        """Returns what would stay after such a `sync`. The pool doesn't change. The line is `for`."""
        line = ["for", *_format_moment(tick, block), *words.format_references(references)]
        return self._ask(line, answers.read_kept_for, timeout)

    def stats(self, *, timeout: float | None = None) -> Stats:
        """Returns the pool's numbers."""
        return self._ask(["stats"], answers.read_stats, timeout)

    # Making a call.

    def _ask(self, line: Sequence[str], read: Callable[[str], T], timeout: float | None) -> T:
        """Sends the line of these words and reads its answer. Raises the error that it reports."""
        result = self._exchange([" ".join(line)], _each(read), timeout)
        return self._raise_first(result)[0]

    def _raise_first(self, results: list[T | KeltuvarError]) -> list[T]:
        """Returns the results, or raises the first error among them."""
        good: list[T] = []
        for result in results:
            if isinstance(result, KeltuvarError):
                raise result
            good.append(result)
        return good

    def _exchange(
        self, lines: Sequence[str], read: Callable[[list[str]], T], timeout: float | None
    ) -> T:
        """Sends the lines while it holds the lock, and reads their answers."""
        seconds = self._limit if timeout is None else _check_seconds(timeout)
        until = time.monotonic() + seconds
        told = _shorten(lines[0])
        if os.getpid() != self._owner:
            raise Closed("the pool is that of another process")
        try:
            return self._in_turn(seconds, lambda: self._exchange_in_turn(lines, read, until))
        except NoTurn:
            raise Timeout(told, seconds, sent=False) from None
        except OutOfTime:
            raise Timeout(told, seconds, sent=True) from None

    def _in_turn(self, seconds: float, action: Callable[[], T]) -> T:
        """Holds the lock during the action. Raises `NoTurn` after this many seconds without it."""
        try:
            if not self._turn.acquire(timeout=min(seconds, threading.TIMEOUT_MAX)):
                raise NoTurn
            return action()
        finally:
            # After an interrupt just after `acquire` only the lock knows who holds it.
            try:
                self._turn.release()
            except RuntimeError:
                pass

    def _exchange_in_turn(
        self, lines: Sequence[str], read: Callable[[list[str]], T], until: float
    ) -> T:
        """Sends the lines and reads their answers. If those don't come, it ends the program."""
        if self._closed or self._fault is not None:
            raise self._end()
        if time.monotonic() >= until:
            raise NoTurn
        told = _shorten(lines[0])
        self._fault = f"the call of '{told}' was interrupted, so the conversation was ended"
        try:
            text = "".join(f"{line}\n" for line in lines).encode("ascii")
            result = read(self._channel.exchange(text, len(lines), until))
            self._fault = None
            return result
        except OutOfTime:
            self._fault = f"the call of '{told}' had no answer in time, so the conversation was ended"
            raise
        except Ended:
            self._hear_end()
            ended = "the conversation ended"
            if self.status is not None:
                ended = f"the program ended with status {self.status}"
            self._fault = f"{ended} before it answered '{told}'"
            raise self._end() from None
        except Unasked:
            self._fault = f"the program wrote more than one answer, at '{told}'"
            raise self._end() from None
        except Cancelled:
            raise self._end() from None
        except ValueError as error:
            self._fault = f"the answer to '{told}' has no known form: {error}"
            raise self._end() from None
        finally:
            if self._fault is not None:
                self._end()

    def _hear_end(self) -> None:
        """Gives a program that has closed a stream the time to end by itself."""
        self._finish(time.monotonic() + LAST_WORDS)

    def _error_text(self) -> str:
        """Returns the end of the program's standard error so far."""
        return self._channel.error_text()

    def _end(self) -> KeltuvarError:
        """Ends the program, under the lock. Returns why no further call can be made."""
        if self._process:
            self._process.kill()
        error_text = self._error_text()
        self._channel.close()
        if self._closed:
            return Closed("the pool is closed")
        return Broken(self._fault or "", self.status, error_text)


def make_command(
    program: Program, signatures: Signatures, salt: int | None, names: int | None
) -> list[str]:
    """Returns the command line that begins a conversation."""
    if signatures not in ("trial", "checked", "ed25519", "scenarios"):
        raise ValueError(f"{signatures!r:.80} is none of 'trial', 'checked' and 'ed25519'")
    command = [os.fspath(program), "serve"]
    if signatures in ("checked", "ed25519"):
        command += ["--signatures", signatures]
    if salt is not None:
        command += ["--salt", words.format_number(salt)]
    if names is not None:
        if names == 0:
            raise ValueError("a conversation has at least 1 name")
        command += ["--names", words.format_number(names, _MOST_NAMES)]
    return command


def read_limit(timeout: float | None) -> float:
    return _check_seconds(math.inf if timeout is None else timeout)


def _check_seconds(timeout: float) -> float:
    if not timeout > 0:
        raise ValueError(f"a timeout of {timeout!r} isn't more than 0")
    return timeout


def _shorten(line: str) -> str:
    return line if len(line) <= _MOST_TOLD else f"{line[:_MOST_TOLD]}.."


def _format_moment(tick: int, block: int | None) -> list[str]:
    """Returns the tick of a ledger state, and its block bytes if they are given."""
    moment = [words.format_number(tick)]
    if block is not None:
        moment.append(f"block={words.format_number(block, _MOST_BLOCK)}")
    return moment


def _each(read: Callable[[str], T]) -> Callable[[list[str]], list[T | KeltuvarError]]:
    """Returns a reader of answers, which returns the result or the error that an answer reports."""

    def read_one(answer: str) -> T | KeltuvarError:
        try:
            return answers.error_in(answer) or read(answer)
        except ValueError as error:
            raise ValueError(f"{answer!r:.80}: {error}") from None

    return lambda all_answers: [read_one(answer) for answer in all_answers]
