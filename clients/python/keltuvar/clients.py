"""A pool that several conversations share."""

from __future__ import annotations

import contextlib
import errno
import fcntl
import os
import termios
import time
from io import FileIO
from types import TracebackType

from . import words
from .channel import Channel
from .pool import LAST_WORDS, NoTurn, Pool, Program, Signatures, make_command, read_limit
from .process import Process

MOST_CLIENTS = 63
"""How many clients a program takes."""

# How many seconds a conversation has to end when the time of all is over.
_LEAST_SECONDS = 0.001
# What this process has open.
_ENDS = "/proc/self/fd"


class Clients:
    """A program that holds a pool for an operator and some clients.

        with Clients("crates/mp_main/out/mp_main", 2, timeout=10) as pools:
            pools.operator.out("g0", 100)
            pools.operator.snapshot()
            print(pools.clients[0].give(data))

    Each has a conversation of its own, with names of its own, whose calls don't wait for those of
    others. Any number of threads may call each. The operator's first request opens the pool, and
    the calls of clients wait for it. A client's call that has no answer in time ends only that
    conversation; one of the operator's ends the program.
    """

    operator: Pool
    """The conversation that opens the pool and adopts ledger states. Only it may remove."""
    clients: tuple[Pool, ...]
    """The conversation of each client."""

    def __init__(
        self,
        program: Program,
        count: int,
        *,
        signatures: Signatures = "trial",
        salt: int | None = None,
        names: int | None = None,
        timeout: float | None = None,
    ) -> None:
        """Starts `PROGRAM serve` for so many clients, 0 to 63.

        The other arguments are those of `Pool`. Raises an OSError if the program can't be run, or
        may not open the pipes of this process.
        """
        limit, number = read_limit(timeout), int(words.format_number(count, MOST_CLIENTS))
        command = make_command(program, signatures, salt, names)
        self._owner = os.getpid()
        with contextlib.ExitStack() as stack:
            pipes = [stack.enter_context(contextlib.closing(Pipes())) for _ in range(number)]
            for pair in pipes:
                command += pair.words
            self._process = process = Process(command)
            self.operator = stack.enter_context(Pool._over(process.channel, process, limit))
            self.clients = tuple(
                stack.enter_context(_Client.over_pipes(pair, self.operator, process, limit))
                for pair in pipes
            )
            self._open = stack.pop_all()

    def __enter__(self) -> Clients:
        return self

    def __exit__(
        self,
        kind: type[BaseException] | None,
        error: BaseException | None,
        traceback: TracebackType | None,
    ) -> None:
        self.close()

    @property
    def pid(self) -> int:
        """The number of the program's process."""
        return self._process.pid

    @property
    def status(self) -> int | None:
        """The program's exit status once it has ended, negative if a signal ended it."""
        return self._process.status

    def close(self, timeout: float = 5.0) -> None:
        """Ends all conversations and the program, as `Pool.close` does."""
        if os.getpid() != self._owner:
            self._open.close()
            return
        until = time.monotonic() + timeout
        # What is open closes the rest if one of these is interrupted.
        with self._open:
            for pool in (*self.clients, self.operator):
                pool.close(max(until - time.monotonic(), _LEAST_SECONDS))


class Pipes:
    """The pipes of a client's conversation: one for its lines, and one for their answers.

    The program opens its ends itself, as `/proc` has those of this process. They stay open here
    until it has. After `let_go` each side notices when the other closes a pipe or ends.
    """

    def __init__(self) -> None:
        """Makes them. Raises an OSError if the program may not open what this process has."""
        _check_dumpable()
        read_lines, self.lines = _open_pipe()
        self.answers, write_answers = _open_pipe()
        self._of_program = (read_lines, write_answers)
        # The words of the program's command line.
        self.words = ["--client"]
        self.words += [f"/proc/{os.getpid()}/fd/{end.fileno()}" for end in self._of_program]

    def let_go(self) -> None:
        """Closes the program's ends here, once it has opened them."""
        for end in self._of_program:
            end.close()

    def close(self) -> None:
        """Closes all ends."""
        self.let_go()
        self.lines.close()
        self.answers.close()


def _check_dumpable() -> None:
    """Raises an OSError if only a privileged process may open what this one has."""
    if os.stat(_ENDS).st_uid != os.geteuid():
        reason = "no program may open a pipe of this process, as it isn't dumpable: see prctl(2)"
        raise PermissionError(errno.EACCES, reason, _ENDS)


def _open_pipe() -> tuple[FileIO, FileIO]:
    """Makes a pipe, and returns the end that is read and the one that is written."""
    read, write = os.pipe()
    return open(read, "rb", buffering=0), open(write, "wb", buffering=0)


class _Channel(Channel):
    """A channel over a client's pipes."""

    def __init__(self, pipes: Pipes, process: Process) -> None:
        super().__init__(pipes.answers, pipes.lines, has_ended=lambda: process.has_ended(0))
        self._pipes: Pipes | None = pipes

    def _let_go(self) -> None:
        if self._pipes:
            self._pipes.let_go()
            self._pipes = None

    def _receive(self) -> list[bytes]:
        # The program has written, so it has opened both.
        self._let_go()
        return super()._receive()

    def _wait(self, sending: bool, until: float) -> bool:
        if self._pipes and not sending and self._is_read():
            # It has opened both, and may end the conversation without an answer.
            self._let_go()
        return super()._wait(sending, until)

    def _is_read(self) -> bool:
        """Returns whether the program has read all that was written."""
        try:
            unread = fcntl.ioctl(self._lines_fd, termios.FIONREAD, bytes(4))
        except (OSError, ValueError):
            # Another thread has closed it.
            return False
        return not any(unread)


class _Client(Pool):
    """A conversation over pipes, with a program that the operator's pool ends."""

    _operator: Pool
    _shared: Process

    @classmethod
    def over_pipes(cls, pipes: Pipes, operator: Pool, process: Process, limit: float) -> _Client:
        """Returns the conversation over the pipes, which the program may open later."""
        client = cls._over(_Channel(pipes, process), None, limit)
        client._operator, client._shared = operator, process
        return client

    @property
    def pid(self) -> int:
        """The number of the program's process."""
        return self._shared.pid

    @property
    def status(self) -> int | None:
        """The program's exit status once it has ended, negative if a signal ended it."""
        return self._shared.status

    def _hear_end(self) -> None:
        super()._hear_end()
        self._shared.has_ended(LAST_WORDS)

    def _error_text(self) -> str:
        with contextlib.suppress(NoTurn):
            return self._operator._in_turn(LAST_WORDS, self._operator._error_text)
        return ""
