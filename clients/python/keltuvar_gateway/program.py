"""The pool's process, and the conversations with it."""

from __future__ import annotations

import asyncio
import contextlib
import os
import subprocess
from collections import deque
from collections.abc import Callable, Sequence
from typing import Any, cast

from keltuvar.clients import Pipes

_ERROR_BYTES = 4096
_CHUNK = 1 << 16
# How many seconds a process has to end once it has closed a stream.
_GRACE = 1.0
# How many seconds a process may leave a line unanswered, in each of its conversations.
_SILENCE = 30.0
# How many seconds a process has to print its help.
_HELP = 10.0


class Down(Exception):
    """The pool's process isn't there, or doesn't have its transactions again yet."""


class Conversation:
    """Any number of lines under way to the pool's process, which answers each in order."""

    def __init__(self, kill: Callable[[str], None]) -> None:
        """The call ends the process, and says why."""
        self._kill = kill
        self._waiting: deque[tuple[Callable[[str], None], asyncio.Future[Any] | None]] = deque()
        self._unsent: list[str] = []
        self._unfinished: list[bytes] = []
        self._input: asyncio.WriteTransport | None = None
        self._is_lost = False
        # How many lines were answered, and how many at the last look while others waited.
        self._answered = 0
        self._seen: int | None = None

    def connect(self, lines: asyncio.WriteTransport) -> None:
        """Sends lines by the transport from now on."""
        self._input = lines

    @property
    def waiting(self) -> int:
        """How many lines wait for an answer."""
        return len(self._waiting)

    def look(self) -> bool:
        """Returns whether a line has waited for its answer since the last look."""
        before, self._seen = self._seen, self._answered if self._waiting else None
        return before is not None and before == self._seen

    def send(
        self,
        line: str,
        take: Callable[[str], None],
        future: asyncio.Future[Any] | None = None,
    ) -> None:
        """Sends a line. Its answer is given to `take`, in the order of the lines.

        If `take` raises a ValueError, the answer is one after which the process is ended. Then, and
        if the answer doesn't come, the future gets `Down`.
        """
        if self._is_lost:
            raise Down("the pool's process has ended")
        if not self._unsent:
            asyncio.get_running_loop().call_soon(self.flush)
        self._unsent.append(line)
        self._waiting.append((take, future))

    def ask(self, line: str) -> asyncio.Future[str]:
        """Sends a line, and returns its answer."""
        future: asyncio.Future[str] = asyncio.get_running_loop().create_future()

        def take(answer: str) -> None:
            if not future.done():
                future.set_result(answer)

        self.send(line, take, future)
        return future

    def flush(self) -> None:
        """Writes the lines that were sent since the last time."""
        if self._unsent and self._input and not self._input.is_closing():
            self._input.write(("\n".join(self._unsent) + "\n").encode("ascii", "replace"))
        self._unsent.clear()

    def end(self) -> None:
        """Ends the lines."""
        self.flush()
        if self._input:
            self._input.close()

    def lose(self) -> None:
        """Takes no more lines."""
        self._is_lost = True

    def close(self) -> None:
        """Ends the lines of a process that has ended."""
        self._unsent.clear()
        if self._input:
            self._input.close()

    def receive(self, data: bytes) -> None:
        """Takes a part of the answers."""
        first, *others = data.split(b"\n")
        self._unfinished.append(first)
        if others:
            self._take(b"".join(self._unfinished))
            for whole in others[:-1]:
                self._take(whole)
            self._unfinished = [others[-1]] if others[-1] else []

    def _take(self, answer: bytes) -> None:
        """Gives an answer to what waits for it."""
        if not self._waiting:
            self._kill("it wrote an answer without a line")
            return
        take, future = self._waiting.popleft()
        self._answered += 1
        text = answer.decode("ascii", "backslashreplace")
        try:
            take(text)
        except ValueError as error:
            reason = f"{text!r:.80}: {error}"
            self._kill(reason)
            _fail(future, reason)

    def fail(self, reason: str) -> None:
        """Fails what still waits for an answer."""
        self._is_lost = True
        for _, future in self._waiting:
            _fail(future, reason)
        self._waiting.clear()


def _fail(future: asyncio.Future[Any] | None, reason: str) -> None:
    """Fails what waits for an answer."""
    if future is not None and not future.done():
        future.set_exception(Down(reason))
        # Not everybody who asked waits for it to the end.
        future.exception()


class _Client(asyncio.Protocol):
    """The end of a client's conversation at which answers are read."""

    def __init__(self, conversation: Conversation, lose: Callable[[], None]) -> None:
        self.conversation, self._lose = conversation, lose

    def data_received(self, data: bytes) -> None:
        self.conversation.receive(data)

    def connection_lost(self, exc: Exception | None) -> None:
        self._lose()


class Program(asyncio.SubprocessProtocol):
    """A process that holds a conversation with the operator, and one with each of some clients.

    One that leaves a line unanswered for long is killed: it keeps the operator's output open also
    when that conversation has ended. `ended` is done once the process has ended, and says how.
    """

    def __init__(self) -> None:
        self.ended: asyncio.Future[str] = asyncio.get_running_loop().create_future()
        self.operator = Conversation(self.kill)
        self.clients: list[Conversation] = []
        self._pipes: list[Pipes] = []
        self._readers: list[tuple[Conversation, asyncio.ReadTransport]] = []
        self._error_end = b""
        self._fault = ""
        self._is_ending = self._is_lost = False
        self._watching: asyncio.Task[None] | None = None

    @classmethod
    async def start(cls, command: Sequence[str], clients: int = 0) -> Program:
        """Starts the process, in a group of its own. Raises an OSError if it can't be run.

        It may open the pipes of clients until `forget_pipes`.
        """
        loop = asyncio.get_running_loop()
        with contextlib.ExitStack() as stack:
            pipes = [stack.enter_context(contextlib.closing(Pipes())) for _ in range(clients)]
            words = [word for pair in pipes for word in pair.words]
            _, program = await loop.subprocess_exec(cls, *command, *words, start_new_session=True)
            stack.pop_all()
        program._pipes = pipes
        program._watching = asyncio.create_task(program._watch())
        try:
            for pair in pipes:
                await program._connect(pair)
        except BaseException:
            program.kill()
            raise
        if program.ended.done():
            program.forget_pipes()
            program._fail_all(program.ended.result())
        return program

    async def _watch(self) -> None:
        """Kills the process if it leaves a line unanswered for long."""
        while not self.ended.done():
            await asyncio.sleep(_SILENCE)
            if any([one.look() for one in (self.operator, *self.clients)]):
                self.kill("it left a line unanswered")

    async def _connect(self, pipes: Pipes) -> None:
        """Begins a client's conversation."""
        loop = asyncio.get_running_loop()
        conversation = Conversation(self.kill)
        client, _ = await loop.connect_read_pipe(
            lambda: _Client(conversation, self._lose_client), pipes.answers
        )
        transport, _ = await loop.connect_write_pipe(asyncio.BaseProtocol, pipes.lines)
        conversation.connect(transport)
        self._readers.append((conversation, client))
        self.clients.append(conversation)

    def forget_pipes(self) -> None:
        """Notices from now on what the process closes, as it has opened the pipes."""
        for pair in self._pipes:
            pair.let_go()

    @property
    def pid(self) -> int:
        """The process's number."""
        return self._transport.get_pid()

    @property
    def waiting(self) -> int:
        """How many lines wait for an answer."""
        return sum(one.waiting for one in (self.operator, *self.clients))

    @property
    def is_lost(self) -> bool:
        """Whether the process takes no more lines."""
        return self._is_lost or self.ended.done()

    async def end(self, patience: float) -> None:
        """Closes the process's inputs, waits this long for its end, and then kills it."""
        self._is_ending = True
        for one in (self.operator, *self.clients):
            one.end()
        await asyncio.wait([self.ended], timeout=patience)
        self.kill("it didn't end by itself")
        await asyncio.wait([self.ended], timeout=patience)

    def kill(self, fault: str = "") -> None:
        """Kills the process if it hasn't ended. The fault says why."""
        if not self.ended.done():
            self._fault = self._fault or fault
            self._take_no_more()
            with contextlib.suppress(ProcessLookupError):
                self._transport.kill()

    def _take_no_more(self) -> None:
        self._is_lost = True
        for one in (self.operator, *self.clients):
            one.lose()

    def _lose(self) -> None:
        """Gives a process that has closed a stream the time to end by itself."""
        if not self.ended.done():
            # Most likely it is about to do so, with a status of its own.
            self._take_no_more()
            asyncio.get_running_loop().call_later(_GRACE, self.kill)

    def _lose_client(self) -> None:
        """Ends a process that ended a client's conversation, as answers may be missing."""
        if not self._is_ending:
            self._lose()

    # What asyncio calls.

    def connection_made(self, transport: asyncio.BaseTransport) -> None:
        self._transport = cast(asyncio.SubprocessTransport, transport)
        lines = cast(asyncio.WriteTransport, self._transport.get_pipe_transport(0))
        self.operator.connect(lines)

    def pipe_data_received(self, fd: int, data: bytes) -> None:
        if fd == 2:
            self._error_end = (self._error_end + data)[-_ERROR_BYTES:]
        else:
            self.operator.receive(data)

    def pipe_connection_lost(self, fd: int, exc: Exception | None) -> None:
        if fd == 1 or (fd == 0 and not self._is_ending):
            self._lose()

    def connection_lost(self, exc: Exception | None) -> None:
        """Fails what still waits: the process has ended, and all that it wrote was read."""
        status = self._transport.get_returncode()
        self._transport.close()
        self.forget_pipes()
        if self._watching:
            self._watching.cancel()
        details = [self._fault, self._error_end.decode("utf-8", "backslashreplace").strip()]
        reason = ": ".join(
            [f"the pool's process ended with status {status}", *filter(None, details)]
        )
        if not self.ended.done():
            self.ended.set_result(reason)
        self._fail_all(reason)

    def _fail_all(self, reason: str) -> None:
        """Takes what the process has written, and fails what still waits."""
        for conversation, answers in self._readers:
            _drain(conversation, answers)
        for one in (self.operator, *self.clients):
            one.close()
            one.fail(reason)


def _drain(conversation: Conversation, answers: asyncio.ReadTransport) -> None:
    """Takes the answers that a process wrote before its end."""
    if answers.is_closing():
        return
    with contextlib.suppress(OSError):
        while data := os.read(answers.get_extra_info("pipe").fileno(), _CHUNK):
            conversation.receive(data)
    answers.close()


def knows_clients(command: Sequence[str]) -> bool:
    """Returns whether a program can hold conversations of clients. One that can't be run can't."""
    try:
        found = subprocess.run([*command, "--help"], capture_output=True, timeout=_HELP)
        return b"--client " in found.stdout
    except (OSError, subprocess.TimeoutExpired):
        return False
