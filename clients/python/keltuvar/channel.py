"""Lines out and answers in, over two streams, until the deadline of a call."""

from __future__ import annotations

import contextlib
import math
import os
import select
import time
from collections.abc import Callable
from typing import Protocol

_CHUNK = 1 << 16
# The interval, in seconds, at which a wait checks whether another thread wants it to end.
_LONGEST_WAIT = 0.5
# How many bytes of the program's standard error are kept.
_ERROR_BYTES = 4096


class Stream(Protocol):
    """A pipe, a socket, or a file object of one."""

    def fileno(self) -> int:
        """Returns its file descriptor."""
        ...

    def close(self) -> object:
        """Closes it."""
        ...


class Ended(Exception):
    """The program reads no more lines, or writes no more answers."""


class OutOfTime(Exception):
    """The deadline has passed, and answers are missing."""


class Cancelled(Exception):
    """Another thread wants the wait to end."""


class Unasked(Exception):
    """The program wrote something before a line was sent."""


class Channel:
    """Two streams, which become non-blocking, and a third one for standard error.

    `has_ended` says whether the program has. Without it only the streams show that.
    """

    def __init__(
        self,
        answers: Stream,
        lines: Stream,
        errors: Stream | None = None,
        has_ended: Callable[[], bool] = lambda: False,
    ) -> None:
        self._has_ended = has_ended
        self._streams = [answers, lines] if errors is None else [answers, lines, errors]
        self._lines = lines
        self._answers_fd, self._lines_fd = answers.fileno(), lines.fileno()
        self._errors_fd = None if errors is None else errors.fileno()
        self._unfinished: list[bytes] = []
        self._error_end = b""
        self._cancelled = False
        for stream in self._streams:
            os.set_blocking(stream.fileno(), False)

    def exchange(self, lines: bytes, count: int, until: float) -> list[str]:
        """Writes the lines, and returns `count` answers without their line feeds."""
        if self._unfinished or (self._poll(0, sending=False) and self._receive()):
            raise Unasked
        unsent = memoryview(lines)
        answers: list[bytes] = []
        while True:
            unsent = unsent[self._send(unsent) :]
            if (len(answers) < count or unsent) and self._wait(bool(unsent), until):
                answers += self._receive()
            if len(answers) > count or (len(answers) == count and (unsent or self._unfinished)):
                raise Unasked
            if len(answers) == count:
                return [answer.decode("ascii", "backslashreplace") for answer in answers]

    def cancel(self) -> None:
        """Makes the waits of other threads end within half a second, now and later."""
        self._cancelled = True

    def end_lines(self) -> None:
        """Ends the program's input."""
        with contextlib.suppress(OSError):
            self._lines.close()

    def close(self) -> None:
        """Closes the streams. Waits for them end, and read no other file."""
        self._cancelled = True
        self._answers_fd = self._lines_fd = -1
        self._errors_fd = None
        for stream in self._streams:
            with contextlib.suppress(OSError):
                stream.close()

    def error_text(self) -> str:
        """Returns the end of the program's standard error so far."""
        self._drain_errors()
        return self._error_end.decode("utf-8", "backslashreplace")

    def _send(self, unsent: memoryview) -> int:
        """Writes as much as fits, and returns how much that was."""
        try:
            return os.write(self._lines_fd, unsent) if unsent else 0
        except BlockingIOError:
            return 0
        except OSError as error:
            raise Ended from error

    def _receive(self) -> list[bytes]:
        """Reads what has come, and returns the complete lines."""
        try:
            chunk = os.read(self._answers_fd, _CHUNK)
        except BlockingIOError:
            return []
        except OSError as error:
            raise Ended from error
        if not chunk:
            raise Ended
        first, *others = chunk.split(b"\n")
        self._unfinished.append(first)
        if not others:
            return []
        whole = [b"".join(self._unfinished), *others[:-1]]
        self._unfinished = [others[-1]] if others[-1] else []
        return whole

    def _wait(self, sending: bool, until: float) -> bool:
        """Waits until something can be read, or written if there is something to send.

        Returns whether it can be read. A named pipe that nobody has opened yet can't, and a read
        would seem to be at its end.
        """
        left = until - time.monotonic()
        if self._cancelled:
            raise Cancelled
        if left <= 0:
            raise OutOfTime
        has_ended = self._has_ended()
        can_read = self._poll(0 if has_ended else min(left, _LONGEST_WAIT), sending)
        if has_ended and not can_read:
            raise Ended
        return can_read

    def _poll(self, seconds: float, sending: bool) -> bool:
        """Waits at most this long, and returns whether something can be read."""
        events = {self._answers_fd: select.POLLIN}
        if sending:
            events[self._lines_fd] = events.get(self._lines_fd, 0) | select.POLLOUT
        if self._errors_fd is not None:
            events[self._errors_fd] = select.POLLIN
        poll = select.poll()
        for descriptor, mask in events.items():
            poll.register(descriptor, mask)
        ready = [descriptor for descriptor, _ in poll.poll(math.ceil(seconds * 1000))]
        if self._errors_fd in ready:
            self._drain_errors()
        return self._answers_fd in ready

    def _drain_errors(self) -> None:
        """Keeps the end of the program's standard error so far."""
        try:
            while self._errors_fd is not None:
                chunk = os.read(self._errors_fd, _CHUNK)
                self._error_end = (self._error_end + chunk)[-_ERROR_BYTES:]
                if not chunk:
                    self._errors_fd = None
        except OSError:
            return
