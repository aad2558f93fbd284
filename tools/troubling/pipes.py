"""Our ends of a conversation's pipes, and lines and answers over them."""

from __future__ import annotations

import contextlib
import errno
import math
import os
import select
import subprocess
import time
from io import FileIO

CHUNK = 1 << 16
# What has to come comes within so many seconds, also on a machine that has much else to do.
LONG = 60.0


class Wrong(Exception):
    """What the program did that it must not do."""


class Ended(Exception):
    """The program has closed its end of a pipe."""


class NamedPipes:
    """The named pipes of a client. Each side finds the other's end open at once; after `let_go` only if it is."""

    def __init__(self, folder: str, number: int) -> None:
        paths = [f"{folder}/{number}.lines", f"{folder}/{number}.answers"]
        for path in paths:
            os.mkfifo(path, 0o600)
        self._kept = [os.open(path, os.O_RDWR) for path in paths]
        self.lines = open(paths[0], "wb", buffering=0)
        self.answers = open(paths[1], "rb", buffering=0)
        self.words = ["--client", *paths]

    def let_go(self) -> None:
        while self._kept:
            os.close(self._kept.pop())

    def close(self) -> None:
        self.let_go()
        self.lines.close()
        self.answers.close()


class LatePipes:
    """The named pipes of a client, which are opened as a shell does: lines first, when the program has opened them too."""

    def __init__(self, folder: str, names: tuple[str, str]) -> None:
        self.lines = open_to_write(f"{folder}/{names[0]}")
        self.answers = open_to_read(f"{folder}/{names[1]}")

    def let_go(self) -> None:
        """We have opened only our ends."""

    def close(self) -> None:
        self.lines.close()
        self.answers.close()


class StandardPipes:
    """The pipes of the operator."""

    def __init__(self, child: subprocess.Popen[bytes]) -> None:
        assert isinstance(child.stdin, FileIO) and isinstance(child.stdout, FileIO)
        self.lines, self.answers = child.stdin, child.stdout

    def let_go(self) -> None:
        """Only the program has its ends."""

    def close(self) -> None:
        self.lines.close()
        self.answers.close()


def open_to_write(path: str) -> FileIO:
    """Opens a named pipe, once the program has opened it to read."""
    until = time.monotonic() + LONG
    while time.monotonic() < until:
        try:
            return open(os.open(path, os.O_WRONLY | os.O_NONBLOCK), "wb", buffering=0)
        except OSError as error:
            if error.errno != errno.ENXIO:
                raise
        time.sleep(0.002)
    raise Wrong(f"a named pipe isn't opened for {LONG:.0f} seconds")


def open_to_read(path: str) -> FileIO:
    """Opens a named pipe. Until the program opens it too nothing can be read, and it doesn't seem to be at its end."""
    return open(os.open(path, os.O_RDONLY | os.O_NONBLOCK), "rb", buffering=0)


def wait_for(end: FileIO, event: int, seconds: float) -> bool:
    """Waits at most so long until an end can be read or written, or is closed on the other side."""
    poll = select.poll()
    poll.register(end.fileno(), event)
    return bool(poll.poll(math.ceil(1000 * seconds)))


class Talk:
    """A conversation over our ends of two pipes."""

    def __init__(self, lines: FileIO, answers: FileIO) -> None:
        self.lines, self.answers = lines, answers
        self._unread = b""
        for end in (lines, answers):
            os.set_blocking(end.fileno(), False)

    def pour(self, data: bytes | memoryview, patience: float = LONG) -> int:
        """Writes until no byte fits for so many seconds, and returns how many did."""
        done = 0
        while done < len(data) and wait_for(self.lines, select.POLLOUT, patience):
            done += self._write(data[done : done + CHUNK])
        return done

    def _write(self, data: bytes | memoryview) -> int:
        try:
            return os.write(self.lines.fileno(), data)
        except BlockingIOError:
            return 0
        except BrokenPipeError:
            raise Ended from None

    def _read(self) -> None:
        try:
            data = os.read(self.answers.fileno(), CHUNK)
        except BlockingIOError:
            return
        if not data:
            raise Ended
        self._unread += data

    def read_byte(self) -> None:
        """Reads one byte more."""
        if not wait_for(self.answers, select.POLLIN, LONG):
            raise Wrong(f"no answer came for {LONG:.0f} seconds")
        data = os.read(self.answers.fileno(), 1)
        if not data:
            raise Ended
        self._unread += data

    def _take_lines(self, most: int) -> list[str]:
        """Takes at most so many lines of what was read."""
        *whole, self._unread = self._unread.split(b"\n", most)
        return [line.decode("ascii", "backslashreplace") for line in whole]

    def exchange(self, data: bytes, count: int) -> list[str]:
        """Writes lines, reads so many answers meanwhile, and returns these."""
        left, answers, until = memoryview(data), self._take_lines(count), time.monotonic() + LONG
        while left or len(answers) < count:
            poll = select.poll()
            poll.register(self.answers.fileno(), select.POLLIN)
            if left:
                poll.register(self.lines.fileno(), select.POLLOUT)
            ready = [descriptor for descriptor, _ in poll.poll(1000)]
            if left and self.lines.fileno() in ready:
                left = left[self._write(left[:CHUNK]) :]
            if self.answers.fileno() in ready:
                self._read()
                answers += self._take_lines(count - len(answers))
            if ready:
                until = time.monotonic() + LONG
            elif time.monotonic() > until:
                raise Wrong(f"no answer came for {LONG:.0f} seconds")
        return answers

    def ask(self, line: bytes) -> str:
        return self.exchange(line + b"\n", 1)[0]

    def exchange_all(self, data: bytes) -> bytes:
        """Writes lines, ends them, and returns all answers, up to their end. The program may end before."""
        left = memoryview(data)
        with contextlib.suppress(Ended):
            while True:
                poll = select.poll()
                poll.register(self.answers.fileno(), select.POLLIN)
                if left:
                    poll.register(self.lines.fileno(), select.POLLOUT)
                ready = [descriptor for descriptor, _ in poll.poll()]
                if left and self.lines.fileno() in ready:
                    left = self._write_on(left)
                if self.answers.fileno() in ready:
                    self._read()
        read, self._unread = self._unread, b""
        return read

    def _write_on(self, left: memoryview) -> memoryview:
        """Writes what fits, and returns what is left. After the last byte, or if the program reads no more, it ends the lines."""
        try:
            left = left[self._write(left[:CHUNK]) :]
        except Ended:
            left = left[:0]
        if not left:
            self.lines.close()
        return left

    def read_rest(self) -> bytes:
        """Reads until the program closes its end, and returns what came."""
        try:
            while True:
                if not wait_for(self.answers, select.POLLIN, LONG):
                    raise Wrong(f"the answers haven't ended for {LONG:.0f} seconds")
                self._read()
        except Ended:
            rest, self._unread = self._unread, b""
            return rest

    def wait_for_end_of_lines(self) -> None:
        """Writes comments until the program reads no more. Raises Wrong if it goes on."""
        until = time.monotonic() + LONG
        try:
            while time.monotonic() < until:
                self.pour(b"#\n", 0.1)
                time.sleep(0.01)
        except Ended:
            return
        raise Wrong("the program still reads the lines of a conversation that has ended")
