"""Conversations of an operator and clients with the program, all at once."""

from __future__ import annotations

import os
import selectors
import subprocess
import tempfile
import time
from bisect import bisect_right
from collections import deque
from collections.abc import Callable
from pathlib import Path
from typing import IO, NamedTuple

# A program that answers nothing for so many seconds is ended.
LONGEST_SECONDS = 120
CHUNK = 1 << 16


class Held(NamedTuple):
    """What came of the conversations."""

    answers: list[list[str]]
    fault: str  # Whatever a program must not do but answer lines; nothing if it did that.
    history: bytes  # What the program wrote of its history.


class Ends:
    """The ends of a conversation: the file for lines, and that for answers."""

    def __init__(self, lines: int, answers: int) -> None:
        self.lines, self.answers = lines, answers
        self.waiting: deque[bytes] = deque()  # Lines that no chunk has yet.
        self.chunk = b""  # What is left of the lines that are being written.
        self.unfinished = b""
        self.got: list[str] = []
        for end in (lines, answers):
            os.set_blocking(end, False)

    def write(self) -> bool:
        """Writes what the program takes, and returns whether anything is left to write."""
        if not self.chunk:
            self.chunk = self._next_chunk()
        try:
            self.chunk = self.chunk[os.write(self.lines, self.chunk) :]
        except BlockingIOError:
            pass
        except BrokenPipeError:
            self.waiting.clear()
            self.chunk = b""
        return bool(self.chunk or self.waiting)

    def _next_chunk(self) -> bytes:
        """Takes the next lines, at least a chunk of them if there are so many."""
        taken: list[bytes] = []
        size = 0
        while self.waiting and size < CHUNK:
            taken.append(self.waiting.popleft() + b"\n")
            size += len(taken[-1])
        return b"".join(taken)

    def read(self) -> bool:
        """Reads what has come, and returns whether more may come."""
        try:
            text = os.read(self.answers, CHUNK)
        except BlockingIOError:
            return True
        *whole, self.unfinished = (self.unfinished + text).split(b"\n")
        self.got += [line.decode("latin-1") for line in whole]
        return bool(text)

    def end_lines(self) -> None:
        os.close(self.lines)


def _make_pipes(folder: str, number: int) -> list[str]:
    """Makes the named pipes of a client."""
    pipes = [f"{folder}/{number}.lines", f"{folder}/{number}.answers"]
    for pipe in pipes:
        os.mkfifo(pipe)
    return pipes


def _open_pipes(pipes: list[str]) -> Ends:
    """Opens the pipes of a client, though the program may not have done so yet."""
    lines, answers = pipes
    return Ends(os.open(lines, os.O_RDWR | os.O_NONBLOCK), os.open(answers, os.O_RDONLY | os.O_NONBLOCK))


class Conversations:
    """The conversations with a program that runs."""

    def __init__(self, child: subprocess.Popen[bytes], ends: list[Ends]) -> None:
        self.child, self.ends = child, ends
        self.selector = selectors.DefaultSelector()
        self.heard = time.monotonic()
        for one in ends:
            self.selector.register(one.answers, selectors.EVENT_READ, one.read)

    def hold(self, lines: list[list[bytes]], rounds: list[list[int]]) -> str:
        """Sends the lines round by round, ends all conversations, the operator's last, and gives what went wrong."""
        sent = [0] * len(lines)
        for number in range(max(of[-1] for of in rounds) + 1):
            # A round has a conversation's lines up to here: rounds never decrease.
            wanted = [bisect_right(of, number) for of in rounds]
            for one, own, start, end in zip(self.ends, lines, sent, wanted):
                one.waiting.extend(own[start:end])
                self._watch_lines(one)
            if fault := self._wait(lambda: all(len(one.got) >= count for one, count in zip(self.ends, wanted))):
                return fault
            sent = wanted
        operator, *clients = self.ends
        for one in clients:
            one.end_lines()
        # The answers to a client end with its conversation, though the program goes on.
        if fault := self._wait(lambda: len(self.selector.get_map()) == 1):
            return fault
        operator.end_lines()
        return self._wait(lambda: not self.selector.get_map())

    def _watch_lines(self, one: Ends) -> None:
        """Has the lines of a conversation written. After too many answers the lines before may still be unwritten."""
        if one.write() and one.lines not in self.selector.get_map():
            self.selector.register(one.lines, selectors.EVENT_WRITE, one.write)

    def _wait(self, is_done: Callable[[], bool]) -> str:
        while not is_done():
            for key, _ in self.selector.select(1):
                self.heard = time.monotonic()
                self._serve(key)
            if time.monotonic() - self.heard > LONGEST_SECONDS:
                return f"it answered nothing for {LONGEST_SECONDS} seconds"
            if self.child.poll() is not None and not self._anything_left():
                return "" if is_done() else "it ended before it answered all lines"
        return ""

    def _serve(self, key: selectors.SelectorKey) -> None:
        """Writes to a file, or reads from it."""
        if key.data():
            return
        self.selector.unregister(key.fileobj)
        if key.events == selectors.EVENT_READ:
            os.close(key.fd)

    def _anything_left(self) -> bool:
        """Reads what an ended program has written."""
        ready = [key for key, _ in self.selector.select(0) if key.events == selectors.EVENT_READ]
        for key in ready:
            self._serve(key)
        return bool(ready)


def hold(program: str, lines: list[list[bytes]], rounds: list[list[int]]) -> Held:
    """Starts the program for the conversations, of which the first is the operator's, and holds them."""
    with tempfile.TemporaryDirectory(prefix="keltuvar-") as folder, tempfile.TemporaryFile() as errors:
        pipes = [_make_pipes(folder, number) for number in range(1, len(lines))]
        words = [word for pair in pipes for word in ("--client", *pair)]
        history = f"{folder}/history"
        child = _start([program, "serve", "--history", history, *words], errors)
        try:
            assert child.stdin and child.stdout
            operator = Ends(os.dup(child.stdin.fileno()), os.dup(child.stdout.fileno()))
            child.stdin.close()
            child.stdout.close()
            ends = [operator, *map(_open_pipes, pipes)]
            fault = Conversations(child, ends).hold(lines, rounds) or _fault_at_end(child, ends, lines) or _fault_of_audit(program, history)
        finally:
            child.kill()
            child.wait()
        errors.seek(0)
        told = errors.read().decode("latin-1")
        written = Path(history).read_bytes() if os.path.exists(history) else b""
    fault = fault and f"{fault}, status {child.returncode}, standard error {told!r}"
    return Held([one.got for one in ends], fault or (told and f"standard error {told!r}"), written)


def _start(words: list[str], errors: IO[bytes]) -> subprocess.Popen[bytes]:
    return subprocess.Popen(words, bufsize=0, stdin=subprocess.PIPE, stdout=subprocess.PIPE, stderr=errors)


def _fault_of_audit(program: str, history: str) -> str:
    """Says what the audit of a history finds, if it isn't legal."""
    audited = subprocess.run([program, "audit", history], capture_output=True, text=True)
    return "" if audited.stdout == "audit legal\n" and not audited.returncode else f"the audit found {audited.stdout + audited.stderr!r}"


def _fault_at_end(child: subprocess.Popen[bytes], ends: list[Ends], lines: list[list[bytes]]) -> str:
    """Says what is wrong though each line was answered."""
    for number, (one, own) in enumerate(zip(ends, lines)):
        if len(one.got) != len(own) or one.unfinished:
            return f"conversation {number} got {len(one.got)} answers to {len(own)} lines, and then {one.unfinished!r}"
    try:
        return "it ended" if child.wait(LONGEST_SECONDS) else ""
    except subprocess.TimeoutExpired:
        return "it didn't end with its conversations"
