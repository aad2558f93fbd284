"""The program as a child process."""

from __future__ import annotations

import contextlib
import os
import signal
import subprocess
from collections.abc import Sequence

from .channel import Channel

# How many seconds a program has to end after it was asked to, and then after it was killed.
_ASKED, _KILLED = 1.0, 10.0


class Process:
    """A child process. It has a process group of its own, so that Control-C doesn't reach it."""

    def __init__(self, command: Sequence[str]) -> None:
        """Starts it. Raises an OSError if the program can't be run."""
        pipe = subprocess.PIPE
        self._child = subprocess.Popen(
            command, bufsize=0, stdin=pipe, stdout=pipe, stderr=pipe, process_group=0
        )
        assert self._child.stdin and self._child.stdout and self._child.stderr
        self.channel = Channel(self._child.stdout, self._child.stdin, self._child.stderr)

    @property
    def pid(self) -> int:
        """The process's number."""
        return self._child.pid

    @property
    def status(self) -> int | None:
        """The exit status, negative if a signal ended it; None if it hasn't ended."""
        return self._child.returncode

    def end(self, patience: float) -> None:
        """Waits this long for it to end, then asks it to, then kills it."""
        try:
            if not self.has_ended(patience):
                self._send(signal.SIGTERM)
                self.has_ended(_ASKED)
        finally:
            self.kill()

    def kill(self) -> None:
        """Kills it if it hasn't ended."""
        try:
            self._send(signal.SIGKILL)
        finally:
            self.has_ended(_KILLED)

    def has_ended(self, seconds: float) -> bool:
        """Waits this long for it to end, and returns whether it did."""
        with contextlib.suppress(subprocess.TimeoutExpired):
            self._child.wait(seconds)
        return self._child.returncode is not None

    def _send(self, number: signal.Signals) -> None:
        """Sends a signal to its process group, unless it has ended."""
        if self._child.poll() is None:
            with contextlib.suppress(ProcessLookupError, PermissionError):
                os.killpg(self._child.pid, number)
