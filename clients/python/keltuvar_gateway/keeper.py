"""Keeps a pool's process running, and its state file up to date."""

from __future__ import annotations

import asyncio
import logging
import time
from collections import Counter

from .backend import BadStart, Backend
from .program import Down, Program
from .state import write_state

_LOG = logging.getLogger(__name__)
# Seconds before the next start of a process: after the first failure, and at most.
_FIRST_PAUSE, _LONGEST_PAUSE = 0.1, 5.0
# A process that ran for so many seconds doesn't count as a failed start.
_RAN_WELL = 10.0
# How many seconds the process has to end after its input was closed.
_PATIENCE = 5.0


class Keeper:
    """Starts the pool's process again when it ends, and saves what the gateway knows."""

    def __init__(self, pool: Backend, path: str | None) -> None:
        self._pool, self._path = pool, path
        self._program: Program | None = None
        self._saving = asyncio.Lock()
        self._writing: set[asyncio.Task[int]] = set()
        self.counts: Counter[str] = Counter()
        """How often each happened: `starts`, `saved`, `failed`."""

    async def start(self) -> None:
        """Starts the first process. Raises what `Backend.open` raises."""
        self._program = await self._pool.open()
        self.counts["starts"] += 1

    async def watch(self) -> None:
        """Starts a new process each time that one has ended."""
        pause = _FIRST_PAUSE
        while True:
            began = time.monotonic()
            if self._program is not None:
                _LOG.error("%s", await asyncio.shield(self._program.ended))
            if time.monotonic() - began >= _RAN_WELL:
                pause = _FIRST_PAUSE
            await asyncio.sleep(pause)
            pause = min(2 * pause, _LONGEST_PAUSE)
            self._program = None
            try:
                await self.start()
                _LOG.warning("the pool runs again, with %d transactions", self._pool.count)
            except (OSError, BadStart, Down) as error:
                _LOG.error("the pool can't be started: %s", error)
            except Exception:
                # Whatever it is, the next start may go well.
                _LOG.exception("the pool can't be started")

    async def save(self) -> int:
        """Writes the state file, and returns how many transactions it has.

        Raises an OSError if it can't be written. Then the former file stays.
        """
        if self._path is None:
            raise FileNotFoundError(2, "the gateway was started without --state")
        # If the caller is cancelled, the thread still writes.
        # The next save has to wait for its end.
        writing = asyncio.create_task(self._write(self._path))
        self._writing.add(writing)
        writing.add_done_callback(self._writing.discard)
        return await asyncio.shield(writing)

    async def _write(self, path: str) -> int:
        async with self._saving:
            state = self._pool.copy_state()
            try:
                await asyncio.to_thread(write_state, path, state)
            except OSError as error:
                self.counts["failed"] += 1
                _LOG.error("%s can't be written: %s", path, error.strerror)
                raise
            self.counts["saved"] += 1
            return len(state.transactions)

    async def save_regularly(self, seconds: float) -> None:
        """Saves again and again. A save that fails isn't the last one."""
        while True:
            await asyncio.sleep(seconds)
            try:
                await self.save()
            except OSError:
                continue

    async def end(self, *, save: bool) -> bool:
        """Saves if there is a state file, and ends the process. Returns whether no save failed."""
        try:
            if save and self._path is not None:
                await self.save()
            return True
        except OSError:
            return False
        finally:
            if self._program is not None:
                await self._program.end(_PATIENCE)
