"""What one client may take of the gateway."""

from __future__ import annotations

import time
from dataclasses import dataclass

MOST_BODY = 16_384
"""The greatest number of bytes of a transaction."""

# How often, in seconds, addresses that have made no request lately are forgotten.
_CLEARED_AFTER = 10.0


@dataclass(frozen=True, slots=True)
class Limits:
    """The limits of a gateway. Times are in seconds."""

    connections: int = 1024
    """How many connections each listener has at once."""
    rate: float = 1000.0
    """How many requests an address may make a second; 0 is no limit."""
    request_seconds: float = 10.0
    """How long a request may take to arrive, and how long it waits for the pool."""
    idle_seconds: float = 75.0
    """How long a connection may be silent between requests."""


class Rates:
    """How many requests each address may make now."""

    def __init__(self, rate: float) -> None:
        self._rate, self._most = rate, max(1.0, 2 * rate)
        # For each address: how many requests it may make, at what time.
        self._left: dict[str, tuple[float, float]] = {}
        self._cleared = time.monotonic()

    def take(self, address: str) -> bool:
        """Counts a request, and returns whether it is allowed. Twice the rate may come at once."""
        if not self._rate:
            return True
        now = time.monotonic()
        if now - self._cleared >= _CLEARED_AFTER:
            self._forget(now)
        left = self._left_at(now, *self._left.get(address, (self._most, now)))
        self._left[address] = (left - 1 if left >= 1 else left, now)
        return left >= 1

    def _left_at(self, now: float, left: float, then: float) -> float:
        return min(self._most, left + (now - then) * self._rate)

    def _forget(self, now: float) -> None:
        """Forgets the addresses that may make as many requests as a new one."""
        self._cleared = now
        kept = {
            name: one for name, one in self._left.items() if self._left_at(now, *one) < self._most
        }
        self._left = kept
