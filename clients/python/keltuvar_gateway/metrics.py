"""Numbers for Prometheus, in its text format."""

from __future__ import annotations

from bisect import bisect_left
from collections.abc import Iterable, Mapping

_BOUNDS = (0.0005, 0.001, 0.002, 0.005, 0.01, 0.02, 0.05, 0.1, 0.2, 0.5, 1.0, 2.0, 5.0)


class Histogram:
    """How many times were at most as long as each bound."""

    def __init__(self) -> None:
        self._counts = [0] * (len(_BOUNDS) + 1)
        self._sum = 0.0

    def observe(self, seconds: float) -> None:
        """Counts a time."""
        self._counts[bisect_left(_BOUNDS, seconds)] += 1
        self._sum += seconds

    def format(self, name: str, meaning: str) -> str:
        """Returns its lines."""
        lines, total = [f"# HELP {name} {meaning}", f"# TYPE {name} histogram"], 0
        for bound, count in zip((*_BOUNDS, "+Inf"), self._counts, strict=True):
            total += count
            lines.append(f'{name}_bucket{{le="{bound}"}} {total}')
        return "\n".join([*lines, f"{name}_sum {self._sum:.6f}", f"{name}_count {total}", ""])


def format_gauge(name: str, meaning: str, value: float) -> str:
    """Returns the lines of a number that goes up and down."""
    return f"# HELP {name} {meaning}\n# TYPE {name} gauge\n{name} {value}\n"


def format_counter(name: str, meaning: str, label: str, counts: Mapping[str, int]) -> str:
    """Returns the lines of counts that only go up, one for each value of the label."""
    lines = (f'{name}{{{label}="{value}"}} {counts[value]}' for value in sorted(counts))
    return _join([f"# HELP {name} {meaning}", f"# TYPE {name} counter", *lines])


def _join(lines: Iterable[str]) -> str:
    return "\n".join([*lines, ""])
