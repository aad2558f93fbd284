"""How often each kind of answer came."""

from __future__ import annotations

from collections import Counter

from repository import read_refusal_words, read_rules

REFUSALS = [word for word in read_refusal_words() if word not in ("history", "memory")]
FAULTS = [
    "truncated", "trailing", "version", "order", "bundle", "script", "data", "interval", "large", "spent", "references",
]  # fmt: skip
FIRST_WORDS = [
    "ok", "bad", "tx", "accepted", "removed", "kept", "staged", "forgotten", "snapshot", "stats", "after", "lookup", "has", "take",
    "block", "offer", "for",
]  # fmt: skip
KINDS = [
    *FIRST_WORDS,
    *(f"undecodable {name}" for name in FAULTS),
    *(f"refused {name}" for name in REFUSALS),
    "refused back",
    *(f"refused adopt {rule.word}" for rule in read_rules()),
]


def kind_of(answer: str) -> str:
    """Gives an answer's first word, and the name of a refusal or a fault."""
    first, *words = answer.split()
    if first == "refused" and words[0] == "adopt":
        return f"refused adopt {words[2]}"
    return f"{first} {words[0]}" if first in ("refused", "undecodable") else first


def print_tally(tally: Counter[str]) -> None:
    """Prints how often each kind came, also those that never did."""
    for kind in [*KINDS, *sorted(tally.keys() - set(KINDS))]:
        print(f"{tally[kind]:9} {kind}")
