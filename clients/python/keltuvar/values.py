"""Arguments and answers of a pool, as plain values."""

from __future__ import annotations

from collections.abc import Mapping
from dataclasses import dataclass
from typing import TypeAlias

Bundle: TypeAlias = int | Mapping[str, int]
"""How much of each token: a number is coin, and a mapping's keys are `coin`, `POLICY`, or
`POLICY.TOKEN`, as in `{"coin": 5, "yes.gold": 7}`. An empty mapping has no token."""


@dataclass(frozen=True, slots=True)
class Output:
    """What an output pays, for `Pool.out` and `Pool.tx`."""

    bundle: Bundle
    """How much of each token: a number of coin, or a mapping like `{"coin": 5, "yes.gold": 7}`."""
    script: str | None = None
    """The name of the script that locks it; None means `yes`, which accepts everything."""
    datum: str | None = None
    """The name of its datum, which needs a script before it; None means `unit`."""


@dataclass(frozen=True, slots=True)
class Input:
    """What an input spends and how, for `Pool.tx`."""

    reference: str
    """The output that it spends: the name of an opening output, or `TX.K`."""
    script: str | None = None
    """The name of its validator; None means that of the output."""
    datum: str | None = None
    """The name of its datum, which needs a script before it; None means that of the output."""
    redeemer: str | None = None
    """The name of its redeemer, which needs a datum before it; None means `unit`."""


@dataclass(frozen=True, slots=True)
class Declared:
    """A transaction that was declared from its bytes."""

    size: int
    """The number of its bytes."""
    id: str
    """Its id: 64 hexadecimal digits, which don't depend on its signatures."""


@dataclass(frozen=True, slots=True)
class Given:
    """A transaction that was accepted by its bytes."""

    ticket: int
    """Its ticket."""
    id: str
    """Its id: 64 hexadecimal digits, which don't depend on its signatures."""


@dataclass(frozen=True, slots=True)
class Shown:
    """A declared transaction with its bytes."""

    size: int
    """The number of its bytes."""
    id: str
    """Its id: 64 hexadecimal digits, which don't depend on its signatures."""
    data: bytes
    """All its bytes, with its signatures."""


@dataclass(frozen=True, slots=True)
class Item:
    """A transaction that the pool holds."""

    ticket: int
    """Its place in the pool's order; a later transaction has a greater ticket."""
    name: str
    """The name under which the pool reports it; its id if it has none, or after `ids`."""


@dataclass(frozen=True, slots=True)
class Removed:
    """What a removal took out."""

    removed: tuple[int, ...]
    """The tickets of the transactions that were named."""
    dropped: tuple[int, ...]
    """The tickets of those that aren't valid without them."""


@dataclass(frozen=True, slots=True)
class LedgerChange:
    """What became of the pool's transactions when it adopted another ledger state."""

    kept: tuple[int, ...]
    """The tickets of those that stay."""
    dropped: tuple[int, ...]
    """The tickets of those that aren't valid any more."""


@dataclass(frozen=True, slots=True)
class Snapshot:
    """What the pool holds."""

    count: int
    """How many transactions there are."""
    size: int
    """The total number of their bytes."""
    last_ticket: int
    """The last ticket that was given."""
    items: tuple[Item, ...]
    """The transactions, oldest first."""


@dataclass(frozen=True, slots=True)
class Block:
    """The oldest transactions in a row, as many as fit into a number of bytes."""

    count: int
    """How many transactions there are."""
    size: int
    """The total number of their bytes."""
    items: tuple[Item, ...]
    """The transactions, oldest first."""


@dataclass(frozen=True, slots=True)
class Stats:
    """The pool's numbers."""

    count: int
    """How many transactions it holds."""
    size: int
    """The total number of their bytes."""
    free: int
    """How many bytes are free."""
    last_ticket: int
    """The last ticket that was given."""
    changes: int
    """How many changes were made since the pool opened or last reached its limit."""
    refusals: Mapping[str, int]
    """How often each word followed `refused`, without checks; words that never did are left out."""
