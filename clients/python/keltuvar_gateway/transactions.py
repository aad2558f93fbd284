"""The bytes of a transaction: formats 1 and 2 of docs/FORMATS.md.

The pool says whether bytes are a transaction. What is read here is in the pool, or in a block that
it adopted. Other bytes raise a ValueError, or are read as if they were in order.
"""

from __future__ import annotations

from dataclasses import dataclass
from typing import TypeAlias

from keltuvar import words

Reference: TypeAlias = bytes
"""An output: the 32 bytes of its transaction's id, and the 2 bytes of its index."""


@dataclass(frozen=True, slots=True)
class Entry:
    """How much of a token there is."""

    policy: bytes
    name: bytes
    quantity: int


@dataclass(frozen=True, slots=True)
class TxInput:
    """What a transaction spends, and how."""

    reference: Reference
    validator: bytes
    datum: bytes
    redeemer: bytes


@dataclass(frozen=True, slots=True)
class TxOutput:
    """What a transaction pays."""

    address: bytes
    datum_hash: bytes
    bundle: tuple[Entry, ...]
    data: bytes
    """All its bytes, as in a `utxo` line."""


@dataclass(frozen=True, slots=True)
class Transaction:
    """The parts of a transaction, in the order of its bytes."""

    version: int
    inputs: tuple[TxInput, ...]
    references: tuple[Reference, ...]
    outputs: tuple[TxOutput, ...]
    first_tick: int
    last_tick: int
    forged: tuple[Entry, ...]
    policy_scripts: tuple[bytes, ...]
    keys: tuple[bytes, ...]
    """The keys of its signatures."""


class _Cursor:
    """Bytes, and how far they were read."""

    def __init__(self, data: bytes) -> None:
        self.data = data
        self.place = 0

    def take(self, count: int) -> bytes:
        """Reads this many bytes."""
        start, self.place = self.place, self.place + count
        if self.place > len(self.data):
            raise ValueError("the bytes end too early")
        return self.data[start : self.place]

    def number(self, count: int) -> int:
        """Reads a number of this many bytes."""
        return int.from_bytes(self.take(count), "big")

    def piece(self) -> bytes:
        """Reads bytes after their 2-byte length."""
        return self.take(self.number(2))

    def bundle(self) -> tuple[Entry, ...]:
        """Reads a bundle."""
        return tuple(self._entry() for _ in range(self.number(2)))

    def _entry(self) -> Entry:
        policy = self.take(32)
        name = self.take(self.number(1))
        return Entry(policy, name, int.from_bytes(self.take(8), "big", signed=True))


def _read_input(cursor: _Cursor) -> TxInput:
    return TxInput(cursor.take(34), cursor.piece(), cursor.piece(), cursor.piece())


def _read_output(cursor: _Cursor) -> TxOutput:
    start = cursor.place
    address, datum_hash, bundle = cursor.take(32), cursor.take(32), cursor.bundle()
    return TxOutput(address, datum_hash, bundle, cursor.data[start : cursor.place])


def _read_front(cursor: _Cursor) -> tuple[int, tuple[TxInput, ...], tuple[Reference, ...]]:
    """Reads the version, the inputs and the references."""
    version = cursor.number(1)
    if version not in (1, 2):
        raise ValueError("the version is neither 1 nor 2")
    inputs = tuple(_read_input(cursor) for _ in range(cursor.number(2)))
    count = cursor.number(2) if version == 2 else 0
    return version, inputs, tuple(cursor.take(34) for _ in range(count))


def decode(data: bytes) -> Transaction:
    """Returns the parts of a transaction."""
    cursor = _Cursor(data)
    version, inputs, references = _read_front(cursor)
    outputs = tuple(_read_output(cursor) for _ in range(cursor.number(2)))
    first_tick, last_tick, forged = cursor.number(8), cursor.number(8), cursor.bundle()
    scripts = tuple(cursor.piece() for _ in range(cursor.number(2)))
    keys = tuple(cursor.take(96)[:32] for _ in range(cursor.number(2)))
    if cursor.place != len(data):
        raise ValueError("bytes follow the last signature")
    return Transaction(
        version, inputs, references, outputs, first_tick, last_tick, forged, scripts, keys
    )


def read_references(data: bytes) -> frozenset[Reference]:
    """Returns the outputs that a transaction spends or refers to."""
    _, inputs, references = _read_front(_Cursor(data))
    return frozenset(spent.reference for spent in inputs).union(references)


def make_reference(transaction_id: str, index: int) -> Reference:
    """Returns an output of a transaction."""
    return bytes.fromhex(transaction_id) + index.to_bytes(2, "big")


def format_reference(reference: Reference) -> str:
    """Returns a reference as text: `ID#INDEX`, as in a `utxo` line."""
    return words.format_output_id(reference[:32].hex(), int.from_bytes(reference[32:], "big"))
