"""Random scripts: expressions of every kind, and scripts that accept where an expression has a given value."""

from __future__ import annotations

from random import Random
from typing import NamedTuple

from .data import Datum
from .scripts import Value, View

KINDS = ("truth", "number", "octets", "datum")
EDGES = (0, 1, 2, 5, 7, -1, 100, 2**31, 2**62, 2**63 - 1, -(2**63))


class Mentioned(NamedTuple):
    """What an expression may speak of."""

    policies: list[bytes]
    names: list[bytes]
    keys: list[bytes]
    numbers: list[int]


def integer(value: int) -> bytes:
    """Spells a number of up to 128 bits."""
    if -(2**63) <= value < 2**63:
        return b"\x02" + value.to_bytes(8, "big", signed=True)
    high, low = divmod(value, 2**62)
    return integer(high) + integer(2**62) + b"\x32" + integer(low) + b"\x30"


def run(octets: bytes) -> bytes:
    """Spells at most 255 bytes."""
    return b"\x03" + bytes([len(octets)]) + octets


def pinned(expression: bytes, value: Value) -> bytes:
    """Makes a script that accepts if the expression comes to the value; of none, one that accepts where there is one."""
    if value is True:
        return expression
    if value is False:
        return expression + b"\x10"
    if isinstance(value, Datum):
        return pinned(expression + {int: b"\x40", bytes: b"\x41", tuple: b"\x43"}[type(value.value)], measured(value))
    if type(value) is bytes and len(value) < 256:
        return expression + run(value) + b"\x20"
    if type(value) is int:
        return expression + integer(value) + b"\x20"
    return expression * 2 + b"\x20"


def measured(datum: Datum) -> int | bytes:
    """Gives the number or the bytes that a datum is, or the length of its list."""
    return len(datum.value) if isinstance(datum.value, tuple) else datum.value


class Expressions:
    def __init__(self, rng: Random, mentioned: Mentioned) -> None:
        self.rng, self.mentioned = rng, mentioned

    def any(self, depth: int) -> bytes:
        return self.of(self.rng.choice(KINDS), depth)

    def of(self, kind: str, depth: int) -> bytes:
        """Makes an expression of a kind, or now and then of another."""
        if self.rng.random() < 0.03:
            kind = self.rng.choice(KINDS)
        leaf = depth <= 1 or self.rng.random() < 0.15
        if not leaf and self.rng.random() < 0.1:
            return self.of("truth", depth - 1) + self.of(kind, depth - 1) + self.of(kind, depth - 1) + b"\x13"
        make = {"truth": self._truth, "number": self._number, "octets": self._octets, "datum": self._datum}[kind]
        return make(depth, leaf)

    def _truth(self, depth: int, leaf: bool) -> bytes:
        if leaf:
            return self.rng.choice([b"\x00", b"\x01", self.key() + b"\x52"])
        less = depth - 1
        code = self.rng.choice([0x10, 0x11, 0x11, 0x12, 0x12, 0x20, 0x20, 0x21, 0x22])
        if code == 0x10:
            return self.of("truth", less) + b"\x10"
        kind = "truth" if code in (0x11, 0x12) else self.rng.choice(KINDS) if code == 0x20 else "number"
        return self.of(kind, less) + self.of(kind, less) + bytes([code])

    def _number(self, depth: int, leaf: bool) -> bytes:
        rng = self.rng
        if leaf:
            literal = integer(rng.choice([*EDGES, *self.mentioned.numbers]))
            return rng.choice([literal, literal, literal, b"\x50", b"\x51", b"\x57", b"\x60"])
        less = depth - 1
        code = rng.choice([0x30, 0x31, 0x32, 0x40, 0x43, 0x53, 0x54, 0x54, 0x55, 0x55, 0x56, 0x56, 0x63])
        if code < 0x40:
            return self.of("number", less) + self.of("number", less) + bytes([code])
        if code < 0x50:
            return self.of("datum", less) + bytes([code])
        before = {0x56: self.address, 0x63: self.small}.get(code, bytes)()
        return before + self.token() + bytes([code])

    def _octets(self, depth: int, leaf: bool) -> bytes:
        rng = self.rng
        if leaf or rng.random() < 0.3:
            return rng.choice([self.policy, self.name, self.key, lambda: b"\x06"])()
        if rng.random() < 0.4:
            return self.of("datum", depth - 1) + b"\x41"
        return self.small() + rng.choice([b"\x61", b"\x62"])

    def _datum(self, depth: int, leaf: bool) -> bytes:
        if leaf or self.rng.random() < 0.4:
            return self.rng.choice([b"\x04", b"\x05"])
        return self.of("datum", depth - 1) + self.small() + b"\x42"

    def reading(self, view: View) -> bytes:
        """Makes an expression that reads what is in the view, or nearly."""
        rng = self.rng
        bundles = [view.spent, view.forged, *(one.value for one in [*view.outputs, *view.references])]
        token = rng.choice(sorted({token for bundle in bundles for token in bundle}) or [(bytes(32), b"")])
        token = b"".join(map(run, token)) if self.rng.random() < 0.85 else self.token()
        address = run(rng.choice([one.address for one in [*view.outputs, *view.references]] or [bytes(32)]))
        place = integer(rng.choice([*range(len(view.references)), *range(len(view.references)), len(view.references), -1]))
        key = run(rng.choice([*sorted(view.keys), rng.choice(self.mentioned.keys)]))
        looks = [place + b"\x61", place + b"\x62", place + token + b"\x63"] * (3 if view.references else 1)
        sums = [token + b"\x54", token + b"\x55", address + token + b"\x56"]
        return rng.choice([*looks, *sums, *sums, key + b"\x52", b"\x57", b"\x60", b"\x50", b"\x51"])

    def edge(self) -> bytes:
        """Makes an expression at the edge of what has a value."""
        rng = self.rng
        number, truth = integer(rng.choice(EDGES)), rng.choice([b"\x00", b"\x01"])
        most, least, one = integer(2**127 - 1), integer(-(2**127)), integer(1)
        half = integer(rng.choice([2**63, -(2**63)])) + integer(rng.choice([2**64, 2**64 - 1, -(2**64)])) + b"\x32"
        kinds = [number, truth, self.name(), b"\x05", b"\x06"]
        nothing = rng.choice([truth + number + b"\x30", most + one + b"\x30", number + truth + b"\x20", number + b"\x61"])
        either = rng.choice([nothing + truth, truth + nothing])
        branches = rng.choice([nothing + number, number + nothing, nothing + b"\x06"])
        policy, name = run(bytes(rng.choice([31, 32, 32, 32, 33]))), run(bytes(rng.choice([0, 32, 33, 33])))
        totals = [policy + name + b"\x54", policy + name + b"\x55", policy + self.policy() + name + b"\x56"]
        ends = [most + b"\x21", most + b"\x22", least + b"\x20", one + b"\x30", one + b"\x31", integer(-1) + b"\x32"]
        of_numbers = rng.choice([b"\x30", b"\x31", b"\x32", b"\x21", b"\x22"])
        of_any = rng.choice([b"\x20", b"\x20", b"\x21", b"\x22", b"\x11", b"\x12", b"\x30"])
        part = rng.choice([b"\x04", b"\x05"]) + rng.choice([b"", self.small() + b"\x42", integer(-1) + b"\x42"])
        return rng.choice(
            [
                rng.choice([half, most, least]) + rng.choice(ends),
                rng.choice([number, half]) + integer(rng.choice(EDGES)) + of_numbers,
                either + rng.choice([b"\x11", b"\x12"]),
                truth + branches + b"\x13",
                rng.choice(kinds) + rng.choice(kinds) + of_any,
                rng.choice(kinds) + rng.choice([b"\x10", b"\x40", b"\x41", b"\x43", b"\x52", b"\x61"]),
                run(bytes(rng.choice([0, 31, 32, 33]))) + b"\x52",
                rng.choice([*totals, policy + name + b"\x53", integer(0) + policy + name + b"\x63"]),
                part + rng.choice([b"\x40", b"\x41", b"\x43", b"\x43", self.small() + b"\x42" + b"\x43"]),
            ]
        )

    def small(self) -> bytes:
        return integer(self.rng.choice([0, 0, 0, 1, 1, 2, -1, 2**63 - 1]))

    def policy(self) -> bytes:
        return run(self.rng.choice(self.mentioned.policies))

    def name(self) -> bytes:
        return run(self.rng.choice(self.mentioned.names))

    def key(self) -> bytes:
        return run(self.rng.choice(self.mentioned.keys))

    def address(self) -> bytes:
        return self.rng.choice([self.policy, self.policy, lambda: b"\x06", lambda: self.small() + b"\x61"])()

    def token(self) -> bytes:
        odd = self.rng.random()
        policy = self.rng.choice([b"\x06", run(b"x" * 31)]) if odd < 0.1 else self.policy()
        return policy + (run(b"n" * 33) if odd > 0.95 else self.name())


def at_the_edge(rng: Random) -> bytes:
    """Makes the bytes of a script at a limit, or just beyond it."""

    def leaves(count: int) -> bytes:
        """Spells the And of so many truths, as flat as can be."""
        if count == 1:
            return b"\x01"
        return leaves(count // 2) + leaves(count - count // 2) + b"\x11"

    return rng.choice(
        [
            leaves(512),
            leaves(512) + b"\x10",
            leaves(512) + b"\x10\x10",
            b"\x01" + b"\x10" * 63,
            b"\x01" + b"\x10" * 62,
            b"\x01" + b"\x10" * 64,
            b"\x01" * 64 + b"\x11" * 63,
            b"\x01" * 65 + b"\x11" * 64,
            run(bytes(255)) + run(bytes(255)) + b"\x20",
        ]
    )


def broken(rng: Random) -> bytes:
    """Makes bytes that are no script."""
    shapes = [b"\x01\x01", b"\x11", b"\x01\x11", b"\x01\x01\x10"]
    strange = [b"\x07", b"\xff", b"\x01\x14"]
    cut = [b"\x02\x00", b"\x03", b"\x03\x05ab"]
    return rng.choice([*shapes, *strange, *cut])
