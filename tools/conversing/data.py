"""Data: numbers, bytes and lists, and how they are read from their bytes."""

from __future__ import annotations

from hashlib import sha256
from typing import NamedTuple

DEEPEST = 16


class NoDatum(Exception):
    """The bytes are no datum."""


class Datum(NamedTuple):
    octets: bytes  # Its spelling, by which two data are compared.
    value: int | bytes | tuple[Datum, ...]

    @property
    def hash(self) -> bytes:
        return sha256(self.octets).digest()


def number(value: int) -> bytes:
    """Spells a number."""
    return b"\x01" + value.to_bytes(8, "big", signed=True)


def octets(value: bytes) -> bytes:
    """Spells bytes."""
    return b"\x02" + len(value).to_bytes(2, "big") + value


def items(spellings: list[bytes]) -> bytes:
    """Spells a list of what the spellings stand for."""
    return b"\x03" + len(spellings).to_bytes(2, "big") + b"".join(spellings)


def decode(spelling: bytes) -> Datum:
    """Reads the datum that all of the bytes spell."""
    datum, end = _read(spelling, 0, 1)
    if end != len(spelling):
        raise NoDatum
    return datum


def _read(spelling: bytes, start: int, depth: int) -> tuple[Datum, int]:
    """Reads the datum that begins at a place, and says where it ends."""
    if start >= len(spelling) or depth > DEEPEST:
        raise NoDatum
    tag, at = spelling[start], start + 1
    if tag == 1:
        at = _end(spelling, at, 8)
        return Datum(spelling[start:at], int.from_bytes(spelling[at - 8 : at], "big", signed=True)), at
    if tag not in (2, 3):
        raise NoDatum
    at = _end(spelling, at, 2)
    count = int.from_bytes(spelling[at - 2 : at], "big")
    if tag == 2:
        at = _end(spelling, at, count)
        return Datum(spelling[start:at], spelling[at - count : at]), at
    parts = []
    for _ in range(count):
        part, at = _read(spelling, at, depth + 1)
        parts.append(part)
    return Datum(spelling[start:at], tuple(parts)), at


def _end(spelling: bytes, at: int, length: int) -> int:
    """Gives the place behind so many bytes, which have to be there."""
    if at + length > len(spelling):
        raise NoDatum
    return at + length


UNIT = decode(items([]))
