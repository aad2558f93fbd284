"""Scripts: how they are read from their bytes, and what they come to."""

from __future__ import annotations

from collections.abc import Callable
from functools import lru_cache
from hashlib import sha256
from typing import NamedTuple

from .bundles import LONGEST_NAME, Bundle
from .data import Datum

MOST_OPERATORS = 1024
DEEPEST = 64
LEAST_NUMBER, GREATEST_NUMBER = -(2**127), 2**127 - 1
# Conversations repeat their scripts. `decode` keeps so many results.
MOST_CACHED = 2048

# How many operands each operator has.
OPERANDS = {
    0x00: 0, 0x01: 0, 0x02: 0, 0x03: 0, 0x04: 0, 0x05: 0, 0x06: 0,
    0x10: 1, 0x11: 2, 0x12: 2, 0x13: 3,
    0x20: 2, 0x21: 2, 0x22: 2,
    0x30: 2, 0x31: 2, 0x32: 2,
    0x40: 1, 0x41: 1, 0x42: 2, 0x43: 1,
    0x50: 0, 0x51: 0, 0x52: 1, 0x53: 2, 0x54: 2, 0x55: 2, 0x56: 3, 0x57: 0,
    0x60: 0, 0x61: 1, 0x62: 1, 0x63: 3,
}  # fmt: skip

Value = bool | int | bytes | Datum | None  # None is no value.


class NoScript(Exception):
    """The bytes are no script."""


class Operator(NamedTuple):
    code: int
    written: bytes  # What an Int or a Bytes has behind its code.


class Script(NamedTuple):
    octets: bytes
    hash: bytes
    operators: tuple[Operator, ...]


class Paid(NamedTuple):
    """An output, as a script sees it."""

    address: bytes
    datum_hash: bytes
    value: Bundle


class Own(NamedTuple):
    """What a validator sees, and a policy script doesn't."""

    datum: Datum
    redeemer: Datum
    value: Bundle


class View(NamedTuple):
    start: int
    end: int
    keys: frozenset[bytes]
    forged: Bundle
    spent: Bundle
    outputs: list[Paid]
    references: list[Paid]
    own: Own | None


@lru_cache(MOST_CACHED)
def decode(octets: bytes) -> Script:
    """Reads the script that the bytes spell."""
    operators: list[Operator] = []
    depths: list[int] = []
    at = 0
    while at < len(octets):
        code = octets[at]
        if code not in OPERANDS:
            raise NoScript
        written, at = _written(octets, code, at + 1)
        operands = OPERANDS[code]
        if len(operators) == MOST_OPERATORS or len(depths) < operands:
            raise NoScript
        depth = 1 + max(depths[len(depths) - operands :], default=0)
        if depth > DEEPEST:
            raise NoScript
        del depths[len(depths) - operands :]
        depths.append(depth)
        operators.append(Operator(code, written))
    if len(depths) != 1:
        raise NoScript
    return Script(octets, sha256(octets).digest(), tuple(operators))


def _written(octets: bytes, code: int, at: int) -> tuple[bytes, int]:
    """Gives what is written behind the code that ends at a place, and where that ends."""
    length = 0
    if code == 0x02:
        length = 8
    elif code == 0x03:
        if at == len(octets):
            raise NoScript
        length, at = octets[at], at + 1
    if at + length > len(octets):
        raise NoScript
    return octets[at : at + length], at + length


def accepts(script: Script, view: View) -> bool:
    return value_of(script, view) is True


def value_of(script: Script, view: View) -> Value:
    """Gives what the script comes to."""
    stack: list[Value] = []
    for code, written in script.operators:
        first = len(stack) - OPERANDS[code]
        operands = stack[first:]
        del stack[first:]
        stack.append(_apply(code, written, operands, script, view))
    return stack[0]


def _apply(code: int, written: bytes, operands: list[Value], script: Script, view: View) -> Value:
    if code == 0x02:
        return int.from_bytes(written, "big", signed=True)
    if code == 0x03:
        return written
    if code == 0x06:
        return script.hash
    if code in LOGIC:
        return LOGIC[code](*operands)
    if code in READS:
        return READS[code](view)
    if any(operand is None for operand in operands):
        return None
    return WORK[code](view, *operands)


def is_number(value: Value) -> bool:
    return type(value) is int


def _in_range(number: int) -> int | None:
    return number if LEAST_NUMBER <= number <= GREATEST_NUMBER else None


def _is_octets(value: Value, *lengths: int) -> bool:
    return type(value) is bytes and (not lengths or len(value) in lengths)


def _is_name(value: Value) -> bool:
    return type(value) is bytes and len(value) <= LONGEST_NAME


def _not(a: Value) -> Value:
    return (not a) if type(a) is bool else None


def _and(a: Value, b: Value) -> Value:
    if a is False or b is False:
        return False
    return True if a is True and b is True else None


def _or(a: Value, b: Value) -> Value:
    if a is True or b is True:
        return True
    return False if a is False and b is False else None


def _if(condition: Value, a: Value, b: Value) -> Value:
    if type(condition) is not bool:
        return None
    return a if condition else b


def _eq(view: View, a: Value, b: Value) -> Value:
    if type(a) is not type(b):
        return None
    return a.octets == b.octets if isinstance(a, Datum) else a == b


def _of_numbers(work: Callable[[int, int], Value]) -> Callable[[View, Value, Value], Value]:
    return lambda view, a, b: work(a, b) if is_number(a) and is_number(b) else None


def _of_datum(kind: type, work: Callable[..., Value]) -> Callable[..., Value]:
    """Makes an operator of one whose first operand has to be a datum of a kind."""
    return lambda view, d, *more: work(d.value, *more) if isinstance(d, Datum) and type(d.value) is kind else None


def _item(parts: tuple[Datum, ...], i: Value) -> Value:
    return parts[i] if is_number(i) and 0 <= i < len(parts) else None


def _reference(view: View, i: Value) -> Paid | None:
    return view.references[i] if is_number(i) and 0 <= i < len(view.references) else None


def _quantity(bundle: Bundle | None, policy: Value, name: Value) -> Value:
    if bundle is None or not _is_octets(policy, 32) or not _is_name(name):
        return None
    return bundle.get((policy, name), 0)


def _signed_by(view: View, key: Value) -> Value:
    return key in view.keys if _is_octets(key, 32) else None


def _paid(view: View, address: Value, policy: Value, name: Value) -> Value:
    if not _is_octets(address, 32) or _quantity({}, policy, name) is None:
        return None
    return sum(output.value.get((policy, name), 0) for output in view.outputs if output.address == address)


def _of_reference(work: Callable[..., Value]) -> Callable[..., Value]:
    def apply(view: View, i: Value, *more: Value) -> Value:
        output = _reference(view, i)
        return None if output is None else work(output, *more)

    return apply


LOGIC: dict[int, Callable[..., Value]] = {0x10: _not, 0x11: _and, 0x12: _or, 0x13: _if}

READS: dict[int, Callable[[View], Value]] = {
    0x00: lambda view: False,
    0x01: lambda view: True,
    0x04: lambda view: view.own and view.own.datum,
    0x05: lambda view: view.own and view.own.redeemer,
    0x50: lambda view: view.start,
    0x51: lambda view: view.end,
    0x57: lambda view: len(view.outputs),
    0x60: lambda view: len(view.references),
}

WORK: dict[int, Callable[..., Value]] = {
    0x20: _eq,
    0x21: _of_numbers(lambda a, b: a < b),
    0x22: _of_numbers(lambda a, b: a <= b),
    0x30: _of_numbers(lambda a, b: _in_range(a + b)),
    0x31: _of_numbers(lambda a, b: _in_range(a - b)),
    0x32: _of_numbers(lambda a, b: _in_range(a * b)),
    0x40: _of_datum(int, lambda value: value),
    0x41: _of_datum(bytes, lambda value: value),
    0x42: _of_datum(tuple, _item),
    0x43: _of_datum(tuple, len),
    0x52: _signed_by,
    0x53: lambda view, p, n: _quantity(view.own.value if view.own else None, p, n),
    0x54: lambda view, p, n: _quantity(view.spent, p, n),
    0x55: lambda view, p, n: _quantity(view.forged, p, n),
    0x56: _paid,
    0x61: _of_reference(lambda output: output.address),
    0x62: _of_reference(lambda output: output.datum_hash),
    0x63: _of_reference(lambda output, p, n: _quantity(output.value, p, n)),
}

YES = decode(b"\x01")
NO = decode(b"\x00")
