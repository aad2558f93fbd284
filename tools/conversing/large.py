"""Lines about as large as a transaction may be: by its inputs, its references, its outputs or its bytes."""

from __future__ import annotations

from random import Random

from . import data, scripts
from .transactions import MOST_BYTES, MOST_PARTS, Field, join, of_number

PLAIN_BYTES, OUTPUT_BYTES, ENTRY_BYTES = 181, 107, 41
PLACES = ["65535", "65536", "0065535", "00000000000000000001", "000000000000000000001"]


def large_line(rng: Random, name: str, tx: str, ref: str) -> str:
    """Declares a transaction, which refers to places of a transaction, and to an output."""
    make = rng.choice([_many_inputs, _many_references, _many_bytes, _many_bytes, _far_place])
    return f"tx {name} " + " ".join(make(rng, tx, ref))


def large_utxo(rng: Random) -> str:
    """Has an opening output of about as many bytes as fit into a transaction, by a name of 1 to 32 bytes in each entry."""
    length = MOST_BYTES - 27 + rng.choice([-1, 0, 0, 1, 1])
    count, rest = divmod(length - 66, ENTRY_BYTES + 2)
    names = [place.to_bytes(2, "big") for place in range(count)]
    for place in (-2, -1):
        more = min(rest, 30)
        names[place], rest = names[place] + bytes(more), rest - more
    entries = [Field("entry", bytes(32) + bytes([len(name)]) + name + (5).to_bytes(8, "big")) for name in names]
    fields = [Field("hashes", scripts.YES.hash + data.UNIT.hash), of_number("count", count), *entries]
    return f"utxo {'ab' * 32}#{rng.randrange(9)} {join(iter(fields)).hex()}"


def _near_most(rng: Random) -> int:
    return MOST_PARTS + rng.choice([-1, 0, 0, 1, 1])


def _many_inputs(rng: Random, tx: str, ref: str) -> list[str]:
    return [*(f"in={tx}.{place}" for place in range(_near_most(rng))), "out=1"]


def _many_references(rng: Random, tx: str, ref: str) -> list[str]:
    return [f"in={ref}", *(f"ref={tx}.{place + 9}" for place in range(_near_most(rng))), "out=1"]


def _many_bytes(rng: Random, tx: str, ref: str) -> list[str]:
    """Has outputs of one coin, and of a token whose name makes up for the bytes that are wanting."""
    outputs, rest = divmod(MOST_BYTES + rng.choice([-1, 0, 0, 1, 1]) - PLAIN_BYTES, OUTPUT_BYTES)
    return [f"in={ref}:yes/unit", *["out=1"] * outputs, f"out=1,1*no.{'z' * (rest - ENTRY_BYTES)}"]


def _far_place(rng: Random, tx: str, ref: str) -> list[str]:
    return [f"in={tx}.{rng.choice(PLACES)}", "out=1"]
