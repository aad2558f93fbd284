"""Lines about as long as a line may be, or far longer."""

from __future__ import annotations

from random import Random

from .transactions import MOST_BYTES

LONGEST = 97 + 2 * (MOST_BYTES - 27)  # An output that fills a transaction, and 97 bytes before it.
FAR = [LONGEST + 1, LONGEST + 4096, 2**16, 2**16 + 1, 100_000, 300_000]


def long_line(rng: Random, name: str, txs: list[str]) -> bytes:
    """Makes a line that does something by its first words, of so many bytes that it may or may not."""
    length = rng.choice([LONGEST - 1, LONGEST, LONGEST, LONGEST + 1, LONGEST + 1, LONGEST + 2, rng.choice(FAR), rng.choice([4096, 4097])])
    tx = rng.choice(txs)
    start = rng.choice(
        [
            "#",
            "",
            f"submit {tx}",
            f"forget {tx}",
            "stats",
            f"bytes {name} 0100",
            "give " + rng.choice(["0100", "00" * rng.choice([MOST_BYTES, MOST_BYTES + 1, MOST_BYTES + 14])]),
            f"bytes {name} " + "00" * rng.choice([MOST_BYTES, MOST_BYTES + 1, MOST_BYTES + 7, MOST_BYTES + 13, MOST_BYTES + 14]),
            f"utxo {'cd' * 32}#1 {'0a' * 64}0000",
            f"stage utxo {'cd' * 32}#{rng.choice(['1', '2'])} {'0a' * 64}0000",
            "stage " + rng.choice(["0100", "00" * rng.choice([MOST_BYTES, MOST_BYTES + 1, MOST_BYTES + 14])]),
            "unstage",
            f"utxo {'cd' * 32}#{'0' * rng.choice([0, 18, 19, 20])}2 {'0a' * 64}0000",
        ]
    )
    if rng.random() < 0.15:
        return start.encode() + rng.choice([b"\x00", b"\xff", b"\t"]) * max(0, length - len(start))
    if start == "#" and rng.random() < 0.5:
        return b"#" * length
    if rng.random() < 0.3:
        return start.rjust(length).encode()
    return start.ljust(length).encode()
