"""Transactions by their bytes, and the JSON of their parts."""

from __future__ import annotations

import unittest

from keltuvar_gateway.transactions import (
    decode,
    format_reference,
    make_reference,
    read_references,
)
from tests.test_program import PLAIN, PLAIN_ID

ADDRESS = "4bf5122f344554c53bde2ebb8cd2b7e3d1600ad631c385a5d7cce23c7785459a"
# The second whole transaction of docs/FORMATS.md.
REFERENCE = bytes([1]) * 32 + b"\x00\x02"
SIGNATURE = bytes([5]) * 64 + bytes.fromhex(
    "e381298c6980f5ff7dabdbf4d015f2e2e41737a01e13a8654f23b6053625ea8f"
)
SECOND = (
    b"\x02" + PLAIN[1 : 52 - 2] + b"\x00\x01" + REFERENCE + PLAIN[50:-2] + b"\x00\x01" + SIGNATURE
)


class Transactions(unittest.TestCase):
    def test_the_first_of_the_formats(self) -> None:
        parts = decode(PLAIN)
        self.assertEqual((parts.version, parts.references, parts.keys), (1, (), ()))
        (spent,), (output,) = parts.inputs, parts.outputs
        self.assertEqual(format_reference(spent.reference), "00" * 32 + "#0")
        self.assertEqual(
            (spent.validator, spent.datum, spent.redeemer), (b"\1", b"\3\0\0", b"\3\0\0")
        )
        self.assertEqual((output.address.hex(), output.data), (ADDRESS, PLAIN[52:159]))
        (entry,) = output.bundle
        self.assertEqual((entry.policy, entry.name, entry.quantity), (bytes(32), b"", 100))
        self.assertEqual((parts.first_tick, parts.last_tick), (0, 2**64 - 1))

    def test_the_second_of_the_formats(self) -> None:
        self.assertEqual(len(SECOND), 313)
        parts = decode(SECOND)
        self.assertEqual((parts.version, parts.references), (2, (REFERENCE,)))
        self.assertEqual(parts.keys, (bytes([5]) * 32,))
        self.assertEqual(read_references(SECOND), {bytes(34), REFERENCE})

    def test_forged_tokens_and_scripts(self) -> None:
        forged = b"\0\1" + bytes([9]) * 32 + b"\2ab" + (-5).to_bytes(8, "big", signed=True)
        parts = decode(PLAIN[:-6] + forged + b"\0\2" + b"\0\1\0" + b"\0\1\1" + b"\0\0")
        (entry,) = parts.forged
        self.assertEqual((entry.policy, entry.name, entry.quantity), (bytes([9]) * 32, b"ab", -5))
        self.assertEqual(parts.policy_scripts, (b"\0", b"\1"))

    def test_other_bytes(self) -> None:
        for data in (b"", b"\3" + PLAIN[1:], PLAIN + b"\0", PLAIN[:-1], PLAIN[:20]):
            with self.assertRaises(ValueError):
                decode(data)

    def test_references(self) -> None:
        reference = make_reference(PLAIN_ID, 258)
        self.assertEqual(reference[32:], b"\1\2")
        self.assertEqual(format_reference(reference), f"{PLAIN_ID}#258")
