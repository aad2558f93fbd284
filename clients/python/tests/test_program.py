"""Conversations with the program itself, whose path is in KELTUVAR. What it has to answer is from
docs/SERVE.md and docs/FORMATS.md."""

from __future__ import annotations

import os
import signal
import unittest
from collections.abc import Callable
from concurrent.futures import ThreadPoolExecutor
from typing import Any

from keltuvar import (
    BadLine,
    Block,
    Broken,
    Declared,
    Given,
    Input,
    Item,
    LedgerChange,
    Output,
    Pool,
    Refused,
    Removed,
    Snapshot,
    Stats,
    Timeout,
    Undecodable,
)

from . import LONG, PROGRAM, SHORT, is_running

THREADS = 8
CHAIN = 400

# The first whole transaction of docs/FORMATS.md, and its id.
PLAIN = bytes.fromhex(
    "01"
    "0001" + "00" * 32 + "0000" "000101" "0003030000" "0003030000"
    "0001"
    "4bf5122f344554c53bde2ebb8cd2b7e3d1600ad631c385a5d7cce23c7785459a"
    "3e4479e6b5a0a3bed1440325ca4bb09327a1dfb39c28bdd59de53a687ade0105"
    "0001" + "00" * 32 + "00" "0000000000000064"
    "0000000000000000" "ffffffffffffffff"
    "0000" "0000" "0000"
)
PLAIN_OUTPUT = PLAIN[52:159]
PLAIN_ID = "f8f11283a19134b80b18f90f8ab47ef21a315808b705b442408dadb4fffe20b1"
# What an output of 100 coin has there.
PLAIN_OUTPUT = PLAIN[52:159]
# Where 5 is the redeemer the script accepts.
FIVE = bytes.fromhex("054002000000000000000520")


def refusal(call: Callable[[], object]) -> Refused:
    """Returns the refusal that the call raises."""
    try:
        result = call()
    except Refused as refused:
        return refused
    raise AssertionError(f"it isn't refused: {result}")


@unittest.skipUnless(PROGRAM, "KELTUVAR doesn't name the program")
class Program(unittest.TestCase):
    def begin(self, **options: Any) -> Pool:
        assert PROGRAM
        pool = Pool(PROGRAM, timeout=LONG, **options)
        self.addCleanup(pool.close)
        return pool

    def test_a_conversation(self) -> None:
        pool = self.begin()
        pool.settings(block=300)
        pool.script("five", FIVE)
        pool.data("six", bytes.fromhex("010000000000000006"))
        pool.out("g0", 100)
        self.assertEqual(pool.tx_from_bytes("a", PLAIN), Declared(181, PLAIN_ID))
        shown = pool.show("a")
        self.assertEqual((shown.size, shown.id, shown.data), (181, PLAIN_ID, PLAIN))
        self.assertEqual(pool.check("a"), 1)
        self.assertEqual(pool.stats(), Stats(0, 0, 600, 0, 0, {}))
        self.assertEqual(pool.submit("a"), 1)
        self.assertEqual(refusal(lambda: pool.submit("a")).ticket, 1)
        self.assertEqual(pool.stats(), Stats(1, 181, 419, 1, 1, {"already": 1}))
        items = (Item(1, "a"),)
        self.assertEqual(pool.snapshot(), Snapshot(1, 181, 1, items))
        self.assertEqual(pool.after(0), items)
        self.assertEqual(pool.after(1), ())
        self.assertEqual(pool.lookup(1), "a")
        self.assertIsNone(pool.lookup(2))
        self.assertIs(pool.has("a"), True)
        self.assertEqual(pool.take(200), Block(1, 181, items))
        self.assertEqual(pool.take(180), Block(0, 0, ()))
        self.assertEqual(pool.offer(9, 1000), items)
        self.assertEqual(pool.offer(9, 1000), ())
        self.assertEqual(pool.forge(300), Block(1, 181, items))
        self.assertEqual(pool.try_ledger(1, []), ())
        self.assertEqual(pool.try_ledger(1, ["g0"], block=300), items)
        self.assertEqual(pool.adopt(1, ["a"]), LedgerChange((), (1,)))
        self.assertEqual(refusal(lambda: pool.check("a")).input, 0)
        refused = refusal(lambda: pool.adopt(2, ["a"]))
        self.assertEqual((refused.word, refused.transaction), ("adopt", "a"))
        assert refused.cause
        self.assertEqual((refused.cause.word, refused.cause.input), ("missing", 0))
        self.assertEqual(pool.back(1), LedgerChange((), ()))
        self.assertEqual(pool.submit("a"), 2)
        self.assertEqual(pool.sync(1, [], block=300), LedgerChange((), (2,)))
        self.assertEqual(pool.remove("a"), Removed((), ()))
        self.assertEqual(pool.forget("a"), 1)
        self.assertEqual(pool.forget("a"), 0)
        with self.assertRaises(BadLine):
            pool.submit("a")
        pool.close()
        self.assertEqual(pool.status, 0)

    def test_outputs_by_their_bytes(self) -> None:
        pool = self.begin()
        pool.utxo("0" * 64, 0, PLAIN_OUTPUT)
        pool.tx_from_bytes("a", PLAIN)
        self.assertEqual(pool.submit("a"), 1)

    def test_transactions_without_names(self) -> None:
        pool = self.begin()
        pool.utxo("0" * 64, 0, PLAIN_OUTPUT)
        with self.assertRaises(Undecodable):
            pool.give(b"\x03")
        with self.assertRaises(BadLine):
            pool.show(f"#{PLAIN_ID}")
        self.assertEqual(pool.give(PLAIN), Given(1, PLAIN_ID))
        refused = refusal(lambda: pool.give(PLAIN))
        self.assertEqual((refused.word, refused.ticket, refused.id), ("already", 1, PLAIN_ID))
        self.assertEqual(pool.show(f"#{PLAIN_ID}").data, PLAIN)
        self.assertEqual(refusal(lambda: pool.check(f"#{PLAIN_ID}")).ticket, 1)
        self.assertEqual((pool.has(f"#{PLAIN_ID}"), pool.has("#" + "0" * 64)), (True, False))
        self.assertEqual(pool.lookup(1), PLAIN_ID)
        pool.tx_from_bytes("a", PLAIN)
        self.assertEqual(pool.lookup(1), "a")
        pool.ids()
        self.assertEqual(pool.snapshot().items, (Item(1, PLAIN_ID),))
        pool.names()
        self.assertEqual(pool.after(0), (Item(1, "a"),))
        self.assertEqual(pool.adopt(1, [f"#{PLAIN_ID}"]), LedgerChange((), (1,)))
        self.assertEqual(pool.back(1), LedgerChange((), ()))
        self.assertEqual(pool.give(PLAIN).ticket, 2)
        self.assertEqual((pool.stage_ids([PLAIN_ID]), pool.stage(PLAIN)), (1, 2))
        self.assertEqual(refusal(lambda: pool.adopt_staged(1)).word, "adopt")
        pool.unstage()
        self.assertEqual(pool.stage_ids([PLAIN_ID]), 1)
        self.assertEqual(pool.adopt_staged(1, block=500), LedgerChange((), (2,)))
        self.assertEqual(pool.adopt_staged(1), LedgerChange((), ()))
        self.assertEqual(pool.stage_output("0" * 64, 0, PLAIN_OUTPUT), 1)
        self.assertEqual(pool.sync_staged(2), LedgerChange((), ()))
        self.assertEqual(pool.give(PLAIN).ticket, 3)
        self.assertEqual(pool.remove(f"#{PLAIN_ID}"), Removed((3,), ()))

    def test_removal(self) -> None:
        pool = self.begin()
        pool.out("g0", 100)
        pool.tx("a", inputs=["g0"], outputs=[100])
        pool.tx("b", inputs=["a.0"], outputs=[100])
        self.assertEqual((pool.submit("a"), pool.submit("b")), (1, 2))
        self.assertEqual(pool.remove("a"), Removed((1,), (2,)))

    def test_each_refusal(self) -> None:
        pool = self.begin()
        pool.settings(block=300)
        pool.script("five", FIVE)
        pool.data("six", bytes.fromhex("010000000000000006"))
        pool.out("g0", 100)
        pool.out("g1", Output({"coin": 100, "yes.gold": 7}, "five", "unit"))
        pool.out("g2", Output(50, "no"))
        pool.tx("made", inputs=["g2"], outputs=[50])
        cases: list[tuple[dict[str, Any], str, dict[str, Any]]] = [
            ({"outputs": [100]}, "no-inputs", {}),
            ({"inputs": ["g0"], "outputs": [100], "first_tick": 5}, "interval", {}),
            ({"inputs": ["g0"], "outputs": [105, -5]}, "negative", {"output": 1}),
            ({"inputs": ["g0", "made.0"], "outputs": [150]}, "missing", {}),
            ({"inputs": ["g0"], "references": ["made.0"]}, "reference", {"reference": 0}),
            ({"inputs": [Input("g0", "no")], "outputs": [100]}, "address", {"input": 0}),
            ({"inputs": [Input("g0", "yes", "six")], "outputs": [100]}, "datum", {"input": 0}),
            (
                {"inputs": ["g0"], "outputs": [{"coin": 100, "no.x": 1}], "forge": {"no.x": 1}},
                "no-policy",
                {"policy": "no"},
            ),
            ({"inputs": ["g0"], "outputs": [99]}, "unbalanced", {"policy": "coin", "token": None}),
            (
                {"inputs": [Input("g1", "five", "unit", "six")], "outputs": [100]},
                "unbalanced",
                {"policy": "yes", "token": "gold"},
            ),
            (
                {"inputs": ["g0"], "outputs": [100], "signed_by": [2], "badly_signed_by": [7]},
                "signature",
                {"key": 7},
            ),
            ({"inputs": ["g2"], "outputs": [50]}, "validator", {"input": 0}),
            (
                {
                    "inputs": ["g0"],
                    "outputs": [{"coin": 100, "no": 1}],
                    "forge": {"no": 1},
                    "policies": ["no"],
                },
                "policy-script",
                {"policy_script": 0},
            ),
        ]
        for number, (parts, word, fields) in enumerate(cases):
            with self.subTest(word=word, parts=parts):
                pool.tx(f"t{number}", **parts)
                refused = refusal(lambda: pool.submit(f"t{number}"))
                self.assertEqual(refused.word, word)
                self.assertTrue(str(refused).startswith(f"{word}: "))
                for field, value in fields.items():
                    self.assertEqual(getattr(refused, field), value)
        self.assertEqual(pool.stats().refusals["unbalanced"], 2)
        self.assertEqual(refusal(lambda: pool.back(1)).kept, 0)

    def test_refusal_of_a_full_pool(self) -> None:
        pool = self.begin()
        pool.settings(block=300)
        pool.out("g0", 100)
        pool.tx("a", inputs=["g0"], outputs=[100])
        pool.tx("b", inputs=["a.0"], outputs=[100])
        pool.tx("c", inputs=["b.0"], outputs=[100], signed_by=[5])
        pool.submit("a")
        pool.submit("b")
        refused = refusal(lambda: pool.submit("c"))
        self.assertEqual((refused.word, refused.need, refused.free), ("full", 277, 238))

    def test_refusal_of_an_output_that_is_there(self) -> None:
        pool = self.begin()
        pool.out("g0", 100)
        pool.tx("a", inputs=["g0"], outputs=[100])
        pool.sync(1, ["g0", "a.0"])
        refused = refusal(lambda: pool.submit("a"))
        self.assertEqual((refused.word, refused.output), ("taken", 0))

    def test_refusal_without_a_ticket(self) -> None:
        pool = self.begin()
        pool.settings(last=2**64 - 1)
        pool.out("g0", 100)
        pool.tx("a", inputs=["g0"], outputs=[100])
        self.assertEqual(refusal(lambda: pool.submit("a")).word, "tickets")

    def test_bytes_that_are_no_transaction(self) -> None:
        pool = self.begin()
        cases = [
            (b"\x03", "version"),
            (PLAIN[:-1], "truncated"),
            (PLAIN + b"\0", "trailing"),
            (bytes(16385), "large"),
            (PLAIN.replace(b"\0\x03\x03\0\0", b"\0\x03\x04\0\0", 1), "data"),
        ]
        for data, fault in cases:
            with self.subTest(fault=fault), self.assertRaises(Undecodable) as caught:
                pool.tx_from_bytes("a", data)
            self.assertEqual(caught.exception.fault, fault)

    def test_bad_lines(self) -> None:
        pool = self.begin()
        pool.settings(tick=5)
        calls: list[Callable[[], object]] = [
            lambda: pool.submit("nobody"),
            lambda: pool.settings(tick=5),
            lambda: pool.script("bad", b"\xff"),
            lambda: pool.sync(1, ["x"] * 3000),
            lambda: pool.ask("nothing of the kind"),
        ]
        for number, call in enumerate(calls, 2):
            with self.assertRaises(BadLine) as caught:
                call()
            self.assertEqual(caught.exception.number, number)
            self.assertTrue(caught.exception.reason)
        self.assertEqual(pool.stats().count, 0)

    def test_signatures(self) -> None:
        for signatures in ("trial", "checked", "ed25519"):
            pool = self.begin(signatures=signatures)
            pool.out("g0", 100)
            pool.tx("a", inputs=["g0"], outputs=[100], badly_signed_by=[7])
            pool.tx("b", inputs=["a.0"], outputs=[100], signed_by=[8])
            pool.tx("c", inputs=["g0"], outputs=[100], signed_by=[9])
            if signatures == "checked":
                self.assertEqual((pool.submit("a"), pool.submit("b")), (1, 2))
                continue
            self.assertEqual(refusal(lambda: pool.submit("a")).key, 7)
            if signatures == "trial":
                self.assertEqual(pool.submit("c"), 1)
            else:
                self.assertEqual(refusal(lambda: pool.submit("c")).key, 9)

    def test_salt(self) -> None:
        pool = self.begin(salt=7)
        try:
            self.assertEqual(pool.stats().count, 0)
        except Broken as broken:  # A program that has no `--salt` refuses its command line.
            self.assertEqual(broken.status, 2)
            self.assertIn("--salt", broken.stderr)

    def test_threads(self) -> None:
        pool = self.begin()
        pool.out("g0", 100)
        pool.tx("t0", inputs=["g0"], outputs=[100])
        for number in range(1, CHAIN):
            pool.tx(f"t{number}", inputs=[f"t{number - 1}.0"], outputs=[100])
        answers = pool.ask_all(f"submit t{number}" for number in range(CHAIN))
        self.assertEqual(answers, [f"accepted {number + 1}" for number in range(CHAIN)])

        def look_up(first: int) -> None:
            for ticket in [*range(first, CHAIN + 1, THREADS)] * 5:
                self.assertEqual(pool.lookup(ticket), f"t{ticket - 1}")
                self.assertEqual(pool.take(181 * ticket).count, ticket)

        with ThreadPoolExecutor(THREADS) as threads:
            for done in [threads.submit(look_up, first) for first in range(1, THREADS + 1)]:
                done.result(LONG)

    def test_program_that_stalls(self) -> None:
        pool = self.begin()
        assert pool.pid
        pool.stats()
        os.kill(pool.pid, signal.SIGSTOP)
        with self.assertRaises(Timeout):
            pool.lookup(99, timeout=SHORT)
        self.assertFalse(is_running(pool.pid))
        with self.assertRaises(Broken):
            pool.lookup(1)

    def test_program_that_is_killed(self) -> None:
        pool = self.begin()
        assert pool.pid
        pool.stats()
        os.kill(pool.pid, signal.SIGKILL)
        with self.assertRaises(Broken) as caught:
            pool.lookup(1)
        self.assertEqual(caught.exception.status, -signal.SIGKILL)
