"""Each answer and each refusal, as docs/FORMATS.md and docs/SERVE.md have them."""

from __future__ import annotations

import copy
import pickle
import unittest
from collections.abc import Callable
from pathlib import Path
from typing import Any

import keltuvar
from keltuvar import (
    BadLine,
    Broken,
    Closed,
    KeltuvarError,
    OutOfMemory,
    Refused,
    Timeout,
    Undecodable,
    answers,
    error_in,
)

# A refusal, the fields that it tells, and its text.
REFUSALS: list[tuple[str, dict[str, Any], str]] = [
    ("history", {}, "history: the pool has made as many changes as its limit allows"),
    ("tickets", {}, "tickets: the last ticket has been given"),
    ("already 3", {"ticket": 3}, "already: the pool holds this transaction, under ticket 3"),
    (
        "full 277 238",
        {"need": 277, "free": 238},
        "full: the transaction has 277 bytes, and 238 are free",
    ),
    ("no-inputs", {}, "no-inputs: the transaction has no input"),
    ("interval", {}, "interval: the pool's tick is outside the transaction's interval"),
    ("negative 1", {"output": 1}, "negative: output 1 has a negative quantity"),
    ("missing 0", {"input": 0}, "missing: input 0 names no unspent output"),
    (
        "reference 2",
        {"reference": 2},
        "reference: reference input 2 names no unspent output",
    ),
    (
        "address 0",
        {"input": 0},
        "address: the validator of input 0 isn't that of the output it spends",
    ),
    ("datum 4", {"input": 4}, "datum: the datum of input 4 isn't that of the output it spends"),
    (
        "taken 0",
        {"output": 0},
        "taken: output 0 would have the reference of an unspent output",
    ),
    (
        "no-policy coin",
        {"policy": "coin"},
        "no-policy: it forges tokens of policy coin without that script",
    ),
    (
        "no-policy #0a0b",
        {"policy": "#0a0b"},
        "no-policy: it forges tokens of policy #0a0b without that script",
    ),
    (
        "unbalanced coin",
        {"policy": "coin"},
        "unbalanced: it doesn't pay what it spends and forges of 'coin'",
    ),
    (
        "unbalanced yes.gold",
        {"policy": "yes", "token": "gold"},
        "unbalanced: it doesn't pay what it spends and forges of 'yes.gold'",
    ),
    (
        "unbalanced #0a.#ff",
        {"policy": "#0a", "token": "#ff"},
        "unbalanced: it doesn't pay what it spends and forges of '#0a.#ff'",
    ),
    ("signature 7", {"key": 7}, "signature: a signature of key 7 isn't good"),
    ("validator 1", {"input": 1}, "validator: the validator of input 1 doesn't accept"),
    (
        "policy-script 0",
        {"policy_script": 0},
        "policy-script: policy script 0 doesn't accept",
    ),
    ("back 2160", {"kept": 2160}, "back: only 2160 former ledger states are kept"),
    ("later 5 x", {}, "later 5 x"),
]
FIELDS = (
    "ticket",
    "need",
    "free",
    "input",
    "output",
    "reference",
    "policy",
    "token",
    "key",
    "policy_script",
    "kept",
    "transaction",
    "cause",
)


ID = "f8f11283a19134b80b18f90f8ab47ef21a315808b705b442408dadb4fffe20b1"


class Refusals(unittest.TestCase):
    def check(self, refused: Any, words: str, fields: dict[str, Any], text: str) -> None:
        self.assertIsInstance(refused, Refused)
        self.assertEqual([refused.word, *refused.details], words.split(" "))
        for field in FIELDS:
            self.assertEqual(getattr(refused, field), fields.get(field), field)
        self.assertEqual(str(refused), text)

    def test_each(self) -> None:
        for words, fields, text in REFUSALS:
            with self.subTest(words=words):
                self.check(error_in(f"refused {words}"), words, fields, text)

    def test_of_bytes(self) -> None:
        transaction_id = "0a" * 32
        for words, fields, text in REFUSALS:
            error = error_in(f"refused {words} {transaction_id}")
            with self.subTest(words=words):
                self.check(error, words, fields, text)
                assert isinstance(error, Refused)
                self.assertEqual(error.id, transaction_id)

    def test_each_of_a_block(self) -> None:
        for words, fields, text in REFUSALS:
            with self.subTest(words=words):
                refused = error_in(f"refused adopt a {words}")
                assert isinstance(refused, Refused)
                self.assertEqual((refused.word, refused.transaction), ("adopt", "a"))
                self.check(refused.cause, words, fields, text)
                self.assertEqual(str(refused), f"adopt: transaction 'a' isn't valid: {text}")

    def test_others_are_no_refusals(self) -> None:
        for words in (
            "already",
            "already x",
            "already -1",
            "already 1 2",
            f"already {ID}",
            f"already 1 {ID} {ID}",
            "full 1",
            "full 1 2 3",
            "missing \u0661",
            "tickets 1",
            "unbalanced",
            "unbalanced coin coin",
            "adopt",
            "adopt a",
            "adopt a missing",
        ):
            with self.subTest(words=words), self.assertRaises(ValueError):
                error_in(f"refused {words}")


class Errors(unittest.TestCase):
    def test_undecodable(self) -> None:
        faults = "truncated trailing version order bundle script data interval large spent references"
        for fault in faults.split():
            error = error_in(f"undecodable {fault}")
            assert isinstance(error, Undecodable)
            self.assertEqual(error.fault, fault)
            self.assertRegex(str(error), f"^the bytes are no transaction: {fault}: [a-z ,]{{10}}")

    def test_bad_line(self) -> None:
        error = error_in("bad 12: no transaction 'c': so it is")
        assert isinstance(error, BadLine)
        self.assertEqual((error.number, error.reason), (12, "no transaction 'c': so it is"))
        self.assertEqual(str(error), "line 12: no transaction 'c': so it is")

    def test_out_of_memory(self) -> None:
        error = error_in("fault: no memory")
        self.assertIsInstance(error, OutOfMemory)
        self.assertEqual(str(error), "the program is out of memory; nothing has changed")

    def test_what_is_no_error(self) -> None:
        for answer in ("ok", "accepted 1", "kept dropped 1", "refusals", ""):
            self.assertIsNone(error_in(answer))

    def test_what_has_no_form(self) -> None:
        for answer in ("refused", "undecodable", "undecodable a b", "bad 5", "bad x: y", "bad"):
            with self.subTest(answer=answer), self.assertRaises(ValueError):
                error_in(answer)
        with self.assertRaises(ValueError):
            error_in("fault: read")

    def test_one_base(self) -> None:
        errors = (Refused, Undecodable, BadLine, OutOfMemory, Timeout, Closed, Broken)
        for error in errors:
            self.assertTrue(issubclass(error, KeltuvarError))
            self.assertTrue(error.__doc__)
            self.assertIn(error.__name__, keltuvar.__all__)
        self.assertTrue(issubclass(Timeout, TimeoutError))

    def test_copies_are_the_same(self) -> None:
        errors: list[KeltuvarError] = [
            Refused("adopt", "a", "full", "5", "4"),
            Undecodable("large"),
            BadLine(3, "no transaction 'a'"),
            OutOfMemory(),
            Timeout("stats", 0.5, True),
            Timeout("stats", 0.5, False),
            Closed("the pool is closed"),
            Broken("the program ended", 3, "fault: write\n"),
        ]
        for error in errors:
            for other in (copy.copy(error), pickle.loads(pickle.dumps(error))):
                self.assertIs(type(other), type(error))
                self.assertEqual(str(other), str(error))
                self.assertEqual(other.args, error.args)
                self.assertEqual(vars(other).keys(), vars(error).keys())

    def test_texts(self) -> None:
        broken = Broken("the program ended", 3, "fault: write\n")
        self.assertEqual(str(broken), "the program ended: fault: write")
        self.assertEqual(str(Broken("it was interrupted")), "it was interrupted")
        self.assertIn("no answer to 'stats' within 0.5 s", str(Timeout("stats", 0.5, True)))
        self.assertIn("'stats' wasn't sent", str(Timeout("stats", 0.5, False)))


READERS: dict[str, Callable[[str], object]] = {
    "ok": answers.read_ok,
    "accepted": answers.read_ticket,
    "after": answers.read_after,
    "block": answers.read_block,
    "for": answers.read_kept_for,
    "forgotten": answers.read_forgotten,
    "has": answers.read_has,
    "kept": answers.read_ledger_change,
    "lookup": answers.read_lookup,
    "offer": answers.read_offer,
    "removed": answers.read_removed,
    "snapshot": answers.read_snapshot,
    "staged": answers.read_staged,
    "stats": answers.read_stats,
    "take": answers.read_take,
}
TALKS = Path(__file__).parents[3] / "scenarios" / "talks"


@unittest.skipUnless(TALKS.is_dir(), "the conversations of the repository aren't there")
class Talks(unittest.TestCase):
    def test_each_answer_of_the_conversations_is_read(self) -> None:
        lines = {line for file in TALKS.glob("*.out") for line in file.read_text().splitlines()}
        self.assertGreater(len(lines), 300)
        for line in lines:
            with self.subTest(line=line):
                words = line.split(" ")
                error = error_in(line)
                if error:
                    self.assertTrue(str(error))
                    self.assertNotIn("unknown", str(error))
                elif words[0] == "tx":
                    read = answers.read_declared if len(words) == 3 else answers.read_shown
                    self.assertIn(f"size={words[1]},", repr(read(line)))
                elif words[0] == "accepted" and len(words) == 3:
                    self.assertEqual(answers.read_given(line).id, words[2])
                else:
                    READERS[words[0]](line)

    def test_each_refusal_of_the_conversations_is_known(self) -> None:
        for file in TALKS.glob("*.out"):
            for line in file.read_text().splitlines():
                error = error_in(line)
                if isinstance(error, Refused):
                    self.assertNotEqual(str(error), line.removeprefix("refused "))


class Names(unittest.TestCase):
    def test_all_that_is_public_is_there(self) -> None:
        self.assertEqual(sorted(keltuvar.__all__), keltuvar.__all__)
        for name in keltuvar.__all__:
            self.assertTrue(hasattr(keltuvar, name), name)
