"""Each call sends its line, and reads what is answered."""

from __future__ import annotations

import dataclasses
import os
import subprocess
import sys
import unittest
from collections.abc import Callable
from typing import Any, get_type_hints

import keltuvar
from keltuvar import (
    BadLine,
    Block,
    Broken,
    Declared,
    Given,
    Input,
    Item,
    LedgerChange,
    OutOfMemory,
    Output,
    Pool,
    Refused,
    Removed,
    Shown,
    Snapshot,
    Stats,
    Undecodable,
)

from . import FAKE, LONG, fake_pool

ID = "f8f11283a19134b80b18f90f8ab47ef21a315808b705b442408dadb4fffe20b1"
ITEMS = (Item(1, "a"), Item(20, "b"))

# A call, the line that it sends, the line's answer, and what the call returns.
CALLS: list[tuple[Callable[[Pool], object], str, str, object]] = [
    (lambda pool: pool.settings(block=300), "block 300", "ok", None),
    (lambda pool: pool.settings(limit=2**32), "limit 4294967296", "ok", None),
    (lambda pool: pool.settings(last=41), "last 41", "ok", None),
    (lambda pool: pool.settings(tick=2**64 - 1), "tick 18446744073709551615", "ok", None),
    (lambda pool: pool.out("g0", 100), "out g0 100*coin", "ok", None),
    (
        lambda pool: pool.out("g1", Output({"coin": 100, "yes.gold": 7}, "five", "unit")),
        "out g1 100*coin,7*yes.gold@five/unit",
        "ok",
        None,
    ),
    (lambda pool: pool.out("g2", Output({}, "no")), "out g2 -@no", "ok", None),
    (lambda pool: pool.utxo(ID, 65535, b"\x0a\xff"), f"utxo {ID}#65535 0aff", "ok", None),
    (lambda pool: pool.script("five", b"\x05\x40"), "script five 0540", "ok", None),
    (lambda pool: pool.data("six", b"\x03\0\0"), "data six 030000", "ok", None),
    (lambda pool: pool.tx("a", inputs=["g0"]), "tx a in=g0", "ok", None),
    (
        lambda pool: pool.tx(
            "c",
            inputs=["a.1", Input("g1", "five", "unit", "five")],
            references=["a.0"],
            outputs=[Output({"coin": 70, "yes.gold": 5}), 5, {}],
            first_tick=3,
            last_tick=9,
            forge={"yes.gold": 5},
            policies=["yes"],
            signed_by=[2, 0],
            badly_signed_by=[255],
        ),
        "tx c in=a.1 in=g1:five/unit/five ref=a.0 out=70*coin,5*yes.gold out=5*coin out=- from=3"
        " to=9 forge=5*yes.gold policy=yes sign=2 sign=0 badsign=255",
        "ok",
        None,
    ),
    (lambda pool: pool.tx("a", forge={}), "tx a forge=-", "ok", None),
    (
        lambda pool: pool.tx_from_bytes("b", b"\x01\x00"),
        "bytes b 0100",
        f"tx 181 {ID}",
        Declared(181, ID),
    ),
    (lambda pool: pool.give(b"\x01\x00"), "give 0100", f"accepted 7 {ID}", Given(7, ID)),
    (lambda pool: pool.ids(), "ids", "ok", None),
    (lambda pool: pool.names(), "names", "ok", None),
    (lambda pool: pool.reset(), "reset", "ok", None),
    (lambda pool: pool.has(f"#{ID}"), f"has #{ID}", "has yes", True),
    (lambda pool: pool.check(f"#{ID}"), f"check #{ID}", "accepted 1", 1),
    (
        lambda pool: pool.remove("a", f"#{ID}"),
        f"remove a #{ID}",
        "removed 1 2 dropped",
        Removed((1, 2), ()),
    ),
    (
        lambda pool: pool.adopt(5, [f"#{ID}", "a"]),
        f"adopt 5 #{ID} a",
        "kept dropped 1",
        LedgerChange((), (1,)),
    ),
    (lambda pool: pool.show("a"), "show a", f"tx 2 {ID} 01Ff", Shown(2, ID, b"\x01\xff")),
    (lambda pool: pool.show(f"#{ID}"), f"show #{ID}", f"tx 1 {ID} 00", Shown(1, ID, b"\0")),
    (lambda pool: pool.check("a"), "check a", "accepted 7", 7),
    (lambda pool: pool.submit("a"), "submit a", "accepted 18446744073709551615", 2**64 - 1),
    (
        lambda pool: pool.remove("a", "b"),
        "remove a b",
        "removed 1 2 dropped 3",
        Removed((1, 2), (3,)),
    ),
    (lambda pool: pool.remove("a"), "remove a", "removed dropped", Removed((), ())),
    (
        lambda pool: pool.sync(5, ["g0", "a.1"]),
        "sync 5 g0 a.1",
        "kept 1 dropped 2 3",
        LedgerChange((1,), (2, 3)),
    ),
    (
        lambda pool: pool.sync(5, [], block=300),
        "sync 5 block=300",
        "kept dropped",
        LedgerChange((), ()),
    ),
    (
        lambda pool: pool.adopt(6, iter(["a", "b"]), block=1),
        "adopt 6 block=1 a b",
        "kept dropped 1",
        LedgerChange((), (1,)),
    ),
    (lambda pool: pool.adopt(6, ()), "adopt 6", "kept 4 dropped", LedgerChange((4,), ())),
    (lambda pool: pool.stage(b"\x01\xff"), "stage 01ff", "staged 3", 3),
    (lambda pool: pool.stage_ids([ID, ID]), f"stage #{ID} #{ID}", "staged 2", 2),
    (
        lambda pool: pool.stage_output(ID, 7, b"\x0a"),
        f"stage utxo {ID}#7 0a",
        "staged 18446744073709551615",
        2**64 - 1,
    ),
    (lambda pool: pool.unstage(), "unstage", "ok", None),
    (lambda pool: pool.adopt_staged(5), "adopt 5", "kept dropped 1", LedgerChange((), (1,))),
    (
        lambda pool: pool.sync_staged(5, block=300),
        "sync 5 block=300 staged",
        "kept 1 dropped",
        LedgerChange((1,), ()),
    ),
    (lambda pool: pool.back(0), "back 0", "kept dropped", LedgerChange((), ())),
    (lambda pool: pool.forge(300), "forge 300", "block 0 0", Block(0, 0, ())),
    (
        lambda pool: pool.forge(400),
        "forge 400",
        "block 2 362 1:a 20:b",
        Block(2, 362, ITEMS),
    ),
    (lambda pool: pool.take(200), "take 200", "take 2 362 1:a 20:b", Block(2, 362, ITEMS)),
    (lambda pool: pool.offer(9, 1000), "offer 9 1000", "offer 1:a 20:b", ITEMS),
    (lambda pool: pool.offer(0, 0), "offer 0 0", "offer", ()),
    (lambda pool: pool.after(0), "after 0", "after 1:a 20:b", ITEMS),
    (lambda pool: pool.after(9), "after 9", "after", ()),
    (lambda pool: pool.lookup(1), "lookup 1", "lookup a", "a"),
    (lambda pool: pool.lookup(2), "lookup 2", "lookup none", None),
    (lambda pool: pool.has("a"), "has a", "has yes", True),
    (lambda pool: pool.has("b"), "has b", "has no", False),
    (lambda pool: pool.after(6), "after 6", f"after 7:{ID}", (Item(7, ID),)),
    (
        lambda pool: pool.snapshot(),
        "snapshot",
        "snapshot 2 362 20 1:a 20:b",
        Snapshot(2, 362, 20, ITEMS),
    ),
    (lambda pool: pool.snapshot(), "snapshot", "snapshot 0 0 4", Snapshot(0, 0, 4, ())),
    (lambda pool: pool.try_ledger(1, ["a.0"]), "for 1 a.0", "for 1:a 20:b", ITEMS),
    (lambda pool: pool.try_ledger(1, [], block=5), "for 1 block=5", "for", ()),
    (
        lambda pool: pool.stats(),
        "stats",
        "stats 1 181 419 1 1 already 1 no-policy 2",
        Stats(1, 181, 419, 1, 1, {"already": 1, "no-policy": 2}),
    ),
    (lambda pool: pool.stats(), "stats", "stats 0 0 600 0 0", Stats(0, 0, 600, 0, 0, {})),
    (lambda pool: pool.forget("a", "b"), "forget a b", "forgotten 2", 2),
    (lambda pool: pool.ask("  # a comment"), "  # a comment", "ok", "ok"),
    (lambda pool: pool.ask(""), "", "ok", "ok"),
]

# An answer that is none to the call.
WRONG: list[tuple[Callable[[Pool], object], list[str]]] = [
    (lambda pool: pool.out("g0", 5), ["", "OK", "ok ", "ok ok", "accepted 1", "bad", "bad 5"]),
    (lambda pool: pool.submit("a"), ["ok", "accepted", "accepted x", "accepted 1 2", "refused"]),
    (lambda pool: pool.give(b"a"), ["accepted 1", "accepted 1 a", f"accepted {ID}", "ok"]),
    (lambda pool: pool.remove("a"), ["removed", "removed 1", "removed x dropped", "kept dropped"]),
    (lambda pool: pool.back(1), ["kept", "kept 1", "removed dropped", "kept dropped -1"]),
    (lambda pool: pool.stage(b"a"), ["staged", "staged a", "staged 1 2", "ok", "kept dropped"]),
    (lambda pool: pool.unstage(), ["staged 0", "unstaged"]),
    (lambda pool: pool.after(0), ["after a", "after 1:a:b", "after x:a", "for 1:a", "after "]),
    (lambda pool: pool.has("a"), ["has", "has maybe", "has yes no", "lookup yes"]),
    (lambda pool: pool.lookup(9), ["lookup", "lookup a b", "has yes"]),
    (lambda pool: pool.take(9), ["take", "take 1", "block 0 0", "take 0 0 a"]),
    (lambda pool: pool.show("a"), ["tx 1", f"tx 1 {ID}", f"tx 1 {ID} 0", f"tx x {ID} 01"]),
    (lambda pool: pool.stats(), ["stats", "stats 1 2 3 4", "stats 1 2 3 4 5 full"]),
    (lambda pool: pool.snapshot(), ["snapshot 1 2", "snapshot a b c", "undecodable", "fault: read"]),
]


class Calls(unittest.TestCase):
    pool: Pool

    @classmethod
    def setUpClass(cls) -> None:
        cls.pool = fake_pool()
        cls.addClassCleanup(cls.pool.close)

    def test_each(self) -> None:
        for call, line, answer, result in CALLS:
            with self.subTest(line=line, answer=answer):
                self.pool.ask(f"next {answer}")
                self.assertEqual(call(self.pool), result)
                self.assertEqual(self.pool.ask("heard"), line)

    def test_each_that_is_refused(self) -> None:
        errors: list[tuple[str, type[Exception]]] = [
            ("refused missing 0", Refused),
            ("undecodable large", Undecodable),
            ("bad 5: no transaction 'a'", BadLine),
            ("fault: no memory", OutOfMemory),
        ]
        for call, line, _, _ in CALLS:
            for answer, error in errors:
                with self.subTest(line=line, answer=answer):
                    self.pool.ask(f"next {answer}")
                    with self.assertRaises(error):
                        call(self.pool)
                    self.assertEqual(self.pool.lookup(3), "n3")

    def test_each_has_a_timeout(self) -> None:
        calls = [name for name in vars(Pool) if not name.startswith("_")]
        for name in calls:
            call = getattr(Pool, name)
            if callable(call):
                self.assertIn("timeout", get_type_hints(call), name)

    def test_settings_are_lines_of_their_own(self) -> None:
        self.pool.settings(block=300, limit=2, last=3, tick=4)
        self.assertEqual(self.pool.ask("heard"), "tick 4")
        self.pool.settings()
        self.assertEqual(self.pool.ask("heard"), "tick 4")
        self.pool.ask_all(["next ok", "next bad 2: taken", "next bad 3: late"])
        with self.assertRaises(BadLine) as caught:
            self.pool.settings(block=300, last=3, tick=4)
        self.assertEqual(caught.exception.number, 2)

    def test_many_ids_are_several_lines(self) -> None:
        self.pool.ask_all(["next staged 490", "next staged 980", "next staged 981"])
        self.assertEqual(self.pool.stage_ids([ID] * 981), 981)
        self.assertEqual(self.pool.ask("heard"), f"stage #{ID}")
        self.pool.ask_all(["next staged 490", "next bad 2: no transaction", "next staged 491"])
        with self.assertRaises(BadLine) as caught:
            self.pool.stage_ids([ID] * 981)
        self.assertEqual(caught.exception.number, 2)

    def test_many_lines(self) -> None:
        self.assertEqual(self.pool.ask_all([]), [])
        self.pool.ask("next refused missing 0")
        lines = ["submit a", *(f"lookup {number}" for number in range(50000))]
        answers = self.pool.ask_all(iter(lines))
        self.assertEqual(answers[0], "refused missing 0")
        self.assertEqual(answers[1:], [f"lookup n{number}" for number in range(50000)])

    def test_long_lines(self) -> None:
        data = bytes(range(256)) * 4000
        self.pool.script("a", data)
        self.assertEqual(self.pool.ask("heard"), f"script a {data.hex()}")

    def test_long_answers(self) -> None:
        self.assertEqual(self.pool.ask("long 5000000"), "x" * 5000000)


class Answers(unittest.TestCase):
    def test_what_is_no_answer_ends_the_program(self) -> None:
        for call, answers in WRONG:
            for answer in answers:
                with self.subTest(answer=answer), fake_pool() as pool:
                    pool.ask(f"next {answer}")
                    for _ in range(2):
                        with self.assertRaisesRegex(Broken, "has no known form"):
                            call(pool)
                    self.assertIsNotNone(pool.status)


class Programs(unittest.TestCase):
    def test_the_command_line(self) -> None:
        with Pool(FAKE, timeout=LONG) as pool:
            self.assertEqual(pool.ask("arguments"), "serve")
        with Pool(str(FAKE), timeout=LONG, signatures="scenarios") as pool:
            self.assertEqual(pool.ask("arguments"), "serve")
        with Pool(FAKE, timeout=LONG, signatures="ed25519") as pool:
            self.assertEqual(pool.ask("arguments"), "serve --signatures ed25519")
        with Pool(FAKE, timeout=LONG, signatures="checked", salt=7) as pool:
            self.assertEqual(pool.ask("arguments"), "serve --signatures checked --salt 7")
        with Pool(FAKE, timeout=LONG, names=2**32) as pool:
            self.assertEqual(pool.ask("arguments"), "serve --names 4294967296")

    def test_streams(self) -> None:
        pipe = subprocess.PIPE
        with subprocess.Popen([sys.executable, FAKE], stdin=pipe, stdout=pipe, bufsize=0) as child:
            assert child.stdin and child.stdout
            with Pool.from_streams(child.stdout, child.stdin, timeout=LONG) as pool:
                self.assertEqual(pool.lookup(5), "n5")
                self.assertEqual(pool.ask("long 5000000"), "x" * 5000000)
                self.assertIsNone(pool.pid)
                self.assertIsNone(pool.status)
            self.assertEqual(child.wait(LONG), 0)

    def test_another_process_may_not_call(self) -> None:
        with fake_pool() as pool:
            child = os.fork()
            if not child:
                with pool:
                    try:
                        pool.lookup(1)
                    except keltuvar.Closed:
                        os._exit(5)
                os._exit(6)
            self.assertEqual(os.waitstatus_to_exitcode(os.waitpid(child, 0)[1]), 5)
            self.assertEqual(pool.lookup(2), "n2")


class Values(unittest.TestCase):
    def test_values_are_frozen(self) -> None:
        values: list[Any] = [Declared(1, ID), Item(1, "a"), Block(0, 0, ()), Removed((), ())]
        for value in values:
            with self.assertRaises(dataclasses.FrozenInstanceError):
                setattr(value, dataclasses.fields(value)[0].name, 5)
            hash(value)
