"""What stands in a line, and that nothing else can."""

from __future__ import annotations

import unittest
from collections.abc import Callable
from typing import Any

from keltuvar import Input, Output, Pool
from keltuvar.words import format_bundle, format_input, format_output

from . import fake_pool

# None of these is a name, a reference, or a list of names.
NO_NAMES: list[Any] = [
    "",
    " ",
    "a b",
    "a\n",
    "\na",
    "a\nremove b",
    "a\rb",
    "a\0",
    "A",
    "1a",
    "a" * 17,
    "\u00e4",
    "a\u2028b",
    "a:yes",
    "#",
    "a,b",
    None,
    1,
    b"a",
    ["a"],
]
NO_IDS: list[Any] = [
    "#a",
    "#" + "a" * 63,
    "#" + "a" * 65,
    "#" + "g" * 64,
    "#" + "A" * 64,
    "##" + "a" * 63,
    "#" + "a" * 64 + "\n",
    "#" + "a" * 64 + " b",
    "a" * 64,
]
NO_REFERENCES: list[Any] = [
    *NO_NAMES,
    "a.",
    "a.b",
    "a.-1",
    "a.0 b",
    "a.0\n",
    "a.\u0661",
    "a.0.0",
    "a.0:yes",
    "a." + "0" * 21,
]
NO_NUMBERS: list[Any] = [-1, 2**64, 1.0, "1", "1\nremove a", None, True, [1]]
NO_BYTES: list[Any] = [b"", "01", "zz", "01\nremove a", None, 5, [1]]
NO_QUANTITIES: list[Any] = [0, 2**63, -(2**63), 1.5, "5", True, None]
NO_TOKENS: list[Any] = ["", "A", "yes.", "yes.A", "yes gold", "yes.a b", "coin,5", "yes.a@no", 5]


class Injection(unittest.TestCase):
    """Every argument of every call is one word, or a ValueError before anything is sent."""

    pool: Pool

    @classmethod
    def setUpClass(cls) -> None:
        cls.pool = fake_pool()
        cls.addClassCleanup(cls.pool.close)

    def refuses(self, call: Callable[[Any], object], values: list[Any]) -> None:
        """Checks that none of these values is taken, and that nothing was sent."""
        self.pool.lookup(7)
        for value in values:
            with self.subTest(value=value), self.assertRaises(ValueError):
                call(value)
        self.assertEqual(self.pool.ask("heard"), "lookup 7")

    def test_names(self) -> None:
        pool = self.pool
        calls: list[Callable[[Any], object]] = [
            lambda name: pool.out(name, 5),
            lambda name: pool.script(name, b"\1"),
            lambda name: pool.data(name, b"\3\0\0"),
            lambda name: pool.tx(name, inputs=["g0"]),
            lambda name: pool.tx_from_bytes(name, b"\1"),
            lambda name: pool.show(name),
            lambda name: pool.check(name),
            lambda name: pool.submit(name),
            lambda name: pool.has(name),
            lambda name: pool.remove(name),
            lambda name: pool.remove("a", name),
            lambda name: pool.forget(name),
            lambda name: pool.forget("a", name),
            lambda name: pool.adopt(1, [name]),
            lambda name: pool.tx("a", policies=[name]),
        ]
        for call in calls:
            self.refuses(call, NO_NAMES)

    def test_ids(self) -> None:
        pool = self.pool
        calls: list[Callable[[Any], object]] = [
            lambda name: pool.show(name),
            lambda name: pool.check(name),
            lambda name: pool.has(name),
            lambda name: pool.remove("a", name),
            lambda name: pool.adopt(1, ["a", name]),
        ]
        for call in calls:
            self.refuses(call, NO_IDS)
        good = "#" + "a" * 64
        calls = [lambda name: pool.submit(name), lambda name: pool.forget(name)]
        for call in calls:
            self.refuses(call, [good, *NO_IDS])

    def test_references(self) -> None:
        pool = self.pool
        calls: list[Callable[[Any], object]] = [
            lambda reference: pool.sync(1, [reference]),
            lambda reference: pool.try_ledger(1, [reference]),
            lambda reference: pool.tx("a", inputs=[reference]),
            lambda reference: pool.tx("a", inputs=[Input(reference)]),
            lambda reference: pool.tx("a", references=[reference]),
        ]
        for call in calls:
            self.refuses(call, NO_REFERENCES)

    def test_lists(self) -> None:
        pool = self.pool
        calls: list[Callable[[Any], object]] = [
            lambda names: pool.sync(1, names),
            lambda names: pool.try_ledger(1, names),
            lambda names: pool.adopt(1, names),
            lambda names: pool.stage_ids(names),
            lambda names: pool.tx("a", inputs=names),
            lambda names: pool.tx("a", references=names),
            lambda names: pool.tx("a", policies=names),
            lambda names: pool.tx("a", outputs=names),
            lambda names: pool.tx("a", signed_by=names),
            lambda names: pool.ask_all(names),
        ]
        for call in calls:
            self.refuses(call, ["abc", b"abc", {"a": 1}, None, 5])

    def test_numbers(self) -> None:
        pool = self.pool
        calls: list[Callable[[Any], object]] = [
            lambda number: pool.sync(number, []),
            lambda number: pool.try_ledger(number, []),
            lambda number: pool.adopt(number, []),
            lambda number: pool.adopt_staged(number),
            lambda number: pool.sync_staged(number),
            lambda number: pool.back(number),
            lambda number: pool.after(number),
            lambda number: pool.lookup(number),
            lambda number: pool.take(number),
            lambda number: pool.forge(number),
            lambda number: pool.offer(number, 1),
            lambda number: pool.offer(1, number),
            lambda number: pool.tx("a", signed_by=[number]),
            lambda number: pool.tx("a", badly_signed_by=[number]),
        ]
        for call in calls:
            self.refuses(call, NO_NUMBERS)

    def test_numbers_that_may_be_left_out(self) -> None:
        pool = self.pool
        calls: list[Callable[[Any], object]] = [
            lambda number: pool.settings(block=number),
            lambda number: pool.settings(limit=number),
            lambda number: pool.settings(last=number),
            lambda number: pool.settings(tick=number),
            lambda number: pool.sync(1, [], block=number),
            lambda number: pool.try_ledger(1, [], block=number),
            lambda number: pool.adopt(1, [], block=number),
            lambda number: pool.adopt_staged(1, block=number),
            lambda number: pool.sync_staged(1, block=number),
            lambda number: pool.tx("a", first_tick=number),
            lambda number: pool.tx("a", last_tick=number),
        ]
        for call in calls:
            self.refuses(call, [number for number in NO_NUMBERS if number is not None])

    def test_bytes(self) -> None:
        pool = self.pool
        calls: list[Callable[[Any], object]] = [
            lambda data: pool.script("a", data),
            lambda data: pool.data("a", data),
            lambda data: pool.tx_from_bytes("a", data),
            lambda data: pool.utxo("0" * 64, 0, data),
        ]
        for call in calls:
            self.refuses(call, NO_BYTES)

    def test_outputs(self) -> None:
        pool = self.pool
        ids: list[Any] = ["", "0" * 63, "0" * 65, "0" * 63 + "g", "0" * 63 + "\n", None, b"0" * 64]
        self.refuses(lambda word: pool.utxo(word, 0, b"\1"), ids)
        self.refuses(lambda index: pool.utxo("0" * 64, index, b"\1"), [*NO_NUMBERS, 65536])
        self.refuses(lambda quantity: pool.out("a", quantity), NO_QUANTITIES)
        self.refuses(lambda quantity: pool.out("a", {"coin": quantity}), NO_QUANTITIES)
        self.refuses(lambda quantity: pool.tx("a", outputs=[quantity]), NO_QUANTITIES)
        self.refuses(lambda quantity: pool.tx("a", forge={"yes.a": quantity}), NO_QUANTITIES)
        self.refuses(lambda token: pool.out("a", {token: 5}), NO_TOKENS)
        names = [name for name in NO_NAMES if name is not None]
        self.refuses(lambda name: pool.out("a", Output(5, name)), names)
        self.refuses(lambda name: pool.out("a", Output(5, "yes", name)), names)
        self.refuses(lambda name: pool.tx("a", inputs=[Input("g0", name)]), names)
        self.refuses(lambda name: pool.tx("a", inputs=[Input("g0", "yes", name)]), names)
        self.refuses(lambda name: pool.tx("a", inputs=[Input("g0", "yes", "unit", name)]), names)

    def test_parts_without_those_before_them(self) -> None:
        pool = self.pool
        self.refuses(lambda datum: pool.out("a", Output(5, datum=datum)), ["unit"])
        self.refuses(lambda datum: pool.tx("a", inputs=[Input("g0", datum=datum)]), ["unit"])
        self.refuses(lambda word: pool.tx("a", inputs=[Input("g0", redeemer=word)]), ["unit"])
        self.refuses(lambda word: pool.tx("a", inputs=[Input("g0", "yes", None, word)]), ["unit"])

    def test_lines(self) -> None:
        lines: list[Any] = ["a\nb", "a\n", "\r", "\0", "\u00e4", "\t", None, b"stats", 5]
        self.refuses(lambda line: self.pool.ask(line), lines)
        self.refuses(lambda line: self.pool.ask_all(["stats", line]), lines)

    def test_no_name_at_all(self) -> None:
        self.refuses(lambda names: self.pool.remove(*names), [[]])
        self.refuses(lambda names: self.pool.forget(*names), [[]])

    def test_a_transaction_is_not_called_none(self) -> None:
        self.refuses(lambda name: self.pool.tx(name, inputs=["g0"]), ["none"])
        self.refuses(lambda name: self.pool.tx_from_bytes(name, b"\1"), ["none"])

    def test_settings_have_no_effect_where_one_is_wrong(self) -> None:
        self.refuses(lambda number: self.pool.settings(block=300, tick=number), [-1])

    def test_timeouts(self) -> None:
        self.refuses(lambda timeout: self.pool.stats(timeout=timeout), [0, -1, float("nan")])

    def test_the_command_line(self) -> None:
        program: Any = "/nowhere"
        with self.assertRaises(ValueError):
            Pool(program, signatures="checked --salt 5")  # type: ignore[arg-type]
        for names in (0, -1, 2**32 + 1):
            with self.assertRaises(ValueError):
                Pool(program, names=names)
        for salt in (-1, 2**64):
            with self.assertRaises(ValueError):
                Pool(program, salt=salt)
        with self.assertRaises(ValueError):
            Pool(program, timeout=0)
        with self.assertRaises(FileNotFoundError):
            Pool(program)


class Texts(unittest.TestCase):
    """Parts are spelled as docs/FORMATS.md has them."""

    def test_bundles(self) -> None:
        self.assertEqual(format_bundle(100), "100*coin")
        self.assertEqual(format_bundle({"coin": 100, "yes.gold": 7}), "100*coin,7*yes.gold")
        self.assertEqual(format_bundle({"yes": -5}), "-5*yes")
        self.assertEqual(format_bundle({}), "-")

    def test_outputs(self) -> None:
        self.assertEqual(format_output(5), "5*coin")
        self.assertEqual(format_output({"no.x": 5}), "5*no.x")
        self.assertEqual(format_output(Output(5)), "5*coin")
        self.assertEqual(format_output(Output({}, "no")), "-@no")
        self.assertEqual(format_output(Output(5, "five", "six")), "5*coin@five/six")

    def test_inputs(self) -> None:
        self.assertEqual(format_input("g0"), "g0")
        self.assertEqual(format_input(Input("a.0")), "a.0")
        self.assertEqual(format_input(Input("a.0", "five")), "a.0:five")
        self.assertEqual(format_input(Input("a.0", "five", "six")), "a.0:five/six")
        self.assertEqual(format_input(Input("g1", "five", "unit", "five")), "g1:five/unit/five")
