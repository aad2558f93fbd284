"""The lines of a random conversation, each of which is made in view of what the model has come to by then."""

from __future__ import annotations

from collections.abc import Callable
from random import Random

from . import data, expressions, rules, scripts
from .bundles import COIN, GREATEST
from .expressions import Expressions, Mentioned
from .large import large_line, large_utxo
from .plans import KEYS, NAMES, ODD_TOKENS, Hint, Known, NoWords, Plan, Planner, Speller
from .pool import MOST_FORMER, size_of
from .rules import Unspent, applied, first_broken
from .scripts import Own, Paid, View
from .long import long_line
from .spoiling import odd_line, spoilt_bytes, spoilt_datum, spoilt_line, spoilt_output, spoilt_script
from .talk import Talk
from .transactions import LAST_TICK, NoTransaction, Output, Parts, Ref, Tx, id_of, join, spell, spell_output
from .words import MOST, Bad, Declared, Names, Opening

WORDS_AS_NAMES = ["submit", "none", "coin", "out", "unit", "yes", "tx", "a", "a" * 16, "b" * 17, "A", "1"]
COMMENTS = [b"#", b"# submit a", b"  #a comment", b"", b"   ", b"#bytes", b"####"]
STRANGE_COMMENTS = [b"#\t", b"# \x1f", b"#~", b"#\x7f", b"#\x80", b"\r", b"\x00", b"\t"]


class RandomTalk:
    """A conversation: its lines, and the model's answers."""

    def __init__(self, rng: Random, checked: bool, most_names: int = Talk.MOST_NAMES) -> None:
        self.rng = rng
        self.talk = Talk(rules.is_anything if checked else rules.is_key_then_id, most_names)
        self.lines: list[bytes] = []
        self.answers: list[str] = []
        self.known = Known()
        self.named = 0
        self.forgotten: list[str] = []
        self.wanted: str | None = None  # A transaction that may just fit into the room.
        self.weights = [weight * rng.choice([0, 0.3, 1, 1, 1, 1, 3]) for _, weight in self.KINDS]

    # What is said

    def say(self, line: str | bytes) -> str:
        octets = line.encode() if isinstance(line, str) else line
        self.lines.append(octets)
        self.answers.append(self.talk.hear(octets))
        return self.answers[-1]

    def hold(self) -> None:
        """Says what is declared first, and then line after line."""
        length = self.rng.randint(10, 120)
        self.set_up()
        if self.chance(0.006):
            self.adopt_often()
        while len(self.lines) < length:
            kind = self.rng.choices([kind for kind, _ in self.KINDS], self.weights)[0]
            if not self.unspent() and self.chance(0.3):
                self.say_sync()
            elif self.talk.pool and self.talk.pool.free() < 150 and self.chance(0.2):
                self.say_adopt()
            else:
                kind(self)

    def chance(self, probability: float) -> bool:
        return self.rng.random() < probability

    # What there is

    @property
    def names(self) -> Names:
        return self.talk.names

    def tick(self) -> int:
        return self.talk.pool.ledger.tick if self.talk.pool else self.talk.setting("tick")

    def unspent(self) -> Unspent:
        return self.talk.pool.unspent() if self.talk.pool else self.talk.opening

    def ledger(self) -> Unspent:
        return self.talk.pool.ledger.outputs if self.talk.pool else self.talk.opening

    def tx_names(self) -> list[str]:
        return [name for name, one in self.names.others.items() if isinstance(one, Declared)]

    def held_names(self) -> list[str]:
        held = {item.tx.id for item in self.talk.pool.items} if self.talk.pool else set()
        return [name for name in self.tx_names() if self.names.tx(name).id in held]

    def named_refs(self) -> list[Ref]:
        """Gives all references that a line can name, and some that lead nowhere."""
        refs = [one.ref for one in self.names.others.values() if isinstance(one, Opening)]
        for name in self.tx_names():
            tx = self.names.tx(name)
            refs += [ref for ref, _ in tx.made()] + [Ref(tx.id, len(tx.parts.outputs))]
        return refs or [Ref(bytes(32), 0)]

    def any_tx(self) -> str:
        """Gives the name of a transaction, mostly one declared of late, or of none."""
        names = self.tx_names()
        if not names or self.chance(0.02):
            return "nobody"
        return self.rng.choice(names[-4:] if self.chance(0.5) else names)

    def any_word(self) -> str:
        """Gives a word for a transaction, now and then its id, or one that is nearly an id."""
        if self.chance(0.75):
            return self.any_tx()
        held = [item.tx.id for item in self.talk.pool.items] if self.talk.pool else []
        ids = [self.names.tx(name).id for name in self.tx_names()]
        id = self.rng.choice([*held * 4, *held[:1], *ids, self.rng.randbytes(32)])
        return self.odd_id(id.hex()) if self.chance(0.05) else "#" + id.hex()

    def odd_id(self, digits: str) -> str:
        return self.rng.choice(["#" + digits.upper(), digits, f"#{digits[1:]}", f"#{digits}0", f"#{digits}#0", "#g" + digits[1:]])

    def new_name(self, letter: str) -> str:
        odd = self.rng.random()
        if odd < 0.12 and self.forgotten:
            return self.rng.choice(self.forgotten)
        if odd > 0.97:
            return self.rng.choice(WORDS_AS_NAMES)
        self.named += 1
        return f"{letter}{self.named}"

    def number(self, value: int) -> str:
        return Speller(self.rng, self.names).number(max(0, min(MOST, value)))

    # Settings and declarations

    def set_up(self) -> None:
        chosen = [self.say_setting for _ in range(self.rng.choice([0, 1, 2, 2, 3]))]
        chosen += [self.say_script for _ in range(self.rng.choice([0, 1, 2, 3]))]
        chosen += [self.say_datum for _ in range(self.rng.choice([0, 1, 2]))]
        self.rng.shuffle(chosen)
        for say in chosen:
            say()
        for _ in range(self.rng.randint(1, 6)):
            if self.chance(0.08):
                self.say(f"utxo {bytes(32).hex()}#{self.talk.outs + self.rng.choice([0, 1])} {'0a' * 64}0000")
            self.say_out()
        if self.chance(0.3):
            self.say_unasked()
        for _ in range(self.rng.choice([0, 0, 0, 1, 2, 3])):
            self.say(self.utxo_line())

    def setting_line(self) -> str:
        rng = self.rng
        small = rng.choice([rng.choice([144, 181, 272, 288, 362]), rng.randint(90, 1500), rng.randint(1, 9000)])
        value = {
            "block": small,
            "limit": rng.choice([1, 2, 3, 4, 5, 9, 2**32]),
            "last": rng.choice([0, 1, 41, 99, 2**63, MOST - rng.randrange(12)]),
            "tick": rng.choice([0, 1, 5, 5, 9, MOST - 1, MOST]),
        }
        left = [word for word in value if word not in self.talk.settings]
        word = rng.choice(left if left and self.chance(0.9) else list(value))
        return f"{word} {self.number(value[word])}"

    def say_setting(self) -> None:
        self.say(self.setting_line())

    def say_script(self) -> None:
        octets, hint = self.new_script()
        self.declare_script(octets, hint)

    def declare_script(self, octets: bytes, hint: Hint | None) -> None:
        digits = octets.hex()
        if self.say(f"script {self.new_name('s')} {digits.upper() if self.chance(0.1) else digits}") == "ok":
            self.known.add_script(octets, hint)

    def new_script(self) -> tuple[bytes, Hint | None]:
        """Makes a script, and says what a spender has to do for it."""
        number, key, tick = self.rng.randint(-2, 9), self.rng.choice(KEYS), max(0, self.tick() + self.rng.randint(-2, 3))
        integer, run, coin = expressions.integer, expressions.run, expressions.run(bytes(32)) + expressions.run(b"")
        tick = min(tick, 2**63 - 1)
        number_datum = data.decode(data.number(number))
        return self.rng.choice(
            [
                lambda: (b"\x05\x40" + integer(number) + b"\x20", Hint(redeemer=number_datum)),
                lambda: (run(key) + b"\x52", Hint(key=key)),
                lambda: (integer(tick) + b"\x50\x22", Hint(start=tick)),
                lambda: (b"\x51" + integer(tick) + b"\x22", Hint(end=tick)),
                lambda: (b"\x04\x05\x20", Hint(redeemer=data.UNIT)),
                lambda: (coin + b"\x53\x06" + coin + b"\x56\x22", Hint(pays_back=True)),
                lambda: (integer(0) + coin + b"\x63" + integer(3) + b"\x21\x10", Hint(refers=True)),
                lambda: (b"\x57" + integer(self.rng.choice([1, 2])) + b"\x20", None),
                lambda: (b"\x06" + run(self.rng.choice(NAMES)) + b"\x55" + integer(5) + b"\x22", None),
                lambda: (self.rng.choice([b"\x01", b"\x00", b"\x01\x01\x11", b"\x00\x10", b"\x01\x10\x10"]), None),
                lambda: (self.expressions().of("truth", self.rng.randint(2, 5)), None),
                lambda: (self.expressions().any(self.rng.randint(2, 5)) + b"\x01\x12", None),
                lambda: (self.rng.choice(list(self.known.scripts.values())).octets, None),
                lambda: (self.rng.choice(list(self.known.scripts.values())).octets, None),
                lambda: (expressions.at_the_edge(self.rng), None),
                lambda: (spoilt_script(self.rng) or b"\xff", None),
            ]
        )()

    def expressions(self) -> Expressions:
        names = [name for name in NAMES if name] + [b""]
        policies = [bytes(32), *self.known.scripts]
        return Expressions(self.rng, Mentioned(policies, names, KEYS, [self.tick() % 2**63]))

    def say_datum(self) -> None:
        octets = self.new_datum(self.rng.choice([1, 2, 3]))
        if self.chance(0.12):
            octets = spoilt_datum(self.rng) or b"\x00"
        if self.say(f"data {self.new_name('d')} {octets.hex()}") == "ok":
            self.known.add_datum(octets)

    def new_datum(self, depth: int) -> bytes:
        kind = self.rng.random()
        if kind < 0.4:
            return data.number(self.rng.choice([*expressions.EDGES, self.rng.randint(-9, 9)]))
        if kind < 0.6 or depth == 1:
            return data.octets(self.rng.choice([*NAMES, *KEYS, *self.known.scripts]))
        return data.items([self.new_datum(depth - 1) for _ in range(self.rng.choice([0, 1, 2, 3]))])

    def say_out(self) -> None:
        if self.chance(0.3):
            self.say_pinned_out()
        else:
            self.say(self.out_line())

    def out_line(self) -> str:
        rng = self.rng
        entries = [str(rng.choice([100, 100, 50, 7, 1, 9999, GREATEST] if self.chance(0.97) else [-5]))]
        if self.chance(0.4):
            token = self.any_policy() + rng.choice(["", ".gold", ".gold", ".a", ".9"])
            entries.append(f"{rng.choice([7, 5, 2, 100, GREATEST])}*{token}")
        word = ",".join(entries) if self.chance(0.95) else "-"
        if self.chance(0.35):
            word += "@" + rng.choice(list(self.names.scripts))
            if self.chance(0.4):
                word += "/" + rng.choice(list(self.names.data))
        return f"out {self.new_name('g')} {word}"

    def say_unasked(self) -> None:
        """Declares a transaction, and doesn't ask for it."""
        try:
            self.say(self.tx_line(self.new_plan()))
        except NoWords:
            pass

    def utxo_line(self) -> str:
        """Has an output under an id that something may have, or nothing."""
        rng = self.rng
        if self.chance(0.05):
            return large_utxo(rng)
        ids = [self.names.tx(name).id for name in self.tx_names()] * 3
        id = rng.choice([*ids, bytes(32), rng.choice(KEYS), rng.randbytes(32)])
        token = (rng.choice([*self.known.scripts, rng.randbytes(32)]), rng.choice([*NAMES, *ODD_TOKENS]))
        value = {COIN: rng.choice([7, 100, 100, GREATEST])} | ({token: 5} if self.chance(0.5) else {})
        address = rng.choice([scripts.YES.hash, *self.known.scripts])
        fields = list(spell_output(Output(address, rng.choice(list(self.known.data)), value)))
        octets = join(fields) if self.chance(0.85) else spoilt_output(rng, fields)
        place = rng.choice([0, 0, 1, 2, len(self.talk.opening), 65535])
        return f"utxo {id.hex()}#{self.number(place)} {octets.hex()}"

    def say_utxo(self) -> None:
        self.say(self.utxo_line())

    def any_policy(self) -> str:
        return self.rng.choice([*self.names.scripts, *self.names.scripts, "coin"])

    def say_pinned_out(self) -> None:
        """Declares a script that accepts a datum, a redeemer and a quantity for what an expression makes of them."""
        datum, redeemer = (data.decode(self.new_datum(3)) for _ in range(2))
        coins = self.rng.choice([7, 100, GREATEST])
        for one in (datum, redeemer):
            self.known.add_datum(one.octets)
        own = Own(datum, redeemer, {(bytes(32), b""): coins})
        other = Paid(KEYS[0], KEYS[1], {COIN: 3})
        views = [
            View(0, LAST_TICK, frozenset(), {}, {}, [], [], own),
            View(3, 9, frozenset(KEYS), {COIN: 1}, {COIN: 2}, [other] * 2, [other], own),
        ]
        octets = self.pinned_script(views, [1, 0, 1])
        script, word = self.new_name("s"), self.new_name("d")
        self.say(f"data {word} {datum.octets.hex()}")
        self.say(f"data {self.new_name('d')} {redeemer.octets.hex()}")
        if self.say(f"script {script} {octets.hex()}") == "ok":
            self.known.add_script(octets, Hint(redeemer=redeemer, datum=datum))
        self.say(f"out {self.new_name('g')} {coins}@{script}/{word}")

    def pinned_script(self, views: list[View], weights: list[int]) -> bytes:
        """Makes a script that accepts in the views, unless one of its expressions comes to nothing there."""
        make, pinned = self.expressions(), []
        nothing_may_come = self.chance(0.1 if views[0].own else 0.4)
        kinds = [lambda: make.any(self.rng.randint(2, 5)), lambda: make.reading(views[0]), make.edge]
        for _ in range(self.rng.choice([2, 6, 12])):
            expression = self.rng.choices(kinds, weights)[0]()
            try:
                value, *others = [scripts.value_of(scripts.decode(expression), view) for view in views]
            except scripts.NoScript:
                continue
            octets = expressions.pinned(expression, value)
            if len(octets) > 200 or any(other != value for other in others):
                continue
            if value is not None or nothing_may_come:
                pinned.append(octets)
                nothing_may_come &= value is not None
        return b"".join(pinned or [b"\x01"]) + b"\x11" * (len(pinned) - 1)

    # Transactions

    def new_plan(self, tries: tuple[int, ...] = (0, 0, 3)) -> Plan:
        """Plans a transaction, now and then upon what the pool has spent; with tries, the first that is valid."""
        unspent = self.unspent() if self.chance(0.88) else self.ledger()
        planner = Planner(self.rng, self.known, unspent, self.named_refs, self.tick())
        plan = planner.plan()
        for _ in range(self.rng.choice(tries)):
            parts = plan.signed()
            if first_broken(Tx(parts, b"", id_of(parts)), self.tick(), unspent, self.talk.verifier) is None:
                break
            plan = planner.plan()
        return plan

    def say_tx(self) -> None:
        self.declare(self.pinned_plan(self.new_plan(tries=(6,))) if self.chance(0.35) else self.new_plan())

    def say_again(self) -> None:
        """Declares a transaction once more, mostly with other signatures."""
        names = self.tx_names()
        if names:
            parts = self.names.tx(self.rng.choice(names)).parts
            signs = [(key, good) for key in KEYS[:3] for good in (True, False) if self.chance(0.3)]
            self.declare(Plan(parts._replace(signatures=[]), signs))

    def say_twins(self) -> None:
        """Declares a transaction by several names, with signatures that are good or not, and asks what the pool has of it."""
        plan = self.new_plan(tries=(6,))
        keys = [key for key, _ in plan.signs] or [self.rng.choice(KEYS)]
        names = []
        for good in self.rng.choice([(False, True), (False, True), (True, False), (False, False, True), (True, True)]):
            try:
                line = self.bytes_line(plan._replace(signs=[(key, good) for key in keys]))
            except NoTransaction:
                return
            if self.say(line).startswith("tx"):
                names.append(line.split()[1])
        if self.chance(0.2):
            self.rng.shuffle(names)
        for name in names:
            self.say(f"submit {name}")
        for _ in range(self.rng.choice([1, 2, 4, 6])):
            self.say_of_twins(names or ["nobody"])

    def say_of_twins(self, names: list[str]) -> None:
        """Says a line that tells transactions by name, or goes by one of these names."""
        rng = self.rng
        name = rng.choice(names)
        before = set(self.names.others)
        self.say(
            rng.choice(
                [
                    f"forge {MOST}",
                    f"show {self.names.name_of_tx(self.names.tx(name).id) if name in self.names.others else name}",
                    "snapshot",
                    f"show {name}",
                    f"submit {name}",
                    f"remove {name}",
                    f"forget {name}",
                    f"forget {' '.join(names)}",
                    f"adopt {self.other_tick()} {name}",
                    f"back {rng.choice([0, 1])}",
                ]
            )
        )
        self.forgotten += sorted(before - set(self.names.others))

    def say_long(self) -> None:
        """Says a line at the greatest length, or far beyond."""
        self.say(long_line(self.rng, self.new_name("b"), [*self.tx_names(), "nobody"]))

    def pinned_plan(self, plan: Plan) -> Plan:
        """Has the transaction carry a script that accepts for what it sees of the transaction."""
        unspent = self.unspent()
        parts = plan.signed()
        if not all(ref in unspent for ref in [*(one.ref for one in parts.inputs), *parts.references]):
            return plan
        octets = self.pinned_script([rules.view_of(Tx(parts, b"", b""), unspent)], [1, 2, 1])
        if self.chance(0.9):
            self.declare_script(octets, None)
        policies = [*plan.parts.policies, scripts.decode(octets)]
        return plan._replace(parts=plan.parts._replace(policies=policies))

    def tx_line(self, plan: Plan) -> str:
        items = Speller(self.rng, self.names).items(plan)
        return f"tx {self.new_name('t')} {' '.join(items)}"

    def declare(self, plan: Plan) -> None:
        """Declares a transaction by a line, or by its bytes, and mostly asks for it."""
        try:
            line = self.bytes_line(plan) if self.chance(0.15) else self.tx_line(plan)
        except NoWords:
            line = self.bytes_line(plan)
        except NoTransaction:
            return
        name = line.split()[1]
        if self.say(line).startswith(("ok", "tx")) and self.chance(0.8):
            self.ask_for(name)

    def ask_for(self, name: str) -> None:
        if self.chance(0.1):
            self.say(f"show {name}")
        if self.chance(0.15):
            self.say(f"check {name}")
        if self.chance(0.9):
            self.say(f"submit {name}")

    def bytes_line(self, plan: Plan) -> str:
        """Spells the bytes of a plan, or of its parts as they are where it has a fault."""
        try:
            octets = plan.tx().octets
        except NoTransaction:
            octets = spoilt_bytes(self.rng, plan.signed())
        return self.line_of_bytes(octets)

    def line_of_bytes(self, octets: bytes) -> str:
        digits = octets.hex()
        return f"bytes {self.new_name('b')} {digits.upper() if self.chance(0.1) else digits}"

    def say_bytes(self) -> None:
        """Says bytes that are spoilt, or those of a transaction that was declared, signed as it is or otherwise."""
        names = self.tx_names()
        kind = self.rng.random()
        if names and kind < 0.4:
            parts = self.names.tx(self.rng.choice(names)).parts
            if kind < 0.2:
                parts = self.signed_otherwise(parts)
            octets = spell(parts)
        else:
            octets = spoilt_bytes(self.rng, self.odd_parts(self.new_plan().signed()))
        if not octets:
            return
        line = self.line_of_bytes(octets)
        if self.say(line).startswith("tx") and self.chance(0.7):
            self.ask_for(line.split()[1])

    def signed_otherwise(self, parts: Parts) -> Parts:
        signs = [(self.rng.choice(KEYS), self.chance(0.7))] if self.chance(0.8) else []
        return Plan(parts._replace(signatures=[]), signs).signed()

    def odd_parts(self, parts: Parts) -> Parts:
        """Puts in what no line can say: a script without a name, and tokens of odd names."""
        if self.chance(0.5):
            return parts
        octets = self.rng.choice([b"\x01\x10\x10", b"\x01\x01\x12", b"\x00"])
        self.known.add_script(octets)
        script = scripts.decode(octets)
        token = (script.hash, self.rng.choice([b"gold", b"", *ODD_TOKENS]))
        outputs = list(parts.outputs)
        if outputs:
            outputs[0] = outputs[0]._replace(value=outputs[0].value | {token: 5})
        policies = {one.octets: one for one in [*parts.policies, *([script] if self.chance(0.7) else [])]}
        forged = parts.forged | ({token: 5} if self.chance(0.8) else {})
        signs = [(one.key, True) for one in parts.signatures]
        odd = parts._replace(outputs=outputs, forged=forged, policies=list(policies.values()), signatures=[])
        return Plan(odd, signs).signed()

    def say_large(self) -> None:
        openings = [name for name, one in self.names.others.items() if isinstance(one, Opening)]
        name = self.new_name("t")
        self.say(large_line(self.rng, name, self.any_tx(), self.rng.choice(openings or ["nobody"])))
        self.say(f"{self.rng.choice(['show', 'submit', 'check'])} {name}")

    def say_submit(self) -> None:
        self.say(f"submit {self.any_tx() if self.chance(0.95) else self.any_word()}")

    def say_check(self) -> None:
        self.say(f"check {self.any_word()}")

    def say_show(self) -> None:
        self.say(f"show {self.any_word()}")

    def give_line(self) -> str:
        """Gives the bytes of a new transaction, of one that was declared, or ones that are spoilt."""
        names, kind = self.tx_names(), self.rng.random()
        if kind < 0.6:
            line = self.bytes_line(self.new_plan(tries=(0, 6)))
        elif names and kind < 0.8:
            tx = self.names.tx(self.rng.choice(names))
            line = self.line_of_bytes(tx.octets if self.chance(0.5) else spell(self.signed_otherwise(tx.parts)))
        else:
            line = self.line_of_bytes(spoilt_bytes(self.rng, self.new_plan().signed()) or b"\x00")
        return f"give {' '.join(line.split()[2:])}"

    def say_give(self) -> None:
        line = self.give_line()
        answer = self.say(line)
        if not answer.startswith(("accepted", "refused")):
            return
        id = answer.split()[-1]
        if self.chance(0.3):
            self.say(self.rng.choice([line, f"has #{id}", f"show #{id}", f"check #{id}", f"remove #{id}", "snapshot", f"forge {MOST}"]))

    def say_reset(self) -> None:
        self.say("reset")

    def say_mode(self) -> None:
        self.say(self.rng.choice(["ids", "names"]))

    def remove_line(self) -> str:
        held = self.held_names()
        count = self.rng.choice([1, 1, 2, 3])
        words = [self.rng.choice(held) if held and self.chance(0.7) else self.any_word() for _ in range(count)]
        return f"remove {' '.join(words)}"

    def say_remove(self) -> None:
        self.say(self.remove_line())

    # Ledger states

    def other_tick(self) -> str:
        """Gives a tick near to that of now, or one at which a transaction of the pool isn't valid any more."""
        held = [item.tx.parts for item in self.talk.pool.items] if self.talk.pool else []
        ends = [parts.end + 1 for parts in held if parts.end < LAST_TICK]
        ends += [parts.start - 1 for parts in held if parts.start]
        if ends and self.chance(0.3):
            return self.number(self.rng.choice(ends))
        return self.number(self.tick() + self.rng.choice([-1, 0, 0, 0, 1, 1, 2, 3]))

    def block_bytes(self) -> list[str]:
        if self.chance(0.8):
            return []
        names = self.tx_names()
        if names and self.talk.pool and self.chance(0.6):
            self.wanted = self.rng.choice(names)
            size = self.names.tx(self.wanted).size + size_of(self.talk.pool.items)
            return [f"block={size // 2 + self.rng.choice([0, 0, 1])}"]
        return ["block=" + self.number(self.rng.choice([1, 100, self.rng.randint(90, 2000), 500000, 2**39]))]

    def output_words(self, refs: list[Ref]) -> list[str]:
        """Names the outputs that a ledger state may have."""
        words = []
        speller = Speller(self.rng, self.names)
        for ref in refs:
            try:
                word = speller.reference(ref)
                self.names.there(word)
            except NoWords:
                continue
            except Bad:
                if self.chance(0.95):
                    continue
            words.append(word)
        return words

    def ledger_line(self, first: str) -> str:
        """Asks for a ledger state near to what may be spent now."""
        chosen = {ref for ref in [*self.ledger(), *self.unspent()] if self.chance(0.85)}
        chosen |= {ref for ref in self.named_refs() if self.chance(0.1 if self.ledger() else 0.6)}
        words = self.output_words(sorted(chosen))
        self.rng.shuffle(words)
        return " ".join([first, self.other_tick(), *self.block_bytes(), *words])

    def say_sync(self) -> None:
        self.say(self.ledger_line("sync"))
        self.ask_for_wanted()

    def ask_for_wanted(self) -> None:
        if self.wanted:
            self.ask_for(self.wanted)
            self.wanted = None

    def say_for(self) -> None:
        self.say(self.ledger_line("for"))

    def say_taken(self) -> None:
        """Adopts a ledger state that has what a transaction spends and what it makes, and asks for it."""
        names = self.tx_names()
        if not names:
            return
        name = self.rng.choice(names)
        tx = self.names.tx(name)
        refs = {one.ref for one in tx.parts.inputs} | set(tx.parts.references)
        refs |= {ref for ref, _ in tx.made() if self.chance(0.7)}
        self.say(" ".join(["sync", self.other_tick(), *self.output_words(sorted(refs))]))
        if self.chance(0.3):
            self.say_tx()
        self.say(f"{self.rng.choice(['submit', 'check'])} {name}")

    def adopt_line(self) -> str:
        tick = self.other_tick()
        txs = self.held_block() if self.chance(0.6) else self.found_block(int(tick))
        if self.chance(0.3):
            txs.insert(self.rng.randint(0, len(txs)), self.any_word())
        return " ".join(["adopt", tick, *self.block_bytes(), *txs])

    def held_block(self) -> list[str]:
        """Gives names or ids of the pool's oldest transactions."""
        items = self.talk.pool.items if self.talk.pool else []
        held = self.held_names()
        count = self.rng.choice([1, 1, 2, 3, min(len(items), 40)])
        words = [[*(name for name in held if self.names.tx(name).id == tx.id), f"#{tx.id.hex()}"] for _, tx in items[:count]]
        chosen = [self.rng.choice(of_one) for of_one in words]
        if len(chosen) > 1 and self.chance(0.1):
            self.rng.shuffle(chosen)
        return chosen

    def found_block(self, tick: int) -> list[str]:
        """Gives names of transactions that are valid upon the ledger state, in a row."""
        names = self.tx_names()
        self.rng.shuffle(names)
        unspent, chosen = self.ledger(), []
        for name in names[:12]:
            tx = self.names.tx(name)
            if first_broken(tx, tick, unspent, self.talk.verifier) is None:
                chosen.append(name)
                unspent = applied([tx], unspent)
        return chosen[: self.rng.choice([0, 1, 2, 9])]

    def say_adopt(self) -> None:
        answer = self.say(self.adopt_line())
        self.ask_for_wanted()
        if answer.startswith("kept") and self.chance(0.3):
            self.say_back()

    def stage_line(self) -> str:
        """Stages the bytes of a transaction, transactions of the pool, or an output."""
        kind = self.rng.random()
        if kind < 0.4:
            return f"stage {' '.join(self.give_line().split()[1:])}"
        if kind < 0.7:
            held = [item.tx.id.hex() for item in self.talk.pool.items] if self.talk.pool else []
            words = ["#" + digits for digits in held[: self.rng.choice([1, 1, 2, 9])]]
            if not words or self.chance(0.2):
                words.append(self.any_word())
            return f"stage {' '.join(words)}"
        return self.stage_output_line(self.rng.choice([*self.ledger(), *self.unspent(), Ref(self.rng.choice(KEYS), 0)]))

    def stage_output_line(self, ref: Ref) -> str:
        output = self.unspent().get(ref) or self.ledger().get(ref)
        if output is None or self.chance(0.1):
            return f"stage {self.utxo_line()}"
        digits = join(spell_output(output)).hex()
        return f"stage utxo {ref.id.hex()}#{self.number(ref.place)} {digits.upper() if self.chance(0.1) else digits}"

    def say_stage(self) -> None:
        """Says a line about what is staged, or two."""
        self.say(self.stage_line())
        if self.chance(0.3):
            self.say(self.rng.choice([self.stage_line, self.adopt_staged_line, self.sync_staged_line, lambda: "unstage"])())

    def adopt_staged_line(self) -> str:
        return " ".join(["adopt", self.other_tick(), *self.block_bytes()])

    def sync_staged_line(self) -> str:
        return " ".join(["sync", self.other_tick(), *self.block_bytes(), "staged"])

    def say_forged(self) -> None:
        """Stages the oldest transactions of the pool, or others that may be a block, and adopts them."""
        words = self.held_block()
        if self.chance(0.5):
            words += self.found_block(self.tick())
        if self.chance(0.7):
            self.say("unstage")
        for word in words:
            in_pool = word.startswith("#")
            self.say(f"stage {word if in_pool else self.names.tx(word).octets.hex()}")
        self.say(self.adopt_staged_line())
        self.ask_for_wanted()

    def say_staged_outputs(self) -> None:
        """Stages outputs near to those that may be spent now, and adopts them."""
        chosen = {ref for ref in [*self.ledger(), *self.unspent()] if self.chance(0.85)}
        if self.chance(0.7):
            self.say("unstage")
        for ref in sorted(chosen)[:60]:
            self.say(self.stage_output_line(ref))
        if self.chance(0.9):
            self.say(self.sync_staged_line())
            self.ask_for_wanted()

    def say_back(self) -> None:
        kept = len(self.talk.pool.former) if self.talk.pool else 0
        self.say(f"back {self.number(self.rng.choice([0, 1, 1, 1, 2, 3, kept, kept + 1]))}")
        if self.chance(0.3):
            self.say_submit()

    def adopt_often(self) -> None:
        """Adopts more ledger states than are kept."""
        for place in range(MOST_FORMER + self.rng.choice([-1, 0, 1, 5])):
            if self.chance(0.01):
                self.say_tx()
            self.say(f"adopt {place}")
        self.say(f"back {self.rng.choice([MOST_FORMER, MOST_FORMER + 1])}")
        self.say(f"back {self.rng.choice([1, 1000])}")
        self.say("sync 7")
        self.say(f"back {MOST_FORMER + 1}")

    # Reads

    def near_ticket(self) -> str:
        pool = self.talk.pool
        tickets = [item.ticket for item in pool.items] if pool else []
        last = pool.last if pool else self.talk.setting("last")
        return self.number(self.rng.choice([*tickets, *tickets, 0, last, last - 1, last + 1]) + self.rng.choice([0, 0, -1]))

    def near_bytes(self) -> str:
        """Gives about as many bytes as some of the pool's transactions have."""
        sizes = [item.tx.size for item in self.talk.pool.items] if self.talk.pool else []
        start = self.rng.randint(0, len(sizes))
        some = sum(sizes[start : start + self.rng.randint(0, 4)])
        return self.number(self.rng.choice([some, some, some - 1, some + 1, sum(sizes), 1000, MOST, 0]))

    def read_line(self) -> str:
        often = ["stats", "offer", "offer", "offer"]
        first = self.rng.choice([*often, "snapshot", "stats", "after", "lookup", "has", "take", "forge", "offer"])
        words = {
            "after": lambda: [self.near_ticket()],
            "lookup": lambda: [self.near_ticket()],
            "has": lambda: [self.any_word()],
            "take": lambda: [self.near_bytes()],
            "forge": lambda: [self.near_bytes()],
            "offer": lambda: [self.number(self.rng.choice([0, 1, 1, 2, 9, MOST])), self.near_bytes()],
        }
        return " ".join([first, *words.get(first, list)()])

    def say_read(self) -> None:
        self.say(self.read_line())

    # Names, and lines that are bad or do nothing

    def forget_line(self) -> str:
        names = list(self.names.others)
        words = [self.rng.choice(names) if names and self.chance(0.9) else self.rng.choice(["nobody", "yes", "unit"])]
        while self.chance(0.5):
            words.append(self.rng.choice([*names, *words]))
        return f"forget {' '.join(words if self.chance(0.1) else dict.fromkeys(words))}"

    def say_forget(self) -> None:
        before = set(self.names.others)
        self.say(self.forget_line())
        self.forgotten += sorted(before - set(self.names.others))

    def say_comment(self) -> None:
        self.say(self.rng.choice(COMMENTS if self.chance(0.6) else STRANGE_COMMENTS))

    def say_spoilt(self) -> None:
        """Says a line with something changed in it, which mostly makes it bad."""
        make = self.rng.choice(
            [
                self.setting_line,
                self.out_line,
                self.utxo_line,
                lambda: f"script {self.new_name('s')} 0101",
                lambda: f"script {self.new_name('s')} {self.new_script()[0].hex()}",
                lambda: f"data {self.new_name('d')} {self.new_datum(2).hex()}",
                lambda: self.tx_line(self.new_plan()),
                lambda: self.tx_line(self.new_plan()),
                lambda: self.tx_line(self.new_plan()),
                lambda: self.bytes_line(self.new_plan()),
                lambda: f"{self.rng.choice(['submit', 'check', 'show', 'has'])} {self.any_word()}",
                self.give_line,
                lambda: self.rng.choice(["ids", "names", "reset"]),
                self.remove_line,
                lambda: self.ledger_line(self.rng.choice(["sync", "for"])),
                self.adopt_line,
                self.stage_line,
                self.adopt_staged_line,
                self.sync_staged_line,
                lambda: f"back {self.rng.choice([0, 1])}",
                self.read_line,
                self.forget_line,
            ]
        )
        try:
            line = make().encode()
        except NoWords:
            return
        names = [*self.names.others, *self.names.scripts, *self.names.data]
        before = set(self.names.others)
        self.say(spoilt_line(self.rng, line, names))
        self.forgotten += sorted(before - set(self.names.others))

    def say_odd(self) -> None:
        openings = [name for name, one in self.names.others.items() if isinstance(one, Opening)]
        self.say(odd_line(self.rng, self.new_name("t"), self.rng.choice(openings or ["g1"])))

    # Each kind of line, with how often it comes.
    KINDS: list[tuple[Callable[[RandomTalk], None], float]] = [
        (say_tx, 14),
        (say_again, 1),
        (say_twins, 0.7),
        (say_bytes, 5),
        (say_give, 5),
        (say_mode, 0.5),
        (say_reset, 0.15),
        (say_submit, 4),
        (say_check, 1),
        (say_show, 0.5),
        (say_remove, 2),
        (say_sync, 2),
        (say_taken, 1),
        (say_for, 2),
        (say_adopt, 4),
        (say_back, 2),
        (say_stage, 2),
        (say_forged, 1),
        (say_staged_outputs, 0.5),
        (say_read, 8),
        (say_forget, 2.5),
        (say_spoilt, 6),
        (say_odd, 2),
        (say_comment, 0.5),
        (say_script, 0.5),
        (say_datum, 0.3),
        (say_out, 0.2),
        (say_utxo, 0.2),
        (say_setting, 0.2),
        (say_large, 0.15),
        (say_long, 0.2),
    ]
