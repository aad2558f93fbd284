"""Random transactions: what they spend and pay, what may be wrong with them, and how a line declares them."""

from __future__ import annotations

from collections.abc import Callable
from functools import cached_property
from hashlib import sha256
from random import Random
from typing import NamedTuple

from . import bundles, data, scripts
from .bundles import COIN, COIN_POLICY, GREATEST, Bundle, Token
from .data import Datum
from .rules import Unspent
from .scripts import Script
from .transactions import LAST_TICK, Input, Output, Parts, Ref, Tx, in_order, of_parts, sign
from .words import Bad, Names, Opening

NAMES = [b"", b"", b"gold", b"gold", b"a", b"9", b"z" * 32]
ODD_TOKENS = [b"\x00", b"G", b"a.b", b"\xff" * 32, b" ", b"a\nok"]
KEYS = [bytes([key]) * 32 for key in (0, 3, 7, 255)]


class Hint(NamedTuple):
    """What a spender has to do for a script to accept, most times."""

    redeemer: Datum | None = None
    datum: Datum | None = None
    key: bytes | None = None
    start: int | None = None
    end: int | None = None
    pays_back: bool = False
    refers: bool = False


class Plan(NamedTuple):
    parts: Parts  # Without signatures.
    signs: list[tuple[bytes, bool]]  # Keys, and whether their signatures are good.

    def tx(self) -> Tx:
        """Makes the transaction, or raises NoTransaction."""
        return of_parts(self.signed())

    def signed(self) -> Parts:
        parts = in_order(self.parts)
        return in_order(parts._replace(signatures=[sign(parts, *one) for one in self.signs]))


class Known:
    """What the conversation has come across: scripts and data also where no line names them."""

    def __init__(self) -> None:
        self.scripts = {one.hash: one for one in (scripts.YES, scripts.NO)}
        self.data = {data.UNIT.hash: data.UNIT}
        self.hints: dict[bytes, Hint] = {}  # By the hash of the script.

    def add_script(self, octets: bytes, hint: Hint | None = None) -> None:
        script = scripts.decode(octets)
        self.scripts[script.hash] = script
        if hint:
            self.hints[script.hash] = hint

    def add_datum(self, octets: bytes) -> None:
        datum = data.decode(octets)
        self.data[datum.hash] = datum


class Planner:
    """Plans transactions upon what may be spent at a tick."""

    def __init__(self, rng: Random, known: Known, unspent: Unspent, find_others: Callable[[], list[Ref]], tick: int) -> None:
        """Other references are found only when a plan needs one."""
        self.rng, self.known, self.unspent, self.find_others, self.tick = rng, known, unspent, find_others, tick

    def chance(self, probability: float) -> bool:
        return self.rng.random() < probability

    def plan(self) -> Plan:
        """Plans a transaction, of which most keep all rules."""
        parts = self._hinted(self._referring(self._forging(self._spending())))
        if self.chance(0.25):
            parts = parts._replace(**self._interval())
        plan = Plan(self._paying(parts), self._signs(parts))
        flaws = self.rng.choices((0, 1, 2), (0.68, 0.25, 0.07))[0]
        for flaw in self.rng.choices(self.FLAWS, k=flaws):
            plan = flaw(self, plan)
        return plan

    def _spending(self) -> Parts:
        count = self.rng.choice([1, 1, 1, 1, 2, 2, 3])
        refs = self.rng.sample(list(self.unspent), min(count, len(self.unspent))) or [self._other_ref()]
        return Parts(inputs=[self._input(ref) for ref in refs])

    def _input(self, ref: Ref) -> Input:
        """Spends an output with its script and its datum, where these are known."""
        validator, datum, redeemer = scripts.YES, data.UNIT, data.UNIT
        if ref in self.unspent:
            output = self.unspent[ref]
            validator = self.known.scripts.get(output.address, validator)
            datum = self.known.data.get(output.datum_hash, datum)
        hint = self.known.hints.get(validator.hash)
        if hint and hint.redeemer and self.chance(0.85):
            redeemer = hint.redeemer
        elif self.chance(0.1):
            redeemer = self._datum()
        return Input(ref, validator, datum, redeemer)

    def _script(self) -> Script:
        return self.rng.choice(list(self.known.scripts.values()))

    def _datum(self) -> Datum:
        return self.rng.choice(list(self.known.data.values()))

    def _spent(self, parts: Parts) -> Bundle:
        return bundles.total(self.unspent[one.ref].value for one in parts.inputs if one.ref in self.unspent)

    def _forging(self, parts: Parts) -> Parts:
        """Forges or burns a token or two, under a policy that comes along."""
        if not self.chance(0.3):
            return parts
        held = [token for token in self._spent(parts) if token[0] in self.known.scripts]
        forged: Bundle = {}
        for _ in range(self.rng.choice([1, 1, 2])):
            if held and self.chance(0.5):
                token, quantity = self.rng.choice(held), -self.rng.choice([1, 1, 2, 3])
            else:
                token = (self._script().hash, self.rng.choice(NAMES if self.chance(0.9) else ODD_TOKENS))
                quantity = self.rng.choice([1, 2, 5, 5, 9, GREATEST])
            forged[token] = quantity
        policies = {policy: self.known.scripts[policy] for policy, _ in forged}
        return parts._replace(forged=forged, policies=list(policies.values()))

    def _referring(self, parts: Parts) -> Parts:
        spent = {one.ref for one in parts.inputs}
        left = [ref for ref in self.unspent if ref not in spent]
        hints = [self.known.hints.get(one.validator.hash, Hint()) for one in parts.inputs]
        wanted = any(hint.refers for hint in hints)
        if not left or not self.chance(0.9 if wanted else 0.15):
            return parts
        return parts._replace(references=self.rng.sample(left, min(len(left), self.rng.choice([1, 2, 2, 3]))))

    def _hinted(self, parts: Parts) -> Parts:
        """Gives it the interval that its scripts want."""
        for script in [*(one.validator for one in parts.inputs), *parts.policies]:
            hint = self.known.hints.get(script.hash, Hint())
            if hint.start is not None:
                parts = parts._replace(start=hint.start)
            if hint.end is not None:
                parts = parts._replace(end=max(hint.end, parts.start))
        return parts

    def _interval(self) -> dict[str, int]:
        start = min(LAST_TICK, max(0, self.tick - self.rng.randrange(3)))
        return {"start": start, "end": min(LAST_TICK, max(start, self.tick) + self.rng.randrange(3))}

    def _paying(self, parts: Parts) -> Parts:
        """Pays all that is spent and forged, in one output or more."""
        hints = [(one.validator, self.known.hints.get(one.validator.hash, Hint())) for one in parts.inputs]
        places = [script for script, hint in hints if hint.pays_back and self.chance(0.8)]
        while not places or self.chance(0.45):
            places.append(scripts.YES if self.chance(0.65) else self._script())
        values: list[Bundle] = [{} for _ in places]
        for token, quantity in bundles.total([self._spent(parts), parts.forged]).items():
            for value, share in zip(values, self._shares(quantity, len(values))):
                if share:
                    value[token] = share
        return parts._replace(outputs=[self._output(place, value) for place, value in zip(places, values)])

    def _output(self, script: Script, value: Bundle) -> Output:
        datum = self.known.hints.get(script.hash, Hint()).datum or data.UNIT
        return Output(script.hash, (self._datum() if self.chance(0.15) else datum).hash, value)

    def _shares(self, quantity: int, count: int) -> list[int]:
        """Divides a quantity, so that each share is one of an entry, where it can."""
        shares = []
        for left in range(count - 1, 0, -1):
            least, most = max(0, quantity - left * GREATEST), min(GREATEST, quantity)
            share = self.rng.choice([least, most, self.rng.randint(least, most)]) if least <= most else 0
            shares.append(share)
            quantity -= share
        return [*shares, min(GREATEST, max(-GREATEST, quantity))]

    def _signs(self, parts: Parts) -> list[tuple[bytes, bool]]:
        signs = {}
        for script in [*(one.validator for one in parts.inputs), *parts.policies]:
            hint = self.known.hints.get(script.hash, Hint())
            if hint.key and self.chance(0.85):
                signs[hint.key] = True
        if self.chance(0.2):
            signs[self.rng.choice(KEYS)] = self.chance(0.7)
        return list(signs.items())

    def _other_ref(self) -> Ref:
        others = self.find_others()
        missing = [ref for ref in others if ref not in self.unspent]
        return self.rng.choice(missing if missing and self.chance(0.8) else others)

    def _without_inputs(self, plan: Plan) -> Plan:
        return plan._replace(parts=plan.parts._replace(inputs=[]))

    def _at_another_tick(self, plan: Plan) -> Plan:
        start, end = self.rng.choice([(self.tick + 1, self.tick + 3), (max(0, self.tick - 4), max(0, self.tick - 1))])
        return plan._replace(parts=plan.parts._replace(start=min(start, LAST_TICK), end=min(end, LAST_TICK)))

    def _paying_otherwise(self, plan: Plan) -> Plan:
        """Moves a quantity from nowhere, or from an output that may come to less than nothing."""
        outputs = list(plan.parts.outputs)
        token = self.rng.choice([COIN, *self._tokens(plan.parts)])
        amount = self.rng.choice([1, -1, 3, 1000, -1000])
        changes = [amount] if len(outputs) == 1 or self.chance(0.6) else [amount, -amount]
        for place, change in zip(self.rng.sample(range(len(outputs)), len(changes)), changes):
            value = dict(outputs[place].value)
            value[token] = max(-GREATEST, min(GREATEST, value.get(token, 0) + change))
            outputs[place] = outputs[place]._replace(value={token: count for token, count in value.items() if count})
        return plan._replace(parts=plan.parts._replace(outputs=outputs))

    def _tokens(self, parts: Parts) -> list[Token]:
        return [token for output in parts.outputs for token in output.value]

    def _spending_what_is_gone(self, plan: Plan) -> Plan:
        inputs = [*plan.parts.inputs, self._input(self._other_ref())]
        return plan._replace(parts=plan.parts._replace(inputs=inputs[self.rng.randrange(len(inputs)) :]))

    def _looking_at_what_is_gone(self, plan: Plan) -> Plan:
        return plan._replace(parts=plan.parts._replace(references=[*plan.parts.references, self._other_ref()]))

    def _with_other_words(self, plan: Plan) -> Plan:
        """Shows another script, datum or redeemer at one input."""
        inputs = list(plan.parts.inputs)
        for place in self.rng.sample(range(len(inputs)), min(1, len(inputs))):
            other = self.rng.choice(
                [{"validator": self._script()}, {"datum": self._datum()}, {"redeemer": self._datum()}]
            )
            inputs[place] = inputs[place]._replace(**other)
        return plan._replace(parts=plan.parts._replace(inputs=inputs))

    def _forging_unasked(self, plan: Plan) -> Plan:
        if plan.parts.policies and self.chance(0.6):
            return plan._replace(parts=plan.parts._replace(policies=plan.parts.policies[1:]))
        forged = dict(plan.parts.forged)
        for _ in range(self.rng.choice([1, 1, 2, 3])):
            strange = sha256(self.rng.randbytes(2)).digest()
            policy = self.rng.choice([COIN_POLICY, self._script().hash, self._script().hash, self._script().hash, strange])
            forged[policy, self.rng.choice(NAMES)] = self.rng.choice([1, -1, 5])
        return plan._replace(parts=plan.parts._replace(forged=forged))

    def _carrying_more(self, plan: Plan) -> Plan:
        return plan._replace(parts=plan.parts._replace(policies=[*plan.parts.policies, self._script()]))

    def _signed_otherwise(self, plan: Plan) -> Plan:
        """Spoils a signature, or has one more, under a key that may be none of a scenario's."""
        key = self.rng.choice([*KEYS, *KEYS, self.rng.randbytes(32)])
        signs = plan.signs[1:] if self.chance(0.3) else plan.signs
        return plan._replace(signs=[*signs, (key, self.chance(0.4))])

    FLAWS: list[Callable[[Planner, Plan], Plan]] = [
        _without_inputs,
        _at_another_tick,
        _paying_otherwise,
        _paying_otherwise,
        _spending_what_is_gone,
        _looking_at_what_is_gone,
        _with_other_words,
        _with_other_words,
        _with_other_words,
        _forging_unasked,
        _carrying_more,
        _signed_otherwise,
    ]


class NoWords(Exception):
    """No line says it."""


class Speller:
    """Finds the items of a line that declare a plan. The names must stay as they are."""

    def __init__(self, rng: Random, names: Names) -> None:
        self.rng, self.names = rng, names

    @cached_property
    def names_of(self) -> dict[Ref | bytes, list[str]]:
        """The names of opening outputs by their references, and those of transactions by their ids."""
        found: dict[Ref | bytes, list[str]] = {}
        for name, one in self.names.others.items():
            found.setdefault(one.ref if isinstance(one, Opening) else one.tx.id, []).append(name)
        return found

    def items(self, plan: Plan) -> list[str]:
        parts = plan.parts
        items = [self.input(one) for one in parts.inputs]
        items += ["ref=" + self.reference(ref) for ref in parts.references]
        items += ["policy=" + self.script(policy) for policy in parts.policies]
        items += [self.sign(key, good) for key, good in plan.signs]
        if parts.start or self.rng.random() < 0.05:
            items.append("from=" + self.number(parts.start))
        if parts.end < LAST_TICK or self.rng.random() < 0.05:
            items.append("to=" + self.number(parts.end))
        if parts.forged or self.rng.random() < 0.03:
            items.append("forge=" + self.bundle(parts.forged))
        self.rng.shuffle(items)
        places = sorted(self.rng.randint(0, len(items)) for _ in parts.outputs)
        for place, output in reversed(list(zip(places, parts.outputs))):
            items.insert(place, "out=" + self.payment(output))
        if not items:
            raise NoWords
        return items

    def number(self, value: int) -> str:
        return "0" * self.rng.choice([0] * 12 + [1, 2]) + str(value)

    def _any(self, words: list[str]) -> str:
        if not words:
            raise NoWords
        return self.rng.choice(words)

    def script(self, script: Script) -> str:
        return self._any([name for name, one in self.names.scripts.items() if one.octets == script.octets])

    def datum(self, datum: Datum) -> str:
        return self._any([name for name, one in self.names.data.items() if one.octets == datum.octets])

    def reference(self, ref: Ref) -> str:
        openings, txs = self.names_of.get(ref, []), self.names_of.get(ref.id, [])
        return self._any(openings + [f"{name}.{self.number(ref.place)}" for name in txs])

    def input(self, one: Input) -> str:
        """Says what is spent, and of its script, datum and redeemer mostly just what has to be said."""
        word = self.reference(one.ref)
        payment = self.names.reference(word)[1]
        script, datum = (payment.script, payment.datum) if payment else (scripts.YES, data.UNIT)
        said = [one.validator.octets != script.octets, one.datum != datum, one.redeemer != data.UNIT]
        count = max(place + 1 if is_said else 0 for place, is_said in enumerate(said))
        if self.rng.random() < 0.2:
            count = self.rng.randint(count, 3)
        words = [self.script(one.validator), self.datum(one.datum), self.datum(one.redeemer)][:count]
        return "in=" + word + (":" + "/".join(words) if words else "")

    def payment(self, output: Output) -> str:
        scripts_ = [name for name, one in self.names.scripts.items() if one.hash == output.address]
        data_ = [name for name, one in self.names.data.items() if one.hash == output.datum_hash]
        word, script, datum = self.bundle(output.value), self._any(scripts_), self._any(data_)
        if datum != "unit" or self.rng.random() < 0.05:
            return f"{word}@{script}/{datum}"
        return f"{word}@{script}" if script != "yes" or self.rng.random() < 0.05 else word

    def bundle(self, bundle: Bundle) -> str:
        entries = [str(quantity) + self.token(*token) for token, quantity in bundle.items()]
        self.rng.shuffle(entries)
        return ",".join(entries) or "-"

    def token(self, policy: bytes, name: bytes) -> str:
        policies = [name for name, one in self.names.scripts.items() if one.hash == policy]
        if policy == COIN_POLICY:
            if not name and self.rng.random() < 0.9:
                return ""
            policies = ["coin"]
        word = "*" + self._any(policies) + ("." + name.decode("latin-1") if name else "")
        try:
            self.names.bundle("1" + word)
        except Bad:
            raise NoWords from None
        return word

    def sign(self, key: bytes, good: bool) -> str:
        if key != key[:1] * 32:
            raise NoWords
        return ("sign=" if good else "badsign=") + self.number(key[0])
