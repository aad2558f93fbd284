"""The words of a line: names, numbers, bytes, and what of them stands for an output or a transaction."""

from __future__ import annotations

import re
from typing import NamedTuple

from . import data, scripts
from .bundles import COIN_POLICY, GREATEST, Bundle
from .data import Datum
from .scripts import Script
from .transactions import Output, Ref, Tx

MOST = 2**64 - 1
MOST_PLACES = 2**16
MOST_BLOCK_BYTES = 2**39
MOST_CHANGES = 2**32


class Bad(Exception):
    """The line is none of the language."""


class Payment(NamedTuple):
    """An output, with the script and the datum with which it was declared."""

    value: Bundle
    script: Script
    datum: Datum

    def output(self) -> Output:
        return Output(self.script.hash, self.datum.hash, self.value)


class Opening(NamedTuple):
    """What the name of an output of the opening ledger state stands for."""

    ref: Ref
    payment: Payment


class Declared(NamedTuple):
    """What the name of a transaction stands for. One that was read from its bytes has no payments."""

    tx: Tx
    payments: list[Payment]


def number(word: str, least: int = 0, most: int = MOST) -> int:
    if not re.fullmatch("[0-9]{1,20}", word) or not least <= int(word) <= most:
        raise Bad
    return int(word)


def quantity(word: str) -> int:
    if not re.fullmatch("-?[0-9]{1,19}", word) or not 1 <= abs(int(word)) <= GREATEST:
        raise Bad
    return int(word)


def name(word: str) -> str:
    if not re.fullmatch("[a-z][a-z0-9]{0,15}", word):
        raise Bad
    return word


def octets(word: str) -> bytes:
    try:
        found = bytes.fromhex(word)
    except ValueError:
        raise Bad from None
    # Blanks between bytes are skipped, but not allowed here.
    if not found or len(word) != 2 * len(found):
        raise Bad
    return found


def id_in(word: str) -> bytes | None:
    """Gives the id in a word that is one."""
    return bytes.fromhex(word[1:]) if re.fullmatch("#[0-9a-f]{64}", word) else None


class Names:
    """What has been declared."""

    FIRST = 3  # So many names are declared from the start.

    def __init__(self) -> None:
        self.scripts: dict[str, Script] = {"yes": scripts.YES, "no": scripts.NO}
        self.data: dict[str, Datum] = {"unit": data.UNIT}
        self.others: dict[str, Opening | Declared] = {}
        self.reported: dict[bytes, str] = {}  # By the id, the name by which the pool last accepted the transaction.

    def copy(self) -> Names:
        """Gives the same names, of which some may be forgotten or declared without these."""
        new = Names()
        new.scripts, new.data = dict(self.scripts), dict(self.data)
        new.others, new.reported = dict(self.others), dict(self.reported)
        return new

    def count(self) -> int:
        """Gives how many names lines have declared."""
        return len(self.scripts) + len(self.data) + len(self.others) - self.FIRST

    def new(self, word: str, names: dict[str, object]) -> str:
        """Gives a word that may be declared among the names."""
        if name(word) in names:
            raise Bad
        return word

    def script(self, word: str) -> Script:
        return self._find(word, self.scripts)

    def datum(self, word: str) -> Datum:
        return self._find(word, self.data)

    def declared(self, word: str) -> Declared:
        found = self._find(word, self.others)
        if not isinstance(found, Declared):
            raise Bad
        return found

    def tx(self, word: str) -> Tx:
        return self.declared(word).tx

    @staticmethod
    def _find(word: str, names: dict):
        if word not in names:
            raise Bad
        return names[word]

    def id_of(self, word: str) -> bytes:
        """Gives the id that a word means: its own, or that of the transaction with this name."""
        id = id_in(word)
        return self.tx(word).id if id is None else id

    def reference(self, word: str) -> tuple[Ref, Payment | None]:
        """Gives what a word refers to, and as what that was declared, if it was."""
        if "." not in word:
            found = self._find(word, self.others)
            if not isinstance(found, Opening):
                raise Bad
            return found.ref, found.payment
        before, _, behind = word.partition(".")
        found, place = self.declared(before), number(behind, most=MOST_PLACES - 1)
        payment = found.payments[place] if place < len(found.payments) else None
        return Ref(found.tx.id, place), payment

    def there(self, word: str) -> tuple[Ref, Output]:
        """Gives an output that a ledger state may have."""
        ref, payment = self.reference(word)
        if payment is None:
            raise Bad
        return ref, payment.output()

    def payment(self, word: str) -> Payment:
        """Reads BUNDLE, BUNDLE@SCRIPT or BUNDLE@SCRIPT/DATUM."""
        before, at, behind = word.partition("@")
        script, datum = scripts.YES, data.UNIT
        if at:
            first, *more = behind.split("/")
            script = self.script(first)
            datum = self.datum(*more) if len(more) == 1 else datum
            if len(more) > 1:
                raise Bad
        return Payment(self.bundle(before), script, datum)

    def bundle(self, word: str) -> Bundle:
        bundle: Bundle = {}
        for entry in word.split(",") if word != "-" else []:
            count, star, token = entry.partition("*")
            policy, dot, ending = token.partition(".")
            if dot and not re.fullmatch("[a-z0-9]{1,32}", ending):
                raise Bad
            key = (self.policy(policy) if star else COIN_POLICY, ending.encode())
            if key in bundle:
                raise Bad
            bundle[key] = quantity(count)
        return bundle

    def policy(self, word: str) -> bytes:
        return COIN_POLICY if word == "coin" else self.script(word).hash

    def name_of_tx(self, id: bytes) -> str:
        """Gives the name by which the pool accepted the transaction, or else the first that was declared for the id, or else the id."""
        if id in self.reported:
            return self.reported[id]
        return next((name for name, one in self.others.items() if isinstance(one, Declared) and one.tx.id == id), id.hex())

    def accept(self, word: str) -> None:
        """Notes the name by which the pool accepted a transaction."""
        self.reported[self.tx(word).id] = word

    def forget(self, word: str) -> None:
        """Lets the name of an output or a transaction go."""
        del self.others[word]
        self.reported = {id: name for id, name in self.reported.items() if name != word}

    def name_of_policy(self, policy: bytes) -> str | None:
        """Gives the first name of the policy, if it has one."""
        if policy == COIN_POLICY:
            return "coin"
        return next((name for name, script in self.scripts.items() if script.hash == policy), None)
