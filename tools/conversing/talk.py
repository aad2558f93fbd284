"""A conversation: the answer to each line."""

from __future__ import annotations

from collections import Counter
from collections.abc import Callable

from repository import read_refusal_words

from .bundles import Bundle
from .pool import Item, LedgerState, Pool, Refused, size_of
from .rules import Broken, Verifier
from .transactions import (
    LAST_TICK,
    MOST_BYTES,
    Fault,
    Input,
    NoTransaction,
    Output,
    Parts,
    Ref,
    Tx,
    decode,
    decode_output,
    in_order,
    of_parts,
    sign,
)
from .words import (
    MOST,
    MOST_BLOCK_BYTES,
    MOST_CHANGES,
    MOST_PLACES,
    Bad,
    Declared,
    Names,
    Opening,
    Payment,
    id_in,
    number,
    octets,
)
from . import data, scripts

LONGEST_CLEAN = 4096
CLEAN = bytes(range(0x20, 0x7F))  # The bytes that a line may have.
# The longest line of the language has an output that fills a transaction: stage utxo ID#INDEX HEX, with an index of 20 digits.
LONGEST_LINE = len("stage utxo ") + 64 + len("#") + 20 + len(" ") + 2 * (MOST_BYTES - 27)
# In the order of `stats`. Only a conversation that shares its pool answers that this has made as many changes as it may.
REFUSALS = (*(word for word in read_refusal_words() if word != "memory"), "adopt", "back")


def fits(answer: str, expected: str) -> bool:
    """Says whether an answer is one that the model expects."""
    if expected.startswith("bad "):
        return answer.startswith(expected)  # The words that follow aren't fixed.
    return answer == expected


class Draft:
    """A transaction that a line declares."""

    def __init__(self, names: Names) -> None:
        self.names = names
        self.parts = Parts(inputs=[], references=[], outputs=[], policies=[], signatures=[])
        self.payments: list[Payment] = []
        self.signs: list[tuple[bytes, bool]] = []
        self.once: dict[str, int | Bundle] = {}

    def take(self, item: str) -> None:
        before, equals, behind = item.partition("=")
        take = self.TAKES.get(before)
        if not equals or take is None:
            raise Bad
        take(self, before, behind)

    def tx(self) -> Tx:
        once = self.once
        ends = {"start": once.get("from", 0), "end": once.get("to", LAST_TICK), "forged": once.get("forge", {})}
        parts = in_order(self.parts._replace(**ends))
        signatures = [sign(parts, key, good) for key, good in self.signs]
        try:
            return of_parts(in_order(parts._replace(signatures=signatures)))
        except NoTransaction:
            raise Bad from None

    def _take_input(self, _: str, word: str) -> None:
        before, colon, behind = word.partition(":")
        ref, payment = self.names.reference(before)
        payment = payment or Payment({}, scripts.YES, data.UNIT)
        validator, datum, redeemer = payment.script, payment.datum, data.UNIT
        if colon:
            first, *more = behind.split("/")
            validator = self.names.script(first)
            if len(more) > 2:
                raise Bad
            if more:
                datum = self.names.datum(more[0])
            if len(more) == 2:
                redeemer = self.names.datum(more[1])
        self.parts.inputs.append(Input(ref, validator, datum, redeemer))

    def _take_reference(self, _: str, word: str) -> None:
        self.parts.references.append(self.names.reference(word)[0])

    def _take_output(self, _: str, word: str) -> None:
        payment = self.names.payment(word)
        self.payments.append(payment)
        self.parts.outputs.append(payment.output())

    def _take_policy(self, _: str, word: str) -> None:
        self.parts.policies.append(self.names.script(word))

    def _take_sign(self, item: str, word: str) -> None:
        self.signs.append((bytes([number(word, most=255)]) * 32, item == "sign"))

    def _take_once(self, item: str, word: str) -> None:
        if item in self.once:
            raise Bad
        self.once[item] = self.names.bundle(word) if item == "forge" else number(word)

    TAKES: dict[str, Callable[[Draft, str, str], None]] = {
        "in": _take_input,
        "ref": _take_reference,
        "out": _take_output,
        "policy": _take_policy,
        "sign": _take_sign,
        "badsign": _take_sign,
        "from": _take_once,
        "to": _take_once,
        "forge": _take_once,
    }


class Talk:
    """A conversation, as far as it has come."""

    SETTINGS = {
        "block": (1, MOST_BLOCK_BYTES, 500_000),
        "limit": (1, MOST_CHANGES, 1_000_000),
        "last": (0, MOST, 0),
        "tick": (0, MOST, 0),
    }

    LONGER = ("bytes", "give", "utxo", "stage")  # The first words of lines that may have more than 4,096 bytes.

    POOL = Pool

    DECLARING = ("script", "data", "out", "tx", "bytes")  # The first words of lines that declare a name.

    MOST_NAMES = 65_536

    def __init__(self, verifier: Verifier, most_names: int = MOST_NAMES) -> None:
        self.verifier = verifier
        self.names = Names()
        self.tells_ids = False
        self.most_names = most_names
        self.settings: dict[str, int] = {}
        self.opening: dict[Ref, Output] = {}
        self.outs = 0
        self.pool: Pool | None = None
        # What is staged; these are never changed in place.
        self.staged: list[Tx] = []
        self.staged_outputs: dict[Ref, Output] = {}
        self.offered = 0  # The last ticket that the conversation's one peer was offered.
        self.refused: Counter[str] = Counter()
        self.lines = 0

    def hear(self, line: bytes) -> str:
        """Gives the answer to a line. Of a bad one that is how it begins."""
        self.lines += 1
        try:
            answer = self._answer(line)
        except Bad:
            answer = f"bad {self.lines}: "
        except Refused as refused:
            answer = "refused " + self._tell_refusal(refused.broken)
        if answer.startswith("refused ") and line.split()[0] != b"check":
            self.refused[answer.split(" ")[1]] += 1
        return answer

    def _answer(self, line: bytes) -> str:
        if len(line) > LONGEST_LINE or line.translate(None, delete=CLEAN):
            raise Bad
        first, *words = line.decode().split() or [""]
        if len(line) > LONGEST_CLEAN and first not in self.LONGER:
            raise Bad
        if not first or first.startswith("#"):
            return "ok"
        if first in self.SETTINGS:
            return self._set(first, *words)
        if first not in self.LINES:
            raise Bad
        take, least, most = self.LINES[first]
        if len(words) < least or (most is not None and len(words) > most):
            raise Bad
        if first in self.DECLARING and self.names.count() >= self.most_names:
            raise Bad
        return take(self, *words)

    def setting(self, word: str) -> int:
        return self.settings.get(word, self.SETTINGS[word][2])

    def _set(self, first: str, *words: str) -> str:
        if len(words) != 1 or self.pool or first in self.settings:
            raise Bad
        least, most, _ = self.SETTINGS[first]
        self.settings[first] = number(*words, least, most)
        return "ok"

    def _opened(self) -> Pool:
        """Gives the pool, which is opened where it isn't yet."""
        if self.pool is None:
            ledger = LedgerState(self.setting("tick"), self.setting("block"), self.opening)
            self.pool = self.POOL(ledger, self.setting("limit"), self.setting("last"), self.verifier)
        return self.pool

    def _script(self, word: str, digits: str) -> str:
        self.names.new(word, self.names.scripts | {"coin": scripts.YES})
        try:
            self.names.scripts[word] = scripts.decode(octets(digits))
        except scripts.NoScript:
            raise Bad from None
        return "ok"

    def _data(self, word: str, digits: str) -> str:
        self.names.new(word, self.names.data)
        try:
            self.names.data[word] = data.decode(octets(digits))
        except data.NoDatum:
            raise Bad from None
        return "ok"

    def _out(self, word: str, pay: str) -> str:
        self.names.new(word, self.names.others)
        payment = self.names.payment(pay)
        ref = Ref(bytes(32), self.outs)
        if self.pool or self.outs == MOST_PLACES or ref in self.opening:
            raise Bad
        self.outs += 1
        self.opening[ref] = payment.output()
        self.names.others[word] = Opening(ref, payment)
        return "ok"

    def _utxo(self, word: str, digits: str) -> str:
        ref, output = output_in(word, digits)
        if self.pool or ref in self.opening:
            raise Bad
        self.opening[ref] = output
        return "ok"

    def _stage(self, first: str, *words: str) -> str:
        if first == "utxo":
            return self._stage_output(*words)
        if first.startswith("#"):
            txs = [self._held(word) for word in (first, *words)]
        elif words:
            raise Bad
        else:
            try:
                txs = [decode(octets(first))]
            except Fault as fault:
                return f"undecodable {fault.name}"
        self.staged = [*self.staged, *txs]
        return f"staged {len(self.staged)}"

    def _stage_output(self, *words: str) -> str:
        if len(words) != 2:
            raise Bad
        ref, output = output_in(*words)
        if ref in self.staged_outputs:
            raise Bad
        self.staged_outputs = self.staged_outputs | {ref: output}
        return f"staged {len(self.staged_outputs)}"

    def _unstage(self) -> str:
        self.staged, self.staged_outputs = [], {}
        return "ok"

    def _tx(self, word: str, *items: str) -> str:
        self.names.new(word, self.names.others)
        draft = Draft(self.names)
        for item in items:
            draft.take(item)
        self.names.others[word] = Declared(draft.tx(), draft.payments)
        return "ok"

    def _bytes(self, word: str, digits: str) -> str:
        self.names.new(word, self.names.others)
        spelled = octets(digits)
        try:
            tx = decode(spelled)
        except Fault as fault:
            return f"undecodable {fault.name}"
        self.names.others[word] = Declared(tx, [])
        return f"tx {tx.size} {tx.id.hex()}"

    def _give(self, digits: str) -> str:
        try:
            tx = decode(octets(digits))
        except Fault as fault:
            return f"undecodable {fault.name}"
        try:
            answer = f"accepted {self._opened().submit(tx)}"
        except Refused as refused:
            answer = "refused " + self._tell_refusal(refused.broken)
        return f"{answer} {tx.id.hex()}"

    def _meant(self, word: str) -> Tx:
        """Gives the transaction that has the name, or that the pool holds under the id."""
        return self.names.tx(word) if id_in(word) is None else self._held(word)

    def _held(self, word: str) -> Tx:
        """Gives the transaction that the pool holds under the id that a word has."""
        id = id_in(word)
        held = self.pool.held(id) if self.pool and id is not None else None
        if held is None:
            raise Bad
        return held.tx

    def _ids(self) -> str:
        self.tells_ids = True
        return "ok"

    def _names(self) -> str:
        self.tells_ids = False
        return "ok"

    def _reset(self) -> str:
        if self.pool is None:
            raise Bad
        self.names, self.tells_ids, self.offered, self.lines = Names(), False, 0, 0
        return self._unstage()

    def _show(self, word: str) -> str:
        tx = self._meant(word)
        return f"tx {tx.size} {tx.id.hex()} {tx.octets.hex()}"

    def _forget(self, *words: str) -> str:
        if len(set(words)) < len(words):
            raise Bad
        goes = [word for word in words if word in self.names.others and not self._is_reported(word)]
        for word in goes:
            self.names.forget(word)
        return f"forgotten {len(goes)}"

    def _is_reported(self, word: str) -> bool:
        """Says whether the pool holds what the name stands for, and tells it by this name."""
        found = self.names.others[word]
        held = self.pool and isinstance(found, Declared) and self.pool.held(found.tx.id)
        return bool(held) and self.names.name_of_tx(found.tx.id) == word

    def _check(self, word: str) -> str:
        tx = self._meant(word)
        return f"accepted {self._opened().check(tx)}"

    def _submit(self, word: str) -> str:
        tx = self.names.tx(word)
        ticket = self._opened().submit(tx)
        self.names.accept(word)
        return f"accepted {ticket}"

    def _remove(self, *words: str) -> str:
        ids = {self.names.id_of(word) for word in words}
        return tell_two("removed", *self._opened().remove(ids))

    def _adopt(self, word: str, *words: str) -> str:
        tick, block_bytes, words = self._state_words(word, words)
        txs = [self._meant(word) for word in words] or self.staged
        try:
            answer = tell_two("kept", *self._opened().adopt(tick, block_bytes, txs))
            self.staged = self.staged if words else []
            return answer
        except Refused as refused:
            if refused.broken[0] != "adopt":
                raise
            _, place, *broken = refused.broken
            return f"refused adopt {self._tell_tx(txs[place].id)} {self._tell_refusal(tuple(broken))}"

    def _back(self, word: str) -> str:
        count = number(word)
        return tell_two("kept", *self._opened().back(count))

    def _sync(self, word: str, *words: str) -> str:
        tick, block_bytes, refs = self._state_words(word, words)
        if refs != ("staged",) or isinstance(self.names.others.get("staged"), Opening):
            ledger = self._ledger_state(word, words)  # A bad word doesn't open the pool.
            return tell_two("kept", *self._opened().sync(ledger))
        answer = tell_two("kept", *self._opened().sync(LedgerState(tick, block_bytes, self.staged_outputs)))
        self.staged_outputs = {}
        return answer

    def _for(self, word: str, *words: str) -> str:
        ledger = self._ledger_state(word, words)
        return "for" + self._tell_items(self._opened().stays(ledger))

    def _state_words(self, word: str, words: tuple[str, ...]) -> tuple[int, int, tuple[str, ...]]:
        """Reads a tick and the block bytes, and gives what follows them too."""
        tick, block_bytes = number(word), self.setting("block")
        if words and words[0].startswith("block="):
            block_bytes, words = number(words[0][len("block=") :], 1, MOST_BLOCK_BYTES), words[1:]
        return tick, block_bytes, words

    def _ledger_state(self, word: str, words: tuple[str, ...]) -> LedgerState:
        tick, block_bytes, words = self._state_words(word, words)
        outputs: dict[Ref, Output] = {}
        for ref, output in map(self.names.there, words):
            if ref in outputs:
                raise Bad
            outputs[ref] = output
        return LedgerState(tick, block_bytes, outputs)

    def _snapshot(self) -> str:
        pool = self._opened()
        return f"snapshot {len(pool.items)} {size_of(pool.items)} {pool.last}" + self._tell_items(pool.items)

    def _stats(self) -> str:
        pool = self._opened()
        refused = "".join(f" {word} {self.refused[word]}" for word in REFUSALS if self.refused[word])
        return f"stats {len(pool.items)} {size_of(pool.items)} {pool.free()} {pool.last} {pool.changes}{refused}"

    def _after(self, word: str) -> str:
        ticket = number(word)
        return "after" + self._tell_items(self._opened().after(ticket))

    def _lookup(self, word: str) -> str:
        ticket = number(word)
        item = self._opened().lookup(ticket)
        return "lookup " + (self._tell_tx(item.tx.id) if item else "none")

    def _has(self, word: str) -> str:
        id = self.names.id_of(word)
        return "has yes" if self._opened().held(id) else "has no"

    def _take(self, word: str) -> str:
        return self._tell_block("take", number(word))

    def _forge(self, word: str) -> str:
        return self._tell_block("block", number(word))

    def _offer(self, first: str, second: str) -> str:
        most, most_bytes = number(first), number(second)
        items = self._opened().offer(self.offered, most, most_bytes)
        if items:
            self.offered = items[-1].ticket
        return "offer" + self._tell_items(items)

    def _tell_block(self, first: str, most_bytes: int) -> str:
        block = self._opened().take(most_bytes)
        return f"{first} {len(block.items)} {block.size}" + self._tell_items(block.items)

    def _tell_items(self, items: list[Item]) -> str:
        return "".join(f" {item.ticket}:{self._tell_tx(item.tx.id)}" for item in items)

    def _tell_tx(self, id: bytes) -> str:
        return id.hex() if self.tells_ids else self.names.name_of_tx(id)

    def _tell_refusal(self, broken: Broken) -> str:
        word, *behind = broken
        if word == "no-policy":
            behind = [self._tell_policy(*behind)]
        elif word == "unbalanced":
            behind = [self._tell_token(*behind)]
        return " ".join(map(str, [word, *behind]))

    def _tell_policy(self, policy: bytes) -> str:
        return self.names.name_of_policy(policy) or tell_digits(policy)

    def _tell_token(self, token: tuple[bytes, bytes]) -> str:
        policy, ending = token
        if not ending:
            return self._tell_policy(policy)
        is_word = ending.isalnum() and ending == ending.lower()
        return f"{self._tell_policy(policy)}.{ending.decode() if is_word else tell_digits(ending)}"

    # What takes a line of each first word, and how many words may follow that: at least, and at most.
    LINES: dict[str, tuple[Callable[..., str], int, int | None]] = {
        "script": (_script, 2, 2),
        "data": (_data, 2, 2),
        "out": (_out, 2, 2),
        "utxo": (_utxo, 2, 2),
        "tx": (_tx, 2, None),
        "bytes": (_bytes, 2, 2),
        "give": (_give, 1, 1),
        "stage": (_stage, 1, None),
        "unstage": (_unstage, 0, 0),
        "ids": (_ids, 0, 0),
        "names": (_names, 0, 0),
        "reset": (_reset, 0, 0),
        "show": (_show, 1, 1),
        "forget": (_forget, 1, None),
        "check": (_check, 1, 1),
        "submit": (_submit, 1, 1),
        "remove": (_remove, 1, None),
        "adopt": (_adopt, 1, None),
        "back": (_back, 1, 1),
        "sync": (_sync, 1, None),
        "for": (_for, 1, None),
        "snapshot": (_snapshot, 0, 0),
        "stats": (_stats, 0, 0),
        "after": (_after, 1, 1),
        "lookup": (_lookup, 1, 1),
        "has": (_has, 1, 1),
        "take": (_take, 1, 1),
        "forge": (_forge, 1, 1),
        "offer": (_offer, 2, 2),
    }


def output_in(word: str, digits: str) -> tuple[Ref, Output]:
    """Reads an output by its bytes, and its reference by the id and the index."""
    before, _, behind = word.partition("#")
    ref = Ref(octets(before), number(behind, most=MOST_PLACES - 1))
    spelled = octets(digits)
    if len(ref.id) != 32 or len(spelled) > MOST_BYTES - len(of_parts(Parts()).octets):
        raise Bad
    try:
        return ref, decode_output(spelled)
    except Fault:
        raise Bad from None


def tell_digits(octets: bytes) -> str:
    """Tells what has no name."""
    return "#" + octets.hex()


def tell_two(first: str, items: list[Item], dropped: list[Item]) -> str:
    """Tells of two lists of items their tickets."""
    tickets = [first, *(item.ticket for item in items), "dropped", *(item.ticket for item in dropped)]
    return " ".join(map(str, tickets))
