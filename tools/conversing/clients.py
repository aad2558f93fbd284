"""Random lines of an operator and its clients, whose conversations share a pool."""

from __future__ import annotations

from copy import copy
from random import Random

from . import data
from .lines import RandomTalk
from .plans import Known
from .pool import Pool, SharedPool, size_of
from .rules import Unspent, Verifier, is_key_then_id
from .scripts import NO, YES
from .talk import Talk

# What only the operator may ask.
OF_OPERATOR = ("remove", "sync", "adopt", "back", "stage", "unstage")
# How much less often than alone the operator says what drops most of the pool, and a client what it may not ask.
SELDOM_OF_OPERATOR = {"say_sync": 0.2, "say_taken": 0.1, "say_adopt": 0.5, "say_forged": 0.5, "say_staged_outputs": 0.2, "say_back": 0.5}
SELDOM_OF_CLIENT = {f"say_{word}": 0.1 for word in ("remove", "sync", "taken", "adopt", "stage", "forged", "staged_outputs", "back", "out", "utxo", "setting")}
# The operator makes new outputs when fewer may be spent.
FEW_OUTPUTS = 20
# So many ids fit on a line, and so many transactions are declared for a block.
MOST_IDS, MOST_DECLARED = 60, 12
# A conversation forgets its names after so many lines. Otherwise there would be more and more to choose from.
MOST_LINES_OF_NAMES = 250
# A conversation that has so many lines more than the average waits for the others.
MOST_AHEAD = 12
# How many lines of each conversation a round has; without a number the only round has all.
LINES_IN_ROUND = (2, 4, 10, 30, None)


class OperatorTalk(Talk):
    """The operator's conversation, which opens the pool."""

    POOL = SharedPool

    def __init__(self, verifier: Verifier) -> None:
        super().__init__(verifier)
        self.as_opened: Pool | None = None  # The pool before the request that opened it is done.

    def _opened(self) -> Pool:
        pool = super()._opened()
        self.as_opened = self.as_opened or copy(pool)
        return pool


class ClientTalk(Talk):
    """A client's conversation, which begins when the pool is open."""

    LINES = {word: one for word, one in Talk.LINES.items() if word not in OF_OPERATOR}

    def __init__(self, verifier: Verifier, pool: Pool) -> None:
        super().__init__(verifier)
        self.pool = pool


class Speaker(RandomTalk):
    """The operator or a client: what it says, as if all conversations went on in turn."""

    def __init__(self, rng: Random, talk: Talk, known: Known, makers: dict[bytes, Speaker]) -> None:
        super().__init__(rng, checked=False)
        self.talk, self.known, self.makers = talk, known, makers
        self.rounds: list[int] = []  # The round of each line.
        self.had_names_since = 0  # How many lines there were at the last reset.
        factors = SELDOM_OF_OPERATOR if self.is_operator else SELDOM_OF_CLIENT
        self.weights = [weight * factors.get(kind.__name__, 1) for weight, (kind, _) in zip(self.weights, self.KINDS)]

    def say(self, line: str | bytes) -> str:
        octets = line.encode() if isinstance(line, str) else line
        first, *words = octets.decode("latin-1").split() or [""]
        if first == "forget" and len(words) > 1 and self.talk.pool:
            # Of several names the answer wouldn't say which were forgotten.
            return [self.say(f"forget {word}") for word in words][-1]
        self.lines.append(octets)
        before = self.talk.pool.last if self.talk.pool else None
        answer = self.talk.hear(octets)
        if self.talk.pool and self.talk.pool.last != before and self.talk.pool.items:
            self.makers[self.talk.pool.items[-1].tx.id] = self
        return answer

    def speak(self) -> None:
        """Says a line or a few."""
        if len(self.lines) - self.had_names_since > MOST_LINES_OF_NAMES and self.talk.pool:
            self._begin_again()
        kind = self.rng.choices([kind for kind, _ in self.KINDS], self.weights)[0]
        if self.is_operator and len(self.unspent()) < FEW_OUTPUTS and self.chance(0.3):
            self._make_outputs()
        elif self.is_operator and self.talk.pool and self.talk.pool.free() < size_of(self.talk.pool.items) and self.chance(0.3):
            self._make_room()
        else:
            kind(self)

    def note_round(self, number: int) -> None:
        """Has the new lines be in this round."""
        self.rounds += [number] * (len(self.lines) - len(self.rounds))

    @property
    def is_operator(self) -> bool:
        return isinstance(self.talk, OperatorTalk)

    def unspent(self) -> Unspent:
        """Gives what may be spent, mostly without what others have just made: in truth they may make it later."""
        found = super().unspent()
        if not self.talk.pool or self.chance(0.05):
            return found
        others = {item.tx.id for item in self.talk.pool.items if self.makers.get(item.tx.id) is not self}
        return {ref: output for ref, output in found.items() if ref.id not in others}

    def setting_line(self) -> str:
        """Mostly has room for many changes."""
        line = super().setting_line()
        first = line.split()[0]
        if first in ("limit", "last") and self.chance(0.97):
            return f"{first} {self.number(2**32 if first == 'limit' else self.rng.choice([0, 41]))}"
        return line

    def open_pool(self, length: int) -> None:
        """Says what comes before the first request, and this."""
        self.say(f"block {self.rng.randint(900, 20_000)}")
        if self.chance(0.1):
            self.say(f"limit {self.rng.randint(1, length)}")
        self.set_up()
        for _ in range(FEW_OUTPUTS):
            self.say_out()
        while self.talk.pool is None:
            self.speak()

    def _begin_again(self) -> None:
        """Forgets all names, and which scripts and data there were, but for those of outputs."""
        self.say("reset")
        self.had_names_since, self.forgotten = len(self.lines), []
        outputs = super().unspent().values()
        used = {output.address for output in outputs} | {YES.hash, NO.hash}
        known = self.known
        known.scripts = {hash: one for hash, one in known.scripts.items() if hash in used or self.chance(0.02)}
        known.hints = {hash: one for hash, one in known.hints.items() if hash in known.scripts}
        hashes = {output.datum_hash for output in outputs} | {hint.datum.hash for hint in known.hints.values() if hint.datum}
        known.data = {hash: one for hash, one in known.data.items() if hash in hashes or one == data.UNIT or self.chance(0.2)}
        if self.is_operator and self.chance(0.5):
            self._make_outputs()

    def _make_room(self) -> None:
        """Takes some of the oldest transactions out of the pool, by what holds whichever of them are in truth there."""
        assert self.talk.pool
        oldest = self.talk.pool.items[: self.rng.randint(5, MOST_IDS)]
        if self.chance(0.5):
            self.say(f"remove {' '.join(f'#{item.tx.id.hex()}' for item in oldest)}")
            return
        lines = [self.line_of_bytes(item.tx.octets) for item in oldest[:MOST_DECLARED]]
        names = [line.split()[1] for line in lines if self.say(line).startswith("tx")]
        self.say(f"adopt {self.number(self.tick())} {' '.join(names)}")

    def _make_outputs(self) -> None:
        """Adopts a ledger state with more outputs."""
        name, count = self.new_name("o"), self.rng.randint(FEW_OUTPUTS, 3 * FEW_OUTPUTS)
        self.say(f"tx {name} {' '.join(f'out={self.rng.choice([100, 100, 7])}' for _ in range(count))}")
        words = [*self.output_words(list(self.ledger()))[:100], *(f"{name}.{place}" for place in range(count))]
        self.say(f"sync {self.other_tick()} {' '.join(words)}")


class Gathering:
    """Lines of an operator, conversation 0, and of clients, and the round of each.

    A round begins once all lines of the one before are answered.
    """

    def __init__(self, rng: Random, clients: int, length: int) -> None:
        """Makes about so many lines together."""
        self.rng = rng
        known = Known()
        makers: dict[bytes, Speaker] = {}
        self.operator = Speaker(rng, OperatorTalk(is_key_then_id), known, makers)
        self.operator.open_pool(length)
        pool = self.operator.talk.pool
        assert pool
        self.speakers = [self.operator]
        self.speakers += [Speaker(rng, ClientTalk(is_key_then_id, pool), known, makers) for _ in range(clients)]
        self.operator.note_round(0)
        self._let_all_speak(length)

    def _let_all_speak(self, length: int) -> None:
        in_round = len(self.speakers) * (self.rng.choice(LINES_IN_ROUND) or length)
        while (said := sum(len(one.lines) for one in self.speakers)) < length:
            speaker = self._next_speaker(said)
            speaker.speak()
            speaker.note_round(said // in_round)
        for one in self.speakers:
            one.say("stats")
            one.note_round(length // in_round)

    @property
    def lines(self) -> list[list[bytes]]:
        return [one.lines for one in self.speakers]

    @property
    def rounds(self) -> list[list[int]]:
        return [one.rounds for one in self.speakers]

    def _next_speaker(self, said: int) -> Speaker:
        chosen = self.rng.choice(self.speakers)
        if len(chosen.lines) * len(self.speakers) <= said + MOST_AHEAD * len(self.speakers):
            return chosen
        return min(self.speakers, key=lambda one: len(one.lines))
