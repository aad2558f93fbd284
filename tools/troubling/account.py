"""What a conversation asks, and which answers are right: a small model of a pool in which each conversation has outputs of its own."""

from __future__ import annotations

import re
import sys
from collections import Counter
from collections.abc import Callable, Iterator
from functools import partial
from hashlib import sha256
from random import Random
from typing import NamedTuple

from repository import TOP

from .pipes import Wrong

sys.path.insert(0, f"{TOP}/clients/python")
from example import output_bytes, transaction_bytes

COIN = 100
# The bytes of each transaction, and what a block may have.
SIZE, BLOCK = 181, 1_000_000
NO_MEMORY = "fault: no memory"
OF_OPERATOR = ["remove #" + "0" * 64, "stage 00", "unstage", "sync 1", "adopt 1", "back 0"]
TOO_LATE = ["block 9", "limit 9", "out g 5"]


class Question(NamedTuple):
    """A line, and what returns the right answer, given the program's."""

    line: bytes
    right: Callable[[str], str]
    id: str = ""  # The transaction that it gives.


def hash_of(text: str) -> str:
    return sha256(text.encode()).hexdigest()


def pay(spent_id: str) -> bytes:
    return transaction_bytes(spent_id, 0, COIN)


def id_of(data: bytes) -> str:
    return sha256(data[:-2]).hexdigest()


class Account:
    """A conversation's outputs, transactions, line numbers and refusals."""

    def __init__(self, number: int, outputs: int, rng: Random, *, may_lack_memory: bool = False) -> None:
        """Number 0 is the operator."""
        self.name = f"client {number}" if number else "the operator"
        self._rng, self._may_lack_memory = rng, may_lack_memory
        self.outputs = [hash_of(f"output {place} of {number}") for place in range(outputs)]
        self._reserved, *spare = map(pay, self.outputs)
        self._spare = iter(spare)
        self.missing: set[str] = set()  # The ids that spend outputs of which the pool doesn't know.
        self.given: dict[str, bytes] = {}
        self.tickets: dict[str, int] = {}  # What the pool holds, as far as the answers say.
        self.accepted: set[int] = set()
        self._refused: Counter[str] = Counter()
        self._line = 0
        self._last = 0
        self._offered = 0
        self.heard = 0
        others = [self._remove, self._stage] if number == 0 else [self._ask_forbidden]
        self._tasks: list[Callable[[], Iterator[Question]]] = [
            *[self.give_new] * 3, self._give_again, self._give_missing, self._give_broken, self._ask_has, self._ask_check, self._ask_lookup,
            self._declare, self._ask_offer, self._ask_stats, self._say_nothing, self._say_long, self._say_late, self._reset, *others,
        ]

    def hear(self, question: Question, answer: str) -> None:
        """Compares the answer to the next question."""
        self.heard += 1
        if self._may_lack_memory and answer == NO_MEMORY:
            return
        right = question.right(answer)
        if answer != right:
            line = question.line.decode("latin-1")
            raise Wrong(f"{self.name}: {line!r:.120} is answered {answer!r:.200}, and right is {right!r:.200}")

    def ask_some(self) -> Iterator[Question]:
        """Returns the lines of a small random task. Each is made when those before it are answered."""
        return self._rng.choice(self._tasks)()

    def ask_many(self, count: int) -> list[Question]:
        """Returns lines that may be sent ahead: some that give transactions, and many that have them shown."""
        questions: list[Question] = []
        while len(questions) < count:
            questions += self.give_new() if len(questions) % 20 == 0 else self.show()
        return questions

    def open(self) -> list[Question]:
        """Returns a conversation's lines before the pool is open, but for those that make its outputs."""
        return [self._make(line, is_ok) for line in (f"block {BLOCK}", "limit 4294967296")]

    def make_outputs(self, of: Account) -> list[Question]:
        """Returns the lines that make the outputs of a conversation, in their order."""
        return [self._make(f"utxo {output}#0 {output_bytes(COIN).hex()}", is_ok) for output in of.outputs]

    def greet(self) -> Question:
        return self._make("# hello", is_ok)

    def give_reserved(self) -> Question:
        """Returns a line that changes the pool, once."""
        return self._give(self._reserved)

    def take_snapshot(self) -> Question:
        return self._make("snapshot", lambda answer: answer if answer.startswith("snapshot ") else "snapshot ..")

    def say(self, line: str) -> Question:
        """Returns a line that is bad."""
        return self._make(line, self._bad())

    # Lines.

    def _make(self, line: str, right: Callable[[str], str], id: str = "") -> Question:
        self._line += 1
        return Question(line.encode("latin-1"), right, id)

    def _bad(self, why: str = "") -> Callable[[str], str]:
        """Returns what knows the answer to the next line, which is bad."""
        begin = f"bad {self._line + 1}: "
        return lambda answer: answer if not why and answer.startswith(begin) and len(answer) > len(begin) else begin + (why or "..")

    def _choose(self) -> str:
        """Returns the id of a transaction that was given, or nothing if none was."""
        return self._rng.choice(list(self.given)) if self.given else ""

    def _give(self, data: bytes) -> Question:
        id = id_of(data)
        self.given[id] = data
        return self._make(f"give {data.hex()}", partial(self._right_of_give, id), id)

    def give_new(self) -> Iterator[Question]:
        data = next(self._spare, None)
        if data is None:
            yield from self._give_again()
        else:
            yield self._give(data)

    def _give_again(self) -> Iterator[Question]:
        if id := self._choose():
            yield self._give(self.given[id])

    def _right_of_give(self, id: str, answer: str) -> str:
        if id in self.missing:
            self._refused["missing"] += 1
            return f"refused missing 0 {id}"
        if id in self.tickets:
            self._refused["already"] += 1
            return f"refused already {self.tickets[id]} {id}"
        found = re.fullmatch(f"accepted ([0-9]+) {id}", answer)
        if not found or int(found[1]) <= self._last:
            return f"accepted T {id}, T over {self._last}"
        self._last = self.tickets[id] = int(found[1])
        self.accepted.add(self._last)
        return answer

    def _give_missing(self) -> Iterator[Question]:
        data = pay(hash_of(f"nobody has {self._rng.random()}"))
        self.missing.add(id_of(data))
        yield self._make(f"give {data.hex()}", partial(self._right_of_give, id_of(data)))

    def _give_broken(self) -> Iterator[Question]:
        data, fault = self._rng.choice([("00", "version"), ("01", "truncated"), (pay("0" * 64).hex() + "00", "trailing")])
        yield self._make(f"give {data}", lambda _: f"undecodable {fault}")

    def show(self) -> Iterator[Question]:
        id = self._choose()
        if not id:
            yield from self._say_nothing()
            return
        bad, shown = self._bad(), f"tx {SIZE} {id} {self.given[id].hex()}"
        yield self._make(f"show #{id}", lambda answer: shown if id in self.tickets else bad(answer))

    def _ask_has(self) -> Iterator[Question]:
        if id := self._choose():
            yield self._make(f"has #{id}", lambda _: f"has {'yes' if id in self.tickets else 'no'}")

    def _ask_check(self) -> Iterator[Question]:
        if (id := self._choose()) in self.tickets:
            yield self._make(f"check #{id}", lambda _: f"refused already {self.tickets[id]}")

    def _ask_lookup(self) -> Iterator[Question]:
        if (id := self._choose()) in self.tickets:
            yield self._make(f"lookup {self.tickets[id]}", lambda _: f"lookup {id}")

    def _declare(self) -> Iterator[Question]:
        """Declares a transaction, asks about it, and forgets it."""
        data = pay(hash_of(f"{self.name} declares {self._rng.random()}"))
        name = f"n{self._rng.randrange(1000)}"
        yield self._make(f"bytes {name} {data.hex()}", lambda _: f"tx {SIZE} {id_of(data)}")
        yield self._make(f"has {name}", lambda _: "has no")
        yield self._make(f"check {name}", lambda _: "refused missing 0")
        yield self._make(f"forget {name}", lambda _: "forgotten 1")

    def _ask_offer(self) -> Iterator[Question]:
        yield self._make("offer 3 1000", self._right_of_offer)

    def _right_of_offer(self, answer: str) -> str:
        items = re.fullmatch("offer((?: [0-9]+:[0-9a-f]{64}){0,3})", answer)
        if not items:
            return "offer T:ID .., at most 3"
        for ticket, id in read_items(items[1]):
            if ticket <= self._offered or self.tickets.get(id, ticket) != ticket:
                return "offer T:ID .., each once, in order and under its ticket"
            self._offered = ticket
        return answer

    def _ask_stats(self) -> Iterator[Question]:
        yield self._make("stats", self._right_of_stats)

    def _right_of_stats(self, answer: str) -> str:
        found = re.fullmatch("stats ([0-9]+) [0-9]+ [0-9]+ ([0-9]+) ([0-9]+)( .*)?", answer)
        if not found:
            return "stats N N N N N .."
        count, last, changes = int(found[1]), int(found[2]), int(found[3])
        refused = "".join(f" {word} {self._refused[word]}" for word in ("already", "missing") if self._refused[word])
        if count < len(self.tickets) or last < self._last or changes < max(last, len(self.accepted)):
            return f"stats with at least {len(self.tickets)} transactions, ticket {self._last} and as many changes"
        return f"stats {count} {count * SIZE} {2 * BLOCK - count * SIZE} {last} {changes}{refused}"

    def _say_nothing(self) -> Iterator[Question]:
        yield self._make(self._rng.choice(["", " ", "# a comment"]), is_ok)

    def _say_long(self) -> Iterator[Question]:
        yield self.say("has " + "x" * self._rng.choice([4093, 9000, 40_000]))

    def _say_late(self) -> Iterator[Question]:
        yield self.say(self._rng.choice(TOO_LATE))

    def _reset(self) -> Iterator[Question]:
        """The next line has number 1, and the peer is offered all again."""
        yield self._make("reset", is_ok)
        self._line = self._offered = 0

    def _ask_forbidden(self) -> Iterator[Question]:
        right = self._bad("only the operator may ask this")
        yield self._make(self._rng.choice(OF_OPERATOR), right)

    # What only the operator asks.

    def _remove(self) -> Iterator[Question]:
        if (id := self._choose()) in self.tickets:
            yield self._make(f"remove #{id}", lambda _: f"removed {self.tickets.pop(id)} dropped")

    def _stage(self) -> Iterator[Question]:
        yield self._make(f"stage {pay('0' * 64).hex()}", lambda _: "staged 1")
        yield self._make("unstage", is_ok)


def is_ok(_: str) -> str:
    return "ok"


def read_items(text: str) -> list[tuple[int, str]]:
    """Reads a list of tickets and ids."""
    return [(int(ticket), id) for ticket, _, id in (word.partition(":") for word in text.split())]
