"""Answers as a program may give them whose conversations go on at once, and answers that it must not give."""

from __future__ import annotations

from collections import deque
from collections.abc import Callable
from copy import copy
from random import Random

from .clients import OF_OPERATOR, ClientTalk, OperatorTalk
from .orders import CHANGES, Heard, first_word
from .pool import Item, Pool
from .rules import Verifier
from .talk import Talk

# A read may be of the pool as it was so many changes ago.
MOST_STALE = 40


class Simulation:
    """A program that answers lines of an operator and clients, in rounds. At random moments one of them goes on by a line."""

    def __init__(self, rng: Random, verifier: Verifier, lines: list[list[bytes]], rounds: list[list[int]]) -> None:
        self.rng = rng
        self.lines, self.rounds = lines, rounds
        self.talks: list[Talk] = [OperatorTalk(verifier)]
        self._let_operator_open()
        assert self.talks[0].pool
        self.talks += [ClientTalk(verifier, self.talks[0].pool) for _ in lines[1:]]
        self.pools = deque([copy(self.talks[0].pool)], MOST_STALE)
        self.newest = 0  # How many pools there were before the newest.
        self.seen = [0] * len(lines)
        # What each has seen by its last `stats` or change: their answers have the number of changes, or a place among them.
        self.known = [0] * len(lines)

    def _let_operator_open(self) -> None:
        """Answers the operator's lines up to the one that opens the pool."""
        self.answers: list[list[str]] = [[] for _ in self.lines]
        for line in self.lines[0]:
            self.answers[0].append(self.talks[0].hear(line))
            if self.talks[0].pool:
                break

    def hold(self) -> list[Heard]:
        """Gives what was said and answered in each conversation."""
        going = list(range(len(self.lines)))
        while going:
            now = min(self.rounds[number][len(self.answers[number])] for number in going if self._is_going(number))
            number = self.rng.choice([one for one in going if self.rounds[one][len(self.answers[one])] == now])
            self._answer(number)
            going = [one for one in going if self._is_going(one)]
        return [Heard(*one) for one in zip(self.lines, self.answers, self.rounds)]

    def _is_going(self, number: int) -> bool:
        return len(self.answers[number]) < len(self.lines[number])

    def _answer(self, number: int) -> None:
        line = self.lines[number][len(self.answers[number])]
        first = first_word(line)
        at = self.newest if first in CHANGES else self.point_of_read(number)
        talk = self.talks[number]
        talk.pool = before = self.pools[at - self.newest - 1]
        talk.pool = copy(before)
        answer = self.hear(talk, line)
        self.answers[number].append(answer)
        self.seen[number] = at
        if talk.pool.changes != before.changes:
            self.newest += 1
            self.pools.append(talk.pool)
            self.seen[number] = self.newest
        if first == "stats" or at != self.seen[number]:
            self.known[number] = self.seen[number]

    def point_of_read(self, number: int) -> int:
        """Gives the number of changes at which a conversation reads: not before one that it has seen."""
        least = max(self.seen[number], self.newest - len(self.pools) + 1)
        return self.rng.choice([least, self.newest, self.newest, self.rng.randint(least, self.newest)])

    def hear(self, talk: Talk, line: bytes) -> str:
        """Gives the answer to a line, without why a line is bad."""
        return talk.hear(line)


class Faulty(Simulation):
    """A program that makes one mistake, as soon as it can in the second half of the lines."""

    def __init__(self, rng: Random, verifier: Verifier, lines: list[list[bytes]], rounds: list[list[int]], fault: str) -> None:
        super().__init__(rng, verifier, lines, rounds)
        self.fault = fault
        self.wait = sum(map(len, lines)) // 2
        self.is_made = False

    def is_due(self) -> bool:
        return not self.is_made and sum(map(len, self.answers)) >= self.wait

    def point_of_read(self, number: int) -> int:
        point = super().point_of_read(number)
        before = self.known[number] - 1
        line = self.lines[number][len(self.answers[number])]
        oldest = self.newest - len(self.pools) + 1
        if self.fault == "goes back" and self.is_due() and line == b"stats" and before >= oldest:
            self.is_made = True
            return before
        return point

    def hear(self, talk: Talk, line: bytes) -> str:
        make = self.FAULTS.get(self.fault)
        if not self.is_due() or make is None:
            return super().hear(talk, line)
        return make(self, talk, line)

    def _made(self, answer: str) -> str:
        self.is_made = True
        return answer

    def _lose(self, talk: Talk, line: bytes) -> str:
        """Accepts a transaction that the pool then doesn't have."""
        before = copy(talk.pool)
        answer = talk.hear(line)
        if answer.startswith("accepted") and first_word(line) != "check":
            assert talk.pool and before
            talk.pool.items, talk.pool._unspent = before.items, before._unspent
            self.is_made = True
        return answer

    def _enter_twice(self, talk: Talk, line: bytes) -> str:
        """Counts a change that wasn't asked for."""
        answer = talk.hear(line)
        if answer.startswith(("accepted", "kept")) and first_word(line) != "check":
            assert talk.pool
            talk.pool.changes += 1
            self.is_made = True
        return answer

    def _give_ticket_again(self, talk: Talk, line: bytes) -> str:
        answer = talk.hear(line)
        first, *words = answer.split(" ")
        if first == "accepted" and first_word(line) != "check" and len(self._pool_of(talk).items) > 1:
            *before, last = self._pool_of(talk).items
            ticket = before[-1].ticket
            self._pool_of(talk).items = [*before, Item(ticket, last.tx)]
            return self._made(" ".join([first, str(ticket), *words[1:]]))
        return answer

    @staticmethod
    def _pool_of(talk: Talk) -> Pool:
        assert talk.pool
        return talk.pool

    def _let_client(self, talk: Talk, line: bytes) -> str:
        """Lets a client do what only the operator may."""
        if isinstance(talk, OperatorTalk) or first_word(line) not in OF_OPERATOR:
            return talk.hear(line)
        talk.LINES = Talk.LINES
        answer = talk.hear(line)
        del talk.LINES
        return answer if answer.startswith("bad") else self._made(answer)

    def _go_on_counting(self, talk: Talk, line: bytes) -> str:
        """Doesn't number the lines from 1 after a reset."""
        answer = talk.hear(line)
        number = len(self.answers[self.talks.index(talk)]) + 1
        return self._made(f"bad {number}: ") if answer.startswith("bad ") and number != talk.lines else answer

    def _forget_offers(self, talk: Talk, line: bytes) -> str:
        """Offers again what was offered."""
        before = copy(talk)
        answer = talk.hear(line)
        if first_word(line) != "offer" or not before.offered:
            return answer
        before.offered = 0
        again = before.hear(line)
        if again == answer:
            return answer
        talk.offered = before.offered
        return self._made(again)

    def _miscount(self, talk: Talk, line: bytes) -> str:
        """Reports a number that is greater by one."""
        answer = talk.hear(line)
        words = answer.split(" ")
        places = {"snapshot": 2, "tx": 1, "bad": 1, "accepted": 1, "refused full": 2, "block": 2, "take": 2, "forgotten": 1}
        place = places.get(" ".join(words[:2]), places.get(words[0]))
        if place is None or not words[place].strip(":").isdigit():
            return answer
        digits = words[place].strip(":")
        return self._made(" ".join([*words[:place], words[place].replace(digits, str(int(digits) + 1)), *words[place + 1 :]]))

    FAULTS: dict[str, Callable[[Faulty, Talk, bytes], str]] = {
        "loses a change": _lose,
        "makes a change that nobody asked for": _enter_twice,
        "gives a ticket again": _give_ticket_again,
        "lets a client do what only the operator may": _let_client,
        "goes on counting after a reset": _go_on_counting,
        "offers again": _forget_offers,
        "miscounts": _miscount,
    }
    NAMES = ("goes back", *FAULTS)

