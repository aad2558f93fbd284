"""One order of all changes to a shared pool that explains each answer of all conversations."""

from __future__ import annotations

from bisect import bisect_left, bisect_right
from collections import Counter, deque
from copy import copy
from typing import Any, NamedTuple

from .clients import ClientTalk, OperatorTalk
from .pool import Pool
from .rules import Verifier
from .talk import Talk, fits

# The first words of lines that may change the pool.
CHANGES = ("submit", "give", "remove", "sync", "adopt", "back")
# After so many orders that contradict some answer no other one is tried.
MOST_TRIES = 20_000
# So much of a line or an answer is told.
MOST_TOLD = 400


class Contradiction(Exception):
    """No order of the changes explains an answer."""

    def __init__(self, said: str, changes: int = 0) -> None:
        super().__init__(said)
        self.changes = changes  # How many changes explained all answers before.


class Heard(NamedTuple):
    """What was said in a conversation, and answered: line for line."""

    lines: list[bytes]
    answers: list[str]
    rounds: list[int]  # A round begins once all lines of the one before are answered.


class Entry(NamedTuple):
    """A change of the pool: whose it is, and which of its lines."""

    conversation: int
    line: int


def first_word(line: bytes) -> str:
    return (line.decode("latin-1").split(maxsplit=1) or [""])[0]


def changes_of(heard: Heard, firsts: tuple[str, ...], answered: str) -> list[int]:
    """Gives the lines with one of these first words whose answer begins with the word of a change."""
    return [
        place
        for place, (line, answer) in enumerate(zip(heard.lines, heard.answers))
        if answer.startswith(f"{answered} ") and first_word(line) in firsts
    ]


def ticket_in(answer: str) -> int:
    return int(answer.split(" ")[1])


def tickets_in(answer: str) -> list[int]:
    return [int(word) for word in answer.split(" ") if word.isdigit()]


def tell(text: str) -> str:
    return repr(text if len(text) <= MOST_TOLD else f"{text[:MOST_TOLD]}..")


class Follower:
    """A conversation, and how much of it is explained."""

    def __init__(self, number: int, heard: Heard, talk: Talk, start: int) -> None:
        self.number, self.heard, self.talk = number, heard, talk
        self.next = start
        self.anchor = 0  # So many changes there are at least at the last line, in whatever order, that says so.
        self.changes: set[int] = set()
        self.bounds = self._find_bounds()
        self.expected = ""  # The model's answer that the next line didn't have.

    def _find_bounds(self) -> list[int | None]:
        """Gives for each line a number of changes that there are at most: that of the next answer to `stats`."""
        bounds: list[int | None] = []
        bound = None
        for line, answer in zip(reversed(self.heard.lines), reversed(self.heard.answers)):
            if answer.startswith("stats ") and line.split() == [b"stats"]:
                bound = int(answer.split(" ")[5])
            bounds.append(bound)
        return bounds[::-1]

    @property
    def is_finished(self) -> bool:
        return self.next == len(self.heard.lines)

    def save(self) -> tuple[Any, ...]:
        talk = self.talk
        staged = (talk.staged, talk.staged_outputs)
        return self.next, self.anchor, talk.names.copy(), talk.tells_ids, dict(talk.refused), talk.lines, talk.offered, staged

    def restore(self, saved: tuple[Any, ...]) -> None:
        talk = self.talk
        self.next, self.anchor, names, talk.tells_ids, refused, talk.lines, talk.offered, staged = saved
        talk.staged, talk.staged_outputs = staged
        talk.names, talk.refused = names.copy(), Counter(refused)

    def take_step(self, pool: Pool) -> Pool | None:
        """Goes on by a line if this pool explains its answer, and gives the pool afterwards."""
        answer = self.heard.answers[self.next]
        if self._is_of_another(pool, answer):
            return None
        saved = self.save()
        self.talk.pool = copy(pool)
        self.expected = self.talk.hear(self.heard.lines[self.next])
        if not fits(answer, self.expected):
            self.restore(saved)
            return None
        self.next += 1
        return self.talk.pool

    def _is_of_another(self, pool: Pool, answer: str) -> bool:
        """Sees by the numbers of an answer that it is about another pool; most times that is soon seen."""
        words = answer.split(" ", 6)
        if words[0] == "stats" and len(words) > 5 and words[5] != str(pool.changes):
            self.expected = f"stats with {pool.changes} changes"
            return True
        if words[0] == "snapshot" and len(words) > 3 and words[3] != str(pool.last):
            self.expected = f"snapshot with the last ticket {pool.last}"
            return True
        return False

    def advance(self, pool: Pool) -> None:
        """Explains as many of its next lines as this pool does, up to one that made a change."""
        while not self.is_finished and self.next not in self.changes:
            if self.take_step(pool) is None:
                break
            if self.heard.answers[self.next - 1].startswith("stats "):
                self.anchor = pool.changes
        if self.is_finished or self.next in self.changes:
            return
        bound = self.bounds[self.next]
        if bound is not None and bound <= pool.changes:
            raise self.contradiction(pool)

    def contradiction(self, pool: Pool) -> Contradiction:
        line, answer = self.heard.lines[self.next].decode("latin-1"), self.heard.answers[self.next]
        said = f"conversation {self.number}, line {self.next + 1}: {tell(line)}\nanswered: {tell(answer)}\n"
        return Contradiction(f"{said}expected: {tell(self.expected)} after {pool.changes} changes", pool.changes)


class Bounds:
    """Between how many accepted submits each other change of the pool may come. All these are the operator's."""

    def __init__(self, heard: list[Heard], last: int) -> None:
        """Reads the answers. The pool opened with the last ticket."""
        self.heard, self.last = heard, last
        self._check_clients()
        self.submits = self._order_submits()
        operator = heard[0]
        self.kept = set(changes_of(operator, ("sync", "adopt", "back"), "kept"))
        self.others = sorted({*self.kept, *changes_of(operator, ("remove",), "removed")})
        self.listed = [self._most_listed(place) for place in self.others]
        self.least = list(self.listed)
        self.most = [len(self.submits)] * len(self.others)
        self._bound_by_rounds()
        self._bound_by_own_submits()
        self._bound_by_stats()
        self._bound_by_each_other()

    def _check_clients(self) -> None:
        """Only the operator's lines may be answered as what only it may ask."""
        for number, heard in enumerate(self.heard[1:], 1):
            for place, answer in enumerate(heard.answers):
                if answer.startswith(("removed ", "kept ")):
                    raise Contradiction(f"{self._tell(Entry(number, place))}, though only the operator may ask it")

    def _tell(self, entry: Entry) -> str:
        heard = self.heard[entry.conversation]
        line, answer = heard.lines[entry.line].decode("latin-1"), heard.answers[entry.line]
        return f"conversation {entry.conversation}, line {entry.line + 1}: {tell(line)} was answered {tell(answer)}"

    def _order_submits(self) -> list[Entry]:
        """Gives the accepted submits by their tickets. Each ticket was given once, and later ones later."""
        by_ticket: dict[int, Entry] = {}
        for number, heard in enumerate(self.heard):
            before = self.last
            for line in changes_of(heard, ("submit", "give"), "accepted"):
                ticket = ticket_in(heard.answers[line])
                if ticket in by_ticket:
                    first, second = self._tell(by_ticket[ticket]), self._tell(Entry(number, line))
                    raise Contradiction(f"ticket {ticket} was given twice:\n{first}\n{second}")
                if ticket < before:
                    raise Contradiction(f"{self._tell(Entry(number, line))}, after ticket {before}")
                by_ticket[ticket], before = Entry(number, line), ticket
        for place, ticket in enumerate(sorted(by_ticket), self.last + 1):
            if ticket != place:
                raise Contradiction(f"ticket {ticket} was given, and ticket {place} never")
        return [by_ticket[ticket] for ticket in sorted(by_ticket)]

    def _round_of(self, entry: Entry) -> int:
        return self.heard[entry.conversation].rounds[entry.line]

    def _most_listed(self, line: int) -> int:
        """Gives how many submits there were up to the newest transaction in an answer of the operator's."""
        count = max(tickets_in(self.heard[0].answers[line]), default=self.last) - self.last
        if count > len(self.submits):
            raise Contradiction(f"{self._tell(Entry(0, line))}, with a ticket that was never given")
        return count

    def _bound_by_rounds(self) -> None:
        rounds = [self._round_of(entry) for entry in self.submits]
        for one, other, entry in zip(rounds, rounds[1:], self.submits):
            if one > other:
                raise Contradiction(f"{self._tell(entry)}, before a submit that was answered before this one was asked")
        for place, line in enumerate(self.others):
            own = self.heard[0].rounds[line]
            self._bound(place, bisect_left(rounds, own), bisect_right(rounds, own))

    def _bound(self, place: int, least: int, most: int) -> None:
        self.least[place] = max(self.least[place], least)
        self.most[place] = min(self.most[place], most)

    def _bound_by_own_submits(self) -> None:
        own = [(entry.line, count) for count, entry in enumerate(self.submits) if entry.conversation == 0]
        before, after = [0, *(count + 1 for _, count in own)], [*(count for _, count in own), len(self.submits)]
        for place, line in enumerate(self.others):
            at = bisect_left(own, (line, 0))
            self._bound(place, before[at], after[at])

    def _bound_by_stats(self) -> None:
        """The answers to `stats` have the number of changes and the last ticket."""
        for heard in self.heard:
            for answer in heard.answers:
                if not answer.startswith("stats "):
                    continue
                last, changes = map(int, answer.split(" ")[4:6])
                submits = last - self.last
                others = changes - submits
                if 0 < others <= len(self.others):
                    self.most[others - 1] = min(self.most[others - 1], submits)
                if 0 <= others < len(self.others):
                    self.least[others] = max(self.least[others], submits)

    def _bound_by_each_other(self) -> None:
        for place in range(1, len(self.others)):
            self.least[place] = max(self.least[place - 1 : place + 1])
        for place in range(len(self.others) - 1, 0, -1):
            if self.others[place] in self.kept:
                # What came just before it is in the pool, unless it was taken out just before.
                newest = max(self.least[place - 1], self.listed[place])
                self.most[place - 1] = min(self.most[place - 1], newest)
            self.most[place - 1] = min(self.most[place - 1 : place + 1])
        for line, least, most in zip(self.others, self.least, self.most):
            if least > most:
                told = f"by other answers it comes after {least} accepted submits, and when there are no more than {most}"
                raise Contradiction(f"{self._tell(Entry(0, line))}\n{told}")

    def may_come(self, place: int, submits: int) -> bool:
        """Says whether this other change may come after so many submits."""
        return place < len(self.others) and submits >= self.least[place]

    def has_to_come(self, place: int, submits: int) -> bool:
        """Says whether it may not come later, given that all others before it have come."""
        if place == len(self.others):
            return False
        # It lists all that the pool holds.
        lists_all = self.others[place] in self.kept and submits >= self.listed[place]
        return submits >= self.most[place] or lists_all


class Choice(NamedTuple):
    """A point at which another change came, and might come later."""

    submits: int
    others: int
    pool: Pool
    followers: list[tuple[Any, ...]]
    end: int  # After so many changes it makes no difference when it came.


class Search:
    """Goes through the changes in order. Where a change of the operator's may have come earlier or later it tries both."""

    def __init__(self, heard: list[Heard], verifier: Verifier) -> None:
        operator = OperatorTalk(verifier)
        start = self._open(operator, heard[0])
        assert operator.as_opened
        self.pool = operator.as_opened
        talks = [operator, *(ClientTalk(verifier, self.pool) for _ in heard[1:])]
        self.followers = [Follower(number, *both, 0) for number, both in enumerate(zip(heard, talks))]
        self.followers[0].next = start
        self.bounds = Bounds(heard, self.pool.last)
        for entry in [*self.bounds.submits, *(Entry(0, line) for line in self.bounds.others)]:
            self.followers[entry.conversation].changes.add(entry.line)
        self.submits = self.others = 0
        self.choices: deque[Choice] = deque()

    @staticmethod
    def _open(operator: OperatorTalk, heard: Heard) -> int:
        """Explains the lines up to the one that opens the pool, and gives this."""
        follower = Follower(0, heard, operator, 0)
        while not follower.is_finished:
            before, line = follower.save(), heard.lines[follower.next]
            told = operator.hear(line)
            if operator.as_opened:
                follower.restore(before)
                return follower.next
            if not fits(heard.answers[follower.next], told):
                answer = heard.answers[follower.next]
                raise Contradiction(f"line {follower.next + 1} of the operator: {line!r}\nanswered: {answer!r}\nexpected: {told!r}")
            follower.next += 1
        raise Contradiction("no line of the operator opens the pool")

    def explain(self) -> int:
        """Gives the number of changes."""
        best = Contradiction("", -1)
        begin = self._advance_all
        for _ in range(MOST_TRIES):
            try:
                begin()
                while not self._is_done():
                    self._place_next()
                return self.pool.changes
            except Contradiction as found:
                best = max(best, found, key=lambda one: one.changes)
            if not self.choices:
                break
            self._go_back()
            # What came there comes later.
            begin = self._place_submit
        raise best

    def _is_done(self) -> bool:
        return self.submits == len(self.bounds.submits) and self.others == len(self.bounds.others)

    def _place_next(self) -> None:
        place, submits = self.others, self.submits
        forced = self.bounds.has_to_come(place, submits) or submits == len(self.bounds.submits)
        if forced or self.bounds.may_come(place, submits):
            if not forced:
                end = self.bounds.most[place] + place + 1
                self.choices.append(Choice(submits, place, self.pool, [one.save() for one in self.followers], end))
            self.others += 1
            self._place(Entry(0, self.bounds.others[place]), place + 1 + self.bounds.least[place])
        else:
            self._place_submit()

    def _place_submit(self) -> None:
        self.submits += 1
        others_before = bisect_left(self.bounds.most, self.submits)
        self._place(self.bounds.submits[self.submits - 1], self.submits + others_before)

    def _place(self, entry: Entry, least: int) -> None:
        """Makes a change, and lets all look at the pool after it. In any order there are at least so many changes then."""
        one = self.followers[entry.conversation]
        if one.next != entry.line:
            raise one.contradiction(self.pool)
        after = one.take_step(self.pool)
        if after is None or after.changes != self.pool.changes + 1:
            raise one.contradiction(self.pool)
        after.unspent()
        self.pool, one.anchor = after, least
        self._advance_all()

    def _advance_all(self) -> None:
        for one in self.followers:
            one.advance(self.pool)
        for one in self.followers:
            if self._is_done() and not one.is_finished:
                raise one.contradiction(self.pool)
        while self.choices and all(one.is_finished or one.anchor >= self.choices[0].end for one in self.followers):
            self.choices.popleft()

    def _go_back(self) -> None:
        """Goes back to the last choice."""
        choice = self.choices.pop()
        self.submits, self.others, self.pool = choice.submits, choice.others, choice.pool
        for one, saved in zip(self.followers, choice.followers):
            one.restore(saved)


def explain(heard: list[Heard], verifier: Verifier) -> int:
    """Finds one order of all changes that explains every answer, and gives how many changes there are.

    The first conversation is the operator's. Raises a Contradiction where there is no such order.
    """
    return Search(heard, verifier).explain()
