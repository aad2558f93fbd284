"""What a connection of the client socket talks to."""

from __future__ import annotations

import re
from collections import Counter
from collections.abc import Awaitable, Callable
from dataclasses import replace

from keltuvar import Refused, Stats, Undecodable, answers, error_in, words

from .backend import Backend, Session
from .holdings import Held
from .limits import MOST_BODY
from .program import Down

_HASH_ID = re.compile("#[0-9a-fA-F]{64}")
_HEX = re.compile("([0-9a-fA-F]{2})+")
_ALL = 2**32
# The first words of lines that declare nothing, so that no client makes the pool's process grow.
_FIRST_WORDS = (
    *("give", "show", "check", "has"),
    *("snapshot", "after", "lookup", "take", "offer", "stats"),
)


def _format_items(transactions: tuple[Held, ...]) -> str:
    return "".join(f" {held.ticket}:{held.id}" for held in transactions)


def _format_stats(stats: Stats) -> str:
    numbers = (stats.count, stats.size, stats.free, stats.last_ticket, stats.changes)
    counts = (f"{word} {count}" for word, count in stats.refusals.items() if count)
    return " ".join(["stats", *map(str, numbers), *counts])


def _read_number(word: str) -> int:
    return int(words.format_number(words.read_number(word)))


class SharedSession(Session):
    """A session without a conversation of its own."""

    def __init__(self, pool: Backend) -> None:
        self._pool = pool

    async def ask(self, line: str) -> str:
        match line.split():
            case ["give", digits]:
                return await self._give(digits)
            case ["show", word]:
                return self._show(word)
            case ["has", word]:
                return "has yes" if self._find(word) else "has no"
            case ["snapshot"]:
                view = await self._pool.snapshot()
                numbers = (view.stats.count, view.stats.size, view.stats.last_ticket)
                return " ".join(map(str, ("snapshot", *numbers))) + _format_items(view.transactions)
            case ["after", ticket]:
                return "after" + _format_items(await self._pool.after(_read_number(ticket), _ALL))
            case ["lookup", ticket]:
                found = await self._pool.lookup(_read_number(ticket))
                return f"lookup {found.id if found else 'none'}"
            case ["stats"]:
                _, stats = await self._pool.stats()
                return _format_stats(stats)
        raise ValueError(
            "a line is give HEX, show #ID, has #ID, snapshot, after N, lookup N or stats"
        )

    def end(self) -> None:
        """Nothing was its own."""

    async def _give(self, digits: str) -> str:
        if not _HEX.fullmatch(digits):
            raise ValueError(f"'{digits:.40}' isn't pairs of hexadecimal digits")
        data = bytes.fromhex(digits)
        if len(data) > MOST_BODY:
            return "undecodable large"
        receipt = await self._pool.submit(data)
        match receipt.error:
            case None:
                return f"accepted {receipt.ticket} {receipt.id}"
            case Undecodable(fault=fault):
                return f"undecodable {fault}"
            case Refused(word=word, details=details):
                return " ".join(["refused", word, *details, str(receipt.id)])
            case error:
                raise error

    def _show(self, word: str) -> str:
        held = self._find(word)
        if held is None:
            raise ValueError(f"no transaction '{word}'")
        return f"tx {len(held.data)} {held.id} {held.data.hex()}"

    def _find(self, word: str) -> Held | None:
        """Returns the transaction that `#ID` means."""
        if not _HASH_ID.fullmatch(word):
            raise ValueError(f"'{word:.70}' isn't # and 64 hexadecimal digits")
        if not self._pool.running:
            raise Down("the pool's process isn't there")
        return self._pool.find(word[1:].lower())


class OwnSession(Session):
    """A session with a conversation of its own, which nobody else uses meanwhile."""

    def __init__(
        self, ask: Callable[[str], Awaitable[str]], end: Callable[[], None], stats: str
    ) -> None:
        """The calls send a line and give the conversation back. Its `stats` were these before."""
        self._ask, self._end = ask, end
        error = error_in(stats)
        if error is not None:
            raise error
        self._before = Counter(answers.read_stats(stats).refusals)

    async def ask(self, line: str) -> str:
        first, *rest = line.split() or [""]
        if first not in _FIRST_WORDS:
            raise ValueError(f"a line begins with {', '.join(_FIRST_WORDS[:-1])} or stats")
        ids = [word.lower() if _HASH_ID.fullmatch(word) else word for word in rest]
        answer = await self._ask(" ".join([first, *ids]))
        return self._without_former(answer) if answer.startswith("stats ") else answer

    def end(self) -> None:
        self._end()

    def _without_former(self, answer: str) -> str:
        """Returns `stats` with the refusals of this session alone."""
        stats = answers.read_stats(answer)
        own = {word: count - self._before[word] for word, count in stats.refusals.items()}
        return _format_stats(replace(stats, refusals=own))
