"""Reading answers. What isn't an answer to the line raises a ValueError."""

from __future__ import annotations

from .errors import BadLine, KeltuvarError, OutOfMemory, Refused, Undecodable
from .values import Block, Declared, Given, Item, LedgerChange, Removed, Shown, Snapshot, Stats
from .words import read_id, read_number


def error_in(answer: str) -> KeltuvarError | None:
    """Returns the error that an answer reports, or None if it reports none."""
    first, *words = answer.split(" ")
    match first, words:
        case "refused", [word, *details]:
            return Refused(word, *details)
        case "undecodable", [fault]:
            return Undecodable(fault)
        case "bad", [_, *_]:
            number, colon, reason = answer.removeprefix("bad ").partition(": ")
            if not colon:
                raise ValueError("a bad line without a reason")
            return BadLine(read_number(number), reason)
        case "fault:", ["no", "memory"]:
            return OutOfMemory()
        case ("refused" | "undecodable" | "bad" | "fault:"), _:
            raise ValueError("an error of no known form")
    return None


def _read_words(answer: str, first: str) -> list[str]:
    """Returns the words after the first, which must be this one."""
    word, *words = answer.split(" ")
    if word != first:
        raise ValueError(f"it doesn't begin with '{first}'")
    return words


def _read_word(answer: str, first: str) -> str:
    """Returns the only word after the first."""
    (word,) = _read_words(answer, first)
    return word


def _read_items(words: list[str]) -> tuple[Item, ...]:
    """Reads words that consist of a ticket, a colon and a name."""
    pairs = (word.split(":") for word in words)
    return tuple(Item(read_number(ticket), name) for ticket, name in pairs)


def _read_numbers(words: list[str]) -> tuple[int, ...]:
    return tuple(read_number(word) for word in words)


def _read_tickets(answer: str, first: str) -> tuple[tuple[int, ...], tuple[int, ...]]:
    """Reads the tickets before the word `dropped`, and those after it."""
    words = _read_words(answer, first)
    place = words.index("dropped")
    return _read_numbers(words[:place]), _read_numbers(words[place + 1 :])


def read_ok(answer: str) -> None:
    if answer != "ok":
        raise ValueError("it isn't 'ok'")


def read_declared(answer: str) -> Declared:
    size, transaction_id = _read_words(answer, "tx")
    return Declared(read_number(size), transaction_id)


def read_shown(answer: str) -> Shown:
    size, transaction_id, digits = _read_words(answer, "tx")
    return Shown(read_number(size), transaction_id, bytes.fromhex(digits))


def read_ticket(answer: str) -> int:
    return read_number(_read_word(answer, "accepted"))


def read_given(answer: str) -> Given:
    ticket, transaction_id = _read_words(answer, "accepted")
    return Given(read_number(ticket), read_id(transaction_id))


def read_removed(answer: str) -> Removed:
    return Removed(*_read_tickets(answer, "removed"))


def read_ledger_change(answer: str) -> LedgerChange:
    return LedgerChange(*_read_tickets(answer, "kept"))


def read_forgotten(answer: str) -> int:
    return read_number(_read_word(answer, "forgotten"))


def read_staged(answer: str) -> int:
    return read_number(_read_word(answer, "staged"))


def read_snapshot(answer: str) -> Snapshot:
    count, size, last, *items = _read_words(answer, "snapshot")
    return Snapshot(read_number(count), read_number(size), read_number(last), _read_items(items))


def read_after(answer: str) -> tuple[Item, ...]:
    return _read_items(_read_words(answer, "after"))


def read_kept_for(answer: str) -> tuple[Item, ...]:
    return _read_items(_read_words(answer, "for"))


def read_offer(answer: str) -> tuple[Item, ...]:
    return _read_items(_read_words(answer, "offer"))


def read_lookup(answer: str) -> str | None:
    name = _read_word(answer, "lookup")
    return None if name == "none" else name


def read_has(answer: str) -> bool:
    word = _read_word(answer, "has")
    if word not in ("yes", "no"):
        raise ValueError("it is neither yes nor no")
    return word == "yes"


def _read_block(answer: str, first: str) -> Block:
    count, size, *items = _read_words(answer, first)
    return Block(read_number(count), read_number(size), _read_items(items))


def read_take(answer: str) -> Block:
    return _read_block(answer, "take")


def read_block(answer: str) -> Block:
    return _read_block(answer, "block")


def read_stats(answer: str) -> Stats:
    words = _read_words(answer, "stats")
    count, size, free, last, changes = _read_numbers(words[:5])
    refusals = zip(words[5::2], _read_numbers(words[6::2]), strict=True)
    return Stats(count, size, free, last, changes, dict(refusals))
