"""Histories of served pools: lines of a conversation alone, each with its answer."""

from __future__ import annotations

from collections import defaultdict

from .orders import CHANGES, Contradiction, Heard, first_word
from .rules import Verifier
from .talk import LONGEST_CLEAN, Bad, Talk

# The first words of the answers to lines that changed the pool.
MADE = ("accepted", "removed", "kept")
# A ticket follows the first word.
OF_ACCEPTED = 2


def check_history(text: bytes, heard: list[Heard], verifier: Verifier) -> int:
    """Gives how many entries the history has. Raises a Contradiction where the model of docs/SERVE.md answers otherwise alone, or where a
    conversation was told of other changes, or in another order."""
    told = _replay(text, verifier)
    for caller, one in enumerate(heard):
        made = [_without_id(answer) for line, answer in zip(one.lines, one.answers) if _is_change(line, answer)]
        if told[caller] != made:
            raise Contradiction(f"conversation {caller} was told of {len(made)} changes: {_first_difference(made, told[caller])}")
    if len(told) > len(heard):
        raise Contradiction("the history has an entry of nobody")
    return sum(map(len, told.values()))


def _replay(text: bytes, verifier: Verifier) -> dict[int, list[str]]:
    """Gives the answers of the entries of each caller."""
    *lines, rest = text.split(b"\n")
    if rest or len(lines) % 2:
        raise Contradiction("the history doesn't end with an answer")
    talk = Talk(verifier)
    told: dict[int, list[str]] = defaultdict(list)
    for place, (line, answer) in enumerate(zip(lines[::2], lines[1::2])):
        wanted, given = _hear(talk, line), answer.decode("latin-1")
        if given.startswith("entry "):
            _, number, caller, given = given.split(" ", 3)
            if number != str(sum(map(len, told.values()))):
                raise Contradiction(f"entry {number} of the history has another place")
            told[int(caller)].append(_without_id(given))
        if given != wanted:
            raise Contradiction(f"line {2 * place + 1} of the history is answered {given!r}, and alone {wanted!r}")
    return told


def _hear(talk: Talk, line: bytes) -> str:
    """Gives the answer to a line, of which a `remove` may be longer than in a conversation."""
    first, *words = line.decode("latin-1").split(" ")
    if first != "remove" or len(line) <= LONGEST_CLEAN:
        return talk.hear(line)
    take, _, _ = talk.LINES[first]
    try:
        return take(talk, *words)
    except Bad:
        return "bad"


def _is_change(line: bytes, answer: str) -> bool:
    return answer.split(" ", 1)[0] in MADE and first_word(line) in CHANGES


def _without_id(answer: str) -> str:
    """Gives an answer without the id that comes with a transaction that has no name."""
    words = answer.split(" ")
    return " ".join(words[:OF_ACCEPTED] if words[0] == "accepted" else words)


def _first_difference(made: list[str], told: list[str]) -> str:
    pairs = enumerate(zip([*made, "nothing"], [*told, "nothing"]))
    return next(f"number {place} is {one!r}, and {other!r} in the history" for place, (one, other) in pairs if one != other)
