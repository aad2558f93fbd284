"""What a gateway knows of a pool, and the files that have it.

A ledger file has settings and `utxo` lines of a conversation, and blank lines and comments:

    block 500000
    tick 7
    utxo 00..00#0 4bf5..64

A state file has the same lines, then `give HEX` for each transaction of the pool, oldest first,
and `end` as its last line.
"""

from __future__ import annotations

import contextlib
import os
from collections.abc import Iterable, Iterator
from dataclasses import dataclass, field

from keltuvar import words

from .transactions import Reference, format_reference, make_reference


@dataclass(slots=True)
class State:
    """A ledger state, the settings of a pool, and what it holds."""

    block: int = 500_000
    last: int = 0
    tick: int = 0
    limit: int | None = None
    outputs: dict[Reference, bytes] = field(default_factory=dict)
    transactions: list[bytes] = field(default_factory=list)

    def settings(self) -> Iterator[str]:
        """Returns the lines of the settings."""
        if self.limit is not None:
            yield f"limit {words.format_number(self.limit)}"
        for word in ("block", "last", "tick"):
            yield f"{word} {words.format_number(getattr(self, word))}"

    def utxo_lines(self) -> Iterator[str]:
        """Returns the lines of the outputs."""
        for reference, data in self.outputs.items():
            yield f"utxo {format_reference(reference)} {data.hex()}"


class BadFile(Exception):
    """A ledger file or a state file that can't be read. Its text says where and why."""


def _read_line(state: State, line: str) -> None:
    """Adds what a line says to a state."""
    match line.split():
        case ["block" | "last" | "tick" | "limit" as word, number]:
            setattr(state, word, words.read_number(number))
        case ["utxo", reference, data]:
            transaction_id, _, index = reference.partition("#")
            words.format_output_id(transaction_id, words.read_number(index))
            state.outputs[make_reference(transaction_id, int(index))] = bytes.fromhex(data)
        case ["give", data]:
            state.transactions.append(bytes.fromhex(data))
        case _:
            raise ValueError(f"no line of such a file is {line!r:.60}")


def _read_lines(path: str, lines: Iterable[str]) -> tuple[State, bool]:
    """Returns what the lines say, and whether the last of them is `end`."""
    state, ended = State(), False
    for number, line in enumerate(lines, 1):
        text = line.strip()
        if ended:
            raise BadFile(f"{path}: line {number}: a line follows 'end'")
        ended = text == "end"
        if text and not text.startswith("#") and not ended:
            try:
                _read_line(state, text)
            except ValueError as error:
                raise BadFile(f"{path}: line {number}: {error}") from None
    return state, ended


def read_state(path: str, *, whole: bool) -> State:
    """Reads a file. A whole one has the line `end`, so that a part of a file isn't taken for it."""
    try:
        with open(path, encoding="ascii", errors="backslashreplace") as file:
            state, ended = _read_lines(path, file)
    except OSError as error:
        raise BadFile(f"{path}: {error.strerror}") from None
    if whole and not ended:
        raise BadFile(f"{path}: the last line isn't 'end', so a part is missing")
    return state


def write_state(path: str, state: State) -> None:
    """Writes a state file next to the one of this path, and puts it in its place.

    Whatever happens meanwhile, the path has the former file or the new one, each whole.
    """
    beside = f"{path}.new"
    try:
        with open(os.open(beside, os.O_WRONLY | os.O_CREAT | os.O_TRUNC, 0o600), "w") as file:
            file.writelines(f"{line}\n" for line in state.settings())
            file.writelines(f"{line}\n" for line in state.utxo_lines())
            file.writelines(f"give {data.hex()}\n" for data in state.transactions)
            file.write("end\n")
            file.flush()
            os.fsync(file.fileno())
        os.replace(beside, path)
    except OSError:
        with contextlib.suppress(OSError):
            os.unlink(beside)
        raise
    folder = os.open(os.path.dirname(path) or ".", os.O_RDONLY)
    try:
        os.fsync(folder)
    finally:
        os.close(folder)
