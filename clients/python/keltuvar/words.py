"""The words of a line: how arguments are written into it, and how those of an answer are read.

Each `format_` function returns one word of a line, or raises a ValueError. No such word has a
space or a line feed in it, so an argument is never more than the word it stands for.
"""

from __future__ import annotations

import re
from collections.abc import Iterable, Mapping

from .values import Input, Output

MOST_NUMBER = 2**64 - 1
"""The greatest number of a line or an answer."""

_MOST_QUANTITY = 2**63 - 1
_NAME = re.compile("[a-z][a-z0-9]{0,15}")
_REFERENCE = re.compile(r"[a-z][a-z0-9]{0,15}(\.[0-9]{1,20})?")
_TOKEN = re.compile(r"[a-z][a-z0-9]{0,15}(\.[a-z0-9]{1,32})?")
_ID = re.compile("[0-9a-fA-F]{64}")
_TRANSACTION = re.compile("[a-z][a-z0-9]{0,15}|#[0-9a-f]{64}")
_READ_ID = re.compile("[0-9a-f]{64}")
_LINE = re.compile("[ -~]*")
_DIGITS = re.compile("[0-9]+")


def _format_match(pattern: re.Pattern[str], text: object, what: str) -> str:
    if not isinstance(text, str) or not pattern.fullmatch(text):
        raise ValueError(f"{text!r:.80} is no {what}")
    return text


def format_line(line: object) -> str:
    """Returns a line of a conversation, which has only ASCII text and no line feed."""
    return _format_match(_LINE, line, "line: it has to be printable ASCII without a line feed")


def format_lines(lines: object) -> list[str]:
    """Returns several lines."""
    return [format_line(line) for line in check_list(lines)]


def format_name(name: object) -> str:
    """Returns a name: a lower-case letter, and then up to 15 lower-case letters or digits."""
    return _format_match(_NAME, name, "name: a lower-case letter, and up to 15 more or digits")


def format_transaction_name(name: object) -> str:
    """Returns a new transaction's name. It isn't `none`, which `lookup` answers without one."""
    if name == "none":
        raise ValueError("no transaction can be called 'none', which means that there is none")
    return format_name(name)


def format_transaction(word: object) -> str:
    """Returns a transaction's name, or `#` and the 64 lower-case digits of its id."""
    return _format_match(_TRANSACTION, word, "name, nor '#' and an id of 64 lower-case digits")


def format_transactions(transactions: object) -> list[str]:
    """Returns several names or ids."""
    return [format_transaction(word) for word in check_list(transactions)]


def format_names(names: object) -> list[str]:
    """Returns several names."""
    return [format_name(name) for name in check_list(names)]


def format_some(some: list[str]) -> list[str]:
    """Returns these words, at least one."""
    if not some:
        raise ValueError("there is no name")
    return some


def format_reference(reference: object) -> str:
    """Returns a reference: the name of an opening output, or `TX.K`, output K of a transaction."""
    return _format_match(_REFERENCE, reference, "reference: 'NAME' or 'TX.K'")


def format_references(references: object) -> list[str]:
    """Returns several references."""
    return [format_reference(reference) for reference in check_list(references)]


def check_list(words: object) -> Iterable[object]:
    """Returns a list. Neither a text nor a mapping counts as one."""
    if isinstance(words, (str, bytes, Mapping)) or not isinstance(words, Iterable):
        raise ValueError(f"{words!r:.80} isn't a list")
    return words


def format_number(number: object, most: int = MOST_NUMBER) -> str:
    """Returns a number from 0 to the most."""
    if not isinstance(number, int) or isinstance(number, bool) or not 0 <= number <= most:
        raise ValueError(f"{number!r:.80} is no number from 0 to {most}")
    return str(int(number))


def format_keys(keys: object) -> list[str]:
    """Returns several keys of signatures, each a byte."""
    return [format_number(key, 255) for key in check_list(keys)]


def format_bytes(data: object) -> str:
    """Returns the hexadecimal digits of at least one byte."""
    if not isinstance(data, (bytes, bytearray, memoryview)) or not len(data):
        raise ValueError(f"{data!r:.80} isn't bytes, or there are none")
    return data.hex()


def format_output_id(transaction_id: object, index: object) -> str:
    """Returns the reference `ID#INDEX` of an output."""
    digits = _format_match(_ID, transaction_id, "id: 64 hexadecimal digits")
    return f"{digits}#{format_number(index, 65535)}"


def format_ids(ids: object) -> list[str]:
    """Returns the words `#ID` of several ids, each of 64 lower-case digits."""
    form = "id: 64 lower-case hexadecimal digits"
    return [f"#{_format_match(_READ_ID, digits, form)}" for digits in check_list(ids)]


def _format_entry(token: object, quantity: object) -> str:
    word = _format_match(_TOKEN, token, "token: 'coin', 'POLICY' or 'POLICY.TOKEN'")
    if not isinstance(quantity, int) or isinstance(quantity, bool):
        raise ValueError(f"{quantity!r:.80} is no quantity")
    if not 1 <= abs(quantity) <= _MOST_QUANTITY:
        raise ValueError(f"{quantity} is no quantity: 1 to 2^63 - 1, or less than 0")
    return f"{int(quantity)}*{word}"


def format_bundle(bundle: object) -> str:
    """Returns a bundle: its entries with commas between them, or `-` if there are none."""
    tokens = bundle if isinstance(bundle, Mapping) else {"coin": bundle}
    return ",".join(_format_entry(token, tokens[token]) for token in tokens) or "-"


def _format_chain(first: str, mark: str, names: Iterable[object]) -> str:
    """Adds names to the first word: the mark before the first, and `/` before each other one."""
    chain = list(names)
    while chain and chain[-1] is None:
        chain.pop()
    if None in chain:
        raise ValueError("a datum needs a script before it, and a redeemer needs a datum")
    return first + "".join(
        (mark if place == 0 else "/") + format_name(name) for place, name in enumerate(chain)
    )


def format_output(output: object) -> str:
    """Returns what an output pays: an `Output`, or a bundle that `yes` locks."""
    if not isinstance(output, Output):
        return format_bundle(output)
    return _format_chain(format_bundle(output.bundle), "@", (output.script, output.datum))


def format_input(spent: object) -> str:
    """Returns an input: an `Input`, or the reference of the output that it spends."""
    if not isinstance(spent, Input):
        return format_reference(spent)
    parts = (spent.script, spent.datum, spent.redeemer)
    return _format_chain(format_reference(spent.reference), ":", parts)


def is_id(word: str) -> bool:
    """Returns whether a word of an answer is an id."""
    return _READ_ID.fullmatch(word) is not None


def read_id(word: str) -> str:
    """Reads an id of an answer."""
    if not is_id(word):
        raise ValueError(f"{word!r} is no id")
    return word


def read_number(word: str) -> int:
    """Reads a number of an answer."""
    if not _DIGITS.fullmatch(word):
        raise ValueError(f"{word!r} is no number")
    return int(word)
