"""What is spoilt at random: the bytes of transactions, and lines."""

from __future__ import annotations

from collections.abc import Callable
from random import Random

from repository import read_talk_words

from . import data, expressions
from .transactions import Field, Parts, Signature, of_number, sign, spell_body, spell_signatures

EDGES_OF_COUNTS = (0, 0, 1, 2, 256, 257, 257, 300, 65535)
STRANGE_BYTES = b"\t\r\x00\x7f\x80\xff"
TYPED = " #-.,*@/:=_0aZ9~"
NUMBERS = [
    "0", "00", "-0", "-1", "+5", "007", "65535", "65536", "255", "256", "4294967296", "4294967297", "549755813888",
    "549755813889", "9223372036854775807", "9223372036854775808", "-9223372036854775807", "18446744073709551615",
    "18446744073709551616", "00000000000000000001", "000000000000000000001", "0000000000000000001", "1e3", "0x1",
]  # fmt: skip
FIRST_WORDS = [*read_talk_words(), "Submit", "submits", "end", "help", "exit"]
DIGITS = ["0", "01", "0G", "00", "010", "030000", "03 0000", "0x01", "01,", "0A", "0a", "Ab", "030000030000"]
REFS = [
    "0" * 64 + "#9", "a" * 64 + "#0", "A" * 64 + "#0", "a" * 63 + "#0", "a" * 65 + "#0", "a" * 64, "a" * 64 + "#", "#0",
    "a" * 64 + "#65535", "a" * 64 + "#65536", "a" * 64 + "#007", "a" * 64 + "#0#0", "a" * 64 + "#-1", "a" * 64 + "#1.0",
    "g" * 64 + "#0", "a" * 66 + "#0", "a" * 64 + ".0", "a" * 62 + "#0",
]  # fmt: skip
OUTPUTS = ["0a" * 64 + "0000", "0A" * 64 + "0000", "0a" * 64 + "000", "0a" * 64, "0a" * 64 + "000000", "0a" * 64 + "0001"]
SHOWN = ["", "yes", "no", "unit", "yes/", "yes/unit", "yes/unit/", "yes/unit/unit", "yes//unit", "yes/unit/unit/unit"]
ITEMS = [
    "in=", "out=", "ref=", "policy=", "policy=coin", "sign=", "sign=256", "badsign=256", "from=", "to=", "forge=", "forge=-",
    "in", "=", "x=1", "from=9", "to=0", "sign=7", "sign=007", "out=5@", "out=@yes", "out=5@yes/", "out=5@yes/unit/unit",
    "out=5,5*coin", "out=1*no.a,2*no.a", "out=0", "out=-", "out=-,5", "out=1*yes.", "out=1*yes.A", "out=1*yes.a.b",
    "out=1*coin.a", "out=1*", "out=*yes", "out=1@coin", "in=:yes", "policy=yes", "policy=no", "forge=1*yes", "out=5@no/unit",
    "out=1*yes." + "z" * 32, "out=1*yes." + "z" * 33, "in=a.", "in=.0", "in=a.0.0", "forge=- forge=-", "from=1 from=1",
    "to=99 to=99", "sign=9 sign=9", "sign=9 badsign=9", "policy=yes policy=yes", "policy=yes policy=no", "from=5 to=5",
    "from=5 to=4", "out=0000000000000000005", "out=00000000000000000005", "sign=00000000000000000009",
    "sign=000000000000000000009",
]  # fmt: skip


def wrapped(name: str, number: int, length: int = 2) -> Field:
    """Spells a number that may be past what so many bytes hold."""
    return of_number(name, number % 256**length, length)


def spoilt_bytes(rng: Random, parts: Parts) -> bytes:
    """Spells the parts with something wrong, most times."""
    for _ in range(rng.choice([0, 1, 1, 2])):
        parts = rng.choice(PARTS)(rng, parts)
    fields = [*spell_body(parts), *spell_signatures(parts.signatures)]
    for _ in range(rng.choice([0, 1, 1, 2])):
        rng.choice(FIELDS)(rng, fields)
    octets = b"".join(field.octets for field in fields)
    return rng.choice(OCTETS)(rng, octets) if rng.random() < 0.3 else octets


def spoilt_output(rng: Random, fields: list[Field]) -> bytes:
    """Spells an output with something wrong, most times."""
    rng.choice([_other_count, _other_entry, _other_entry, _second_entry, _gone_or_again])(rng, fields)
    octets = b"".join(field.octets for field in fields)
    return (rng.choice(OCTETS)(rng, octets) if rng.random() < 0.3 else octets) or b"\x00"


def _twice(rng: Random, parts: Parts) -> Parts:
    """Has something twice, or out of order."""
    names = [name for name in ("inputs", "references", "policies", "signatures") if getattr(parts, name)]
    name = rng.choice(names or ["inputs"])
    items = list(getattr(parts, name))
    items += rng.sample(items, min(1, len(items)))
    rng.shuffle(items)
    return parts._replace(**{name: items})


def _looking_at_what_it_spends(rng: Random, parts: Parts) -> Parts:
    refs = [one.ref for one in parts.inputs]
    references = parts.references + rng.sample(refs, min(1, len(refs)))
    return parts._replace(references=sorted(references) if rng.random() < 0.7 else references[::-1])


def _without_interval(rng: Random, parts: Parts) -> Parts:
    return parts._replace(start=parts.end, end=rng.choice([parts.start, 0]))


def _signed_in_disorder(rng: Random, parts: Parts) -> Parts:
    keys = [bytes([rng.choice([1, 2, 2, 3])]) * 32 for _ in range(2)]
    return parts._replace(signatures=[sign(parts, key, rng.random() < 0.7) for key in keys])


def _with_many(rng: Random, parts: Parts) -> Parts:
    """Makes the transaction about as large as it may be, by signatures."""
    count = (16_384 - sum(len(field.octets) for field in spell_body(parts)) - 2) // 96 + rng.choice([0, 0, 1])
    return parts._replace(signatures=[Signature(place.to_bytes(32, "big"), bytes(64)) for place in range(count)])


def _as_it_is(rng: Random, parts: Parts) -> Parts:
    return parts


PARTS: list[Callable[[Random, Parts], Parts]] = [
    *[_twice, _looking_at_what_it_spends, _without_interval, _signed_in_disorder, _as_it_is] * 6,
    _with_many,
]


def _places(fields: list[Field], *names: str) -> list[int]:
    return [place for place, field in enumerate(fields) if field.name in names]


def _other_count(rng: Random, fields: list[Field]) -> None:
    place = rng.choice(_places(fields, "count") or [0])
    length = len(fields[place].octets)
    count = int.from_bytes(fields[place].octets, "big")
    count = rng.choice([count + 1, count + 1, max(0, count - 1), *EDGES_OF_COUNTS])
    fields[place] = wrapped("count", count, length)


def _other_length(rng: Random, fields: list[Field]) -> None:
    for place in rng.sample(_places(fields, "length"), min(1, len(_places(fields, "length")))):
        length = int.from_bytes(fields[place].octets, "big")
        fields[place] = wrapped("length", rng.choice([length + 1, max(0, length - 1), 0, 65535]))


def _other_version(rng: Random, fields: list[Field]) -> None:
    fields[0] = Field("version", bytes([rng.choice([0, 1, 2, 2, 3, 255])]))


def _other_reference_count(rng: Random, fields: list[Field]) -> None:
    """Makes it one of format 2 that has no references, or another number of them than it says."""
    count = wrapped("reference count", rng.choice([0, 0, 1, 257]))
    places = _places(fields, "reference count") or _places(fields, "count")[1:2]
    for place in places:
        fields[place : place + (fields[place].name == count.name)] = [count]
        fields[0] = Field("version", b"\x02")


def _other_words(rng: Random, fields: list[Field]) -> None:
    """Puts another script or datum in, with its length; most times it is none."""
    places = _places(fields, "script", "datum")
    for place in rng.sample(places, min(1, len(places))):
        make = spoilt_script if fields[place].name == "script" else spoilt_datum
        fields[place] = Field(fields[place].name, make(rng))
        if rng.random() < 0.9:
            fields[place - 1] = wrapped("length", len(fields[place].octets))


def spoilt_script(rng: Random) -> bytes:
    return rng.choice([expressions.broken, expressions.broken, expressions.at_the_edge, lambda rng: b""])(rng)


def spoilt_datum(rng: Random) -> bytes:
    deep = data.number(1)
    for _ in range(rng.choice([14, 15, 16])):
        deep = data.items([deep])
    whole = data.items([data.number(-5), data.octets(b"xy")])
    short = [b"", b"\x04", b"\x01\x00", b"\x02\x00", b"\x02\x00\x05ab"]
    return rng.choice([*short, whole[:-1], whole + b"\x00", deep, deep, whole])


def _other_entry(rng: Random, fields: list[Field]) -> None:
    places = _places(fields, "quantity", "name length", "name", "policy")
    for place in rng.sample(places, min(1, len(places))):
        name = fields[place].name
        if name == "quantity":
            quantity = rng.choice([0, 0, 2**63, 2**63 + 1, 1])
            fields[place] = wrapped(name, quantity, 8)
        elif name == "name length":
            fields[place] = wrapped(name, rng.choice([0, 1, 32, 33, 255]), 1)
        elif name == "name":
            fields[place] = Field(name, bytes(rng.choice([0, 1, 32, 33])))
            fields[place - 1] = wrapped("name length", len(fields[place].octets), 1)
        else:
            fields[place] = Field(name, bytes([rng.choice([0, 255])]) * 32)


def _second_entry(rng: Random, fields: list[Field]) -> None:
    """Has an entry of a bundle twice, or another in its place, and counts it or not."""
    places = _places(fields, "policy")
    for place in rng.sample(places, min(1, len(places))):
        again = fields[place : place + 4]
        if rng.random() < 0.6:
            again[2] = Field("name", again[2].octets[:-1] if rng.random() < 0.3 else (again[2].octets + b"a")[:32])
            again[1] = wrapped("name length", len(again[2].octets), 1)
        fields[place + 4 : place + 4] = again
        before = max(one for one in _places(fields, "count") if one < place)
        if rng.random() < 0.85:
            fields[before] = wrapped("count", int.from_bytes(fields[before].octets, "big") + 1)


def _gone_or_again(rng: Random, fields: list[Field]) -> None:
    place = rng.randrange(len(fields))
    fields[place : place + 1] = rng.choice([[], [fields[place]] * 2])


FIELDS: list[Callable[[Random, list[Field]], None]] = [
    _other_count,
    _other_count,
    _other_length,
    _other_version,
    _other_reference_count,
    _other_words,
    _other_words,
    _other_entry,
    _other_entry,
    _second_entry,
    _gone_or_again,
]


def _cut(rng: Random, octets: bytes) -> bytes:
    return octets[: rng.choice([rng.randrange(len(octets) + 1), max(0, len(octets) - rng.randrange(1, 4))])]


def _longer(rng: Random, octets: bytes) -> bytes:
    return octets + bytes(rng.choice([1, 1, 2, 96, max(1, 16_384 - len(octets)), max(1, 16_385 - len(octets))]))


def _other_byte(rng: Random, octets: bytes) -> bytes:
    place = rng.randrange(max(1, len(octets)))
    return octets[:place] + bytes([rng.choice([0, 1, 255, rng.randrange(256)])]) + octets[place + 1 :]


OCTETS: list[Callable[[Random, bytes], bytes]] = [_cut, _longer, _other_byte, _other_byte]


def odd_line(rng: Random, name: str, output: str) -> str:
    """Makes a line with one odd word, and all else as it should be."""
    number, item = rng.choice(NUMBERS), rng.choice(ITEMS)
    first = rng.choice(FIRST_WORDS)
    return rng.choice(
        [
            f"tx {name} in={output} out=1 {item}",
            f"tx {name} in={output} out=1 {item}",
            f"tx {name} in={output} out=1 {item}",
            f"tx {name} in={output} {rng.choice(['out=', 'from=', 'to=', 'sign=', 'badsign=', 'forge='])}{number}",
            f"tx {name} in={output}:{rng.choice(SHOWN)}",
            f"out {name} {rng.choice([number, item.removeprefix('out=') or '-'])}",
            f"script {name} {rng.choice(DIGITS + [spoilt_script(rng).hex()])}",
            f"data {name} {rng.choice(DIGITS + [spoilt_datum(rng).hex()])}",
            f"bytes {name} {rng.choice(DIGITS)}",
            f"utxo {rng.choice(REFS)} {rng.choice(OUTPUTS)}",
            f"utxo {rng.choice(REFS)} {rng.choice(OUTPUTS)}",
            f"stage utxo {rng.choice(REFS)} {rng.choice(OUTPUTS)}",
            f"stage {rng.choice([*DIGITS, 'utxo', '#', '#' + 'a' * 64, name])}",
            f"sync {number} {rng.choice(['staged', 'staged', 'staged staged', 'block=300 staged', f'staged {output}'])}",
            f"{first} {number}",
            f"{first} {number} {rng.choice(NUMBERS)}",
            f"{first} 1 block={number}",
            first,
        ]
    )


def spoilt_line(rng: Random, line: bytes, names: list[str]) -> bytes:
    """Changes a line, after which it may be bad."""
    if rng.random() < 0.12:
        return rng.choice(LINES)(rng, line)
    words = line.decode().split(" ")
    for _ in range(rng.choice([1, 1, 1, 2])):
        rng.choice(WORDS)(rng, words, names)
    return " ".join(words).encode()


def _typed_at_random(rng: Random, line: bytes) -> bytes:
    place = rng.randrange(len(line) + 1)
    return line[:place] + bytes([rng.choice(STRANGE_BYTES)]) + line[place:]


def _padded(rng: Random, line: bytes) -> bytes:
    """Makes the line about as long as it may be."""
    length = rng.choice([4095, 4096, 4096, 4097, 4097, 4098])
    return rng.choice([line.ljust(length), line.rjust(length), (b"# " + line).ljust(length, b"x"), b" " * length])


LINES: list[Callable[[Random, bytes], bytes]] = [_typed_at_random, _typed_at_random, _padded]


def _word_gone(rng: Random, words: list[str], names: list[str]) -> None:
    del words[rng.randrange(len(words))]
    words[:] = words or [""]


def _word_again(rng: Random, words: list[str], names: list[str]) -> None:
    words.insert(rng.randrange(len(words) + 1), rng.choice(words))


def _words_swapped(rng: Random, words: list[str], names: list[str]) -> None:
    one, other = rng.randrange(len(words)), rng.randrange(len(words))
    words[one], words[other] = words[other], words[one]


def _other_first_word(rng: Random, words: list[str], names: list[str]) -> None:
    words[0] = rng.choice(FIRST_WORDS)


def _word_changed(rng: Random, words: list[str], names: list[str]) -> None:
    """Puts a sign in, takes one out, or puts another in its place."""
    place = rng.randrange(len(words))
    word = words[place]
    at = rng.randrange(len(word) + 1)
    words[place] = word[:at] + rng.choice(["", rng.choice(TYPED)]) + word[at + rng.randrange(2) :]


def _name_changed(rng: Random, words: list[str], names: list[str]) -> None:
    others = ["nobody", "yes", "unit", "coin", "g0.0", "A", "1a", "a" * 16, "a" * 17]
    words[rng.randrange(len(words))] = rng.choice([*names, *names, *others])


def _number_changed(rng: Random, words: list[str], names: list[str]) -> None:
    places = [place for place, word in enumerate(words) if word.isdigit()] or [len(words) - 1]
    words[rng.choice(places)] = rng.choice(NUMBERS)


def _part_changed(rng: Random, words: list[str], names: list[str]) -> None:
    """Puts a number or a name in place of what follows a sign within a word."""
    place = rng.randrange(len(words))
    signs = [at for at, sign in enumerate(words[place]) if sign in "=.:/@*,"]
    if signs:
        at = rng.choice(signs)
        words[place] = words[place][: at + 1] + rng.choice([*NUMBERS, *names, "", "yes", "unit", "coin", "-"])


def _item_more(rng: Random, words: list[str], names: list[str]) -> None:
    for item in rng.choice(ITEMS).split(" "):
        words.insert(rng.randint(1, len(words)), item)


def _block_bytes_more(rng: Random, words: list[str], names: list[str]) -> None:
    words.insert(min(len(words), rng.choice([1, 2, 2, 2, 3])), "block=" + rng.choice(["300", "1", "300", *NUMBERS]))


WORDS: list[Callable[[Random, list[str], list[str]], None]] = [
    _word_gone,
    _word_again,
    _words_swapped,
    _other_first_word,
    _word_changed,
    _word_changed,
    _word_changed,
    _name_changed,
    _number_changed,
    _number_changed,
    _part_changed,
    _part_changed,
    _item_more,
    _item_more,
    _item_more,
    _block_bytes_more,
]
