"""Random scripts and data for tools/fuzz: scripts of which it is known how to satisfy them, and wild ones."""

from dataclasses import dataclass

COIN_NAME = "0320" + "00" * 32 + "0300"
TICK_TOP = 2**64 - 1
# The datum that is declared beforehand.
UNIT = "030000"


@dataclass(frozen=True)
class Need:
    """What a transaction has to have so that a script accepts it."""

    # The number that the redeemer has to be.
    answer: int | None = None
    # The redeemer has to be the datum.
    same: bool = False
    keys: tuple = ()
    first: int = 0
    last: int = TICK_TOP
    # It pays the coin back to the script.
    keeps: bool = False
    # It has a reference input.
    looks: bool = False
    # Whether no transaction satisfies it, or it isn't known which one does.
    unsure: bool = False

    def and_also(self, other):
        """Returns what satisfies two scripts; two numbers can't both be the redeemer."""
        both = self.answer is not None and other.answer is not None and self.answer != other.answer
        return Need(
            answer=other.answer if self.answer is None else self.answer,
            same=self.same or other.same,
            keys=tuple(sorted({*self.keys, *other.keys})),
            first=max(self.first, other.first),
            last=min(self.last, other.last),
            keeps=self.keeps or other.keeps,
            looks=self.looks or other.looks,
            unsure=self.unsure or other.unsure or both,
        )


def spell_number(number):
    return "02" + (number % 2**64).to_bytes(8, "big").hex()


def spell_octets(octets):
    return "03" + bytes([len(octets)]).hex() + octets.hex()


def spell_key(key):
    return spell_octets(bytes([key]) * 32)


def pick_plain_condition(rng, tick):
    """Returns a script that asks nothing of a datum, so that it may be a policy script too, and what it needs."""
    kind = rng.randrange(8)
    if kind == 0:
        key = rng.randrange(256)
        return spell_key(key) + "52", Need(keys=(key,))
    if kind == 1:
        first = max(0, tick - rng.randrange(3))
        return "50" + spell_number(first) + "2110", Need(first=first) if first < 2**63 else Need(unsure=True)
    if kind == 2:
        last = min(2**63 - 1, tick + rng.randrange(6))
        return "51" + spell_number(last) + "22", Need(last=last)
    if kind == 3:
        return spell_number(1) + "6022", Need(looks=True)
    if kind == 4:
        return "57" + spell_number(rng.choice((4, 8, 200))) + "22", Need()
    if kind == 5:
        return COIN_NAME + "54" + spell_number(-1) + "2110", Need()
    if kind == 6:
        return "01" * 2 + "11" + "0110" + "12", Need()
    return make_long_condition(rng), Need()


def make_long_condition(rng):
    """Returns a tree of And over 2 to 512 operators that are true; it has at most 1,023 operators, and a depth of 10."""
    levels = rng.randrange(1, 10)
    script = "01"
    for _ in range(levels):
        script = script * 2 + "11"
    return script


def pick_condition(rng, tick):
    """Returns a script for an output, and what it needs."""
    kind = rng.randrange(9)
    if kind <= 3:
        return pick_plain_condition(rng, tick)
    if kind == 4:
        answer = rng.choice((0, 5, -1, 2**63 - 1, -(2**63)))
        return "0540" + spell_number(answer) + "20", Need(answer=answer)
    if kind == 5:
        return "040520", Need(same=True)
    if kind == 6:
        return COIN_NAME + "53" + "06" + COIN_NAME + "56" + "22", Need(keeps=True)
    if kind == 7:
        return make_wild_script(rng), Need(unsure=True)
    one, need = pick_plain_condition(rng, tick)
    other, further = pick_plain_condition(rng, tick)
    how = rng.randrange(4)
    if how == 0:
        return one + other + "11", need.and_also(further)
    if how == 1:
        return one + "00" + "12", need
    if how == 2:
        return "01" + one + other + "13", need
    return one + "1010", need


# By the kind of the value: what makes it of no operands, and the operators with the kinds of their operands.
LEAVES = {
    "truth": ("00", "01"),
    "number": ("50", "51", "57", "60"),
    "octets": ("06", "0300", "030161", "0320" + "05" * 32),
    "datum": ("04", "05"),
}
OPERATORS = {
    "truth": (
        ("10", "truth"),
        ("11", "truth truth"),
        ("12", "truth truth"),
        ("13", "truth truth truth"),
        ("20", "number number"),
        ("20", "octets octets"),
        ("20", "datum datum"),
        ("20", "truth truth"),
        ("21", "number number"),
        ("22", "number number"),
        ("52", "octets"),
    ),
    "number": (
        ("30", "number number"),
        ("31", "number number"),
        ("32", "number number"),
        ("40", "datum"),
        ("43", "datum"),
        ("53", "octets octets"),
        ("54", "octets octets"),
        ("55", "octets octets"),
        ("56", "octets octets octets"),
        ("63", "number octets octets"),
        ("13", "truth number number"),
    ),
    "octets": (("41", "datum"), ("61", "number"), ("62", "number"), ("13", "truth octets octets")),
    "datum": (("42", "datum number"), ("13", "truth datum datum")),
}


def make_expression(rng, kind, depth):
    if rng.randrange(40) == 0:
        kind = rng.choice(tuple(LEAVES))
    if depth == 0 or rng.randrange(4) == 0:
        leaves = LEAVES[kind] + ((spell_number(rng.choice((0, 1, 2, -1, 2**63 - 1))),) if kind == "number" else ())
        return rng.choice(leaves)
    operator, operands = rng.choice(OPERATORS[kind])
    return "".join(make_expression(rng, operand, depth - 1) for operand in operands.split()) + operator


def make_wild_script(rng):
    """Returns a script that has mostly operands of the right kinds; whether it accepts isn't known."""
    if rng.randrange(12) == 0:
        depth = rng.choice((62, 63, 64, 65))
        return "01" + "10" * depth
    return make_expression(rng, "truth", rng.randrange(1, 6))


def make_datum(rng, depth=0):
    """Returns the bytes of a datum of at most some 100 bytes, in hexadecimal."""
    kind = rng.randrange(5) if depth < 4 else rng.randrange(2)
    if depth == 0 and rng.randrange(30) == 0:
        return "030001" * rng.choice((14, 15, 16)) + "030000"
    if kind == 0:
        octets = bytes(rng.randrange(256) for _ in range(rng.choice((0, 1, 2, 32))))
        return "02" + len(octets).to_bytes(2, "big").hex() + octets.hex()
    if kind <= 2:
        return "01" + (rng.choice((0, 1, 5, -1, 2**63 - 1, -(2**63), rng.randrange(1000))) % 2**64).to_bytes(8, "big").hex()
    items = [make_datum(rng, depth + 2) for _ in range(rng.randrange(4))]
    return "03" + len(items).to_bytes(2, "big").hex() + "".join(items)
