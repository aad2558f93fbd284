"""Random edits of scenarios and of histories, for tools/fuzz."""

import re

from repository import read_scenario_words

LONGEST_LINE = 4096
EDGES = [
    *(0, 1, 2, 255, 256, 65_535, 65_536, 2**32, 2**32 + 1, 2**39, 2**39 + 1),
    *(2**63 - 1, 2**63, 2**64 - 1, 2**64, 2**64 + 1, 10**19, 10**20 - 1, 10**20),
]
WORDS = [word.encode() for word in read_scenario_words()] + (
    b"none in=g0 ref=g0 out=1 out=- out=1,1*coin sign=255 sign=256 badsign=0 from=0 to=0 forge=- forge=1*yes policy=yes policy=coin "
    b"block=1 block=0 # coin yes no unit 01 00 030000 1*yes.gold@no/unit out=5@ @ / : . , * = - -1 -0 +1 0x1 a.0 A \t \x7f"
).split(b" ")


def list_lines(text):
    """Returns the lines of a text, each without its line feed; where it ends with one, no line follows it."""
    lines = text.split(b"\n")
    return lines[:-1] if lines[-1] == b"" else lines


def join_lines(rng, lines):
    return b"\n".join(lines) + (b"\n" if rng.randrange(4) else b"")


def make_rubbish(rng):
    """Returns some bytes of a narrow or a wide range."""
    size = rng.choice((0, 1, 2, 10, 100, 1000, 20_000))
    least, most = rng.choice(((0, 255), (32, 126), (48, 57), (9, 32)))
    return bytes(rng.randint(least, most) if rng.randrange(20) else 10 for _ in range(size))


def drop_line(rng, lines, _):
    del lines[rng.randrange(len(lines))]


def double_line(rng, lines, _):
    lines.insert(rng.randrange(len(lines) + 1), rng.choice(lines))


def swap_lines(rng, lines, _):
    one, other = rng.randrange(len(lines)), rng.randrange(len(lines))
    lines[one], lines[other] = lines[other], lines[one]


def take_foreign_lines(rng, lines, others):
    if others:
        start = rng.randrange(len(others))
        at = rng.randrange(len(lines) + 1)
        lines[at:at] = others[start : start + rng.choice((1, 1, 3, 20))]


def change_word(rng, lines, others):
    at = rng.randrange(len(lines))
    words = lines[at].split(b" ")
    pool = rng.choice((WORDS, words, b" ".join(rng.choices(lines + others, k=3)).split(b" ")))
    place = rng.randrange(len(words))
    how = rng.randrange(4)
    if how == 0:
        del words[place]
    elif how == 1:
        words.insert(place, rng.choice(pool))
    else:
        words[place] = rng.choice(pool)
    lines[at] = b" ".join(words)


def change_part(rng, lines, _):
    """Changes a part of a word, as a name or a number between two marks."""
    at = rng.randrange(len(lines))
    parts = re.split(rb"([ =@/:.,*])", lines[at])
    place, other = rng.randrange(len(parts)), rng.randrange(len(parts))
    if rng.randrange(3):
        parts[place] = rng.choice((parts[other], b"", b"yes", b"unit", b"coin", b"g0", b"a" * 16, b"a" * 17))
    else:
        parts[place], parts[other] = parts[other], parts[place]
    lines[at] = b"".join(parts)


def change_number(rng, lines, _):
    at = rng.randrange(len(lines))
    numbers = list(re.finditer(rb"[0-9]+", lines[at]))
    if not numbers:
        return
    found = rng.choice(numbers)
    value = int(found.group()[:40])
    number = rng.choice((rng.choice(EDGES), max(0, value + rng.choice((-1, 1))), value * 2, value))
    digits = str(number).rjust(rng.choice((1, 1, 1, 19, 20, 21)), "0").encode()
    lines[at] = lines[at][: found.start()] + digits + lines[at][found.end() :]


def lengthen_line(rng, lines, _):
    """Has a line end, with spaces or otherwise, about where the longest line ends."""
    at = rng.randrange(len(lines))
    missing = LONGEST_LINE + rng.choice((-1, 0, 1, 2)) - len(lines[at])
    if missing > 0:
        words = lines[at].split(b" ")
        filling = rng.choice((b" ", b" ", b"0", b" " + words[-1]))
        if rng.randrange(2):
            lines[at] += (filling * missing)[:missing]
        else:
            lines[at] = (b" " * missing) + lines[at]


def turn_byte(rng, lines, _):
    at = rng.randrange(len(lines))
    line = bytearray(lines[at])
    place = rng.randrange(len(line) + 1)
    byte = rng.choice((rng.randrange(256), rng.randrange(32, 127)))
    if rng.randrange(3) == 0 or place == len(line):
        line.insert(place, byte)
    elif rng.randrange(2):
        line[place] = byte
    else:
        line[place] ^= 1 << rng.randrange(8)
    lines[at] = bytes(line)


def put_rubbish(rng, lines, _):
    lines.insert(rng.randrange(len(lines) + 1), make_rubbish(rng))


def cut_lines(rng, lines, _):
    """Ends the text somewhere in a line."""
    at = rng.randrange(len(lines))
    lines[at] = lines[at][: rng.randrange(len(lines[at]) + 1)]
    del lines[at + 1 :]


EDITS = (
    (drop_line, 10),
    (double_line, 10),
    (swap_lines, 8),
    (take_foreign_lines, 8),
    (change_word, 20),
    (change_part, 15),
    (change_number, 15),
    (lengthen_line, 4),
    (turn_byte, 8),
    (put_rubbish, 1),
    (cut_lines, 2),
)


def edit(rng, text, other):
    """Returns a scenario with one edit or some, for which lines of another one may be taken."""
    lines, others = list_lines(text), list_lines(other)
    calls, weights = zip(*EDITS)
    for call in rng.choices(calls, weights, k=rng.choice((1, 1, 2, 4, 12))):
        if lines:
            call(rng, lines, others)
    return join_lines(rng, lines)


def change_entry(rng, lines, _):
    """Has a number of a history's line be a little or quite another one, or stand elsewhere in it."""
    at = rng.randrange(len(lines))
    words = lines[at].split(b" ")
    places = [place for place, word in enumerate(words) if word.isdigit()]
    if not places:
        return
    place = rng.choice(places)
    how = rng.randrange(4)
    if how == 0:
        words.insert(rng.randrange(place, len(words)), words.pop(place))
    elif how == 1:
        words[place] = b"%d" % rng.choice(EDGES)
    else:
        words[place] = b"%d" % max(0, int(words[place]) + rng.choice((-2, -1, 1, 2)))
    lines[at] = b" ".join(words)


HISTORY_EDITS = (
    (change_entry, 10),
    (drop_line, 3),
    (double_line, 2),
    (swap_lines, 3),
    (turn_byte, 4),
    (change_number, 1),
    (change_word, 1),
    (cut_lines, 1),
)


def edit_history(rng, history):
    """Returns a history with a byte, a number or a line otherwise; it may come out as it was."""
    lines = list_lines(history)
    calls, weights = zip(*HISTORY_EDITS)
    rng.choices(calls, weights)[0](rng, lines, [])
    return b"".join(line + b"\n" for line in lines) if rng.randrange(30) else b"\n".join(lines)
