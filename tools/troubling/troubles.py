"""The troubles: what happens to one conversation while others work."""

from __future__ import annotations

import contextlib
import os
import subprocess
import time
from collections.abc import Callable, Iterator
from pathlib import Path
from random import Random
from typing import NamedTuple

from .account import Question
from .pipes import LONG, Wrong
from .stage import WELL, WRITE, Conversation, Faults, Stage

# After so many seconds in which no byte fits a pipe is taken to be full.
FULL = 0.2
MEGABYTE = 1 << 20
LONG_LINE = 100 * MEGABYTE
# So much may the program's memory grow meanwhile, in kB: at first, and by each answer of the others.
FIRST_GROWN, GROWN_BY_ANSWER = 4096, 0.1
# So many lines and answers don't fit into the pipes.
MANY_LINES = 2500


def send_many(victim: Conversation, count: int) -> tuple[list[Question], bytes]:
    """Returns lines that the victim may send ahead, and their bytes."""
    questions = victim.account.ask_many(count)
    return questions, b"".join(question.line + b"\n" for question in questions)


@contextlib.contextmanager
def hand_over(victim: Conversation) -> Iterator[None]:
    """Has another process hold our ends, which is killed at the end."""
    ends = [victim.pipes.lines.fileno(), victim.pipes.answers.fileno()]
    process = subprocess.Popen(["sleep", "600"], pass_fds=ends)
    try:
        victim.close()
        yield
    finally:
        process.kill()
        process.wait()


# Each of these has the trouble happen, and returns with which faults the conversation may have ended or may end.


def kill_idle(stage: Stage, rng: Random) -> Faults:
    """A client that has all its answers is killed."""
    victim = stage.victim
    for _ in range(5):
        victim.ask(victim.account.ask_some())
    with hand_over(victim):
        stage.watch_others()
    return [WELL]


def kill_in_line(stage: Stage, rng: Random) -> Faults:
    """A client is killed that has written half a line. The program answers it, if the answers aren't closed yet."""
    victim = stage.victim
    victim.talk.pour(b"has #0"[: rng.randint(1, 6)])
    with hand_over(victim):
        stage.watch_others()
    return [WELL, WRITE]


def kill_busy(stage: Stage, rng: Random) -> Faults:
    """A client is killed that sends lines and reads answers as fast as it can."""
    victim = stage.victim
    questions, data = send_many(victim, MANY_LINES)
    folder = Path(stage.folder)
    (folder / "sent").write_bytes(data)
    for end in (victim.pipes.lines, victim.pipes.answers):
        os.set_blocking(end.fileno(), True)
    with open(folder / "sent", "rb") as sent, open(folder / "read", "wb") as read:
        sender = subprocess.Popen(["cat"], stdin=sent, stdout=victim.pipes.lines)
        reader = subprocess.Popen(["cat"], stdin=victim.pipes.answers, stdout=read)
    victim.close()
    time.sleep(rng.random() * 0.05)
    for process in rng.sample([sender, reader], 2):
        process.kill()
    for process in (sender, reader):
        process.wait()
    stage.watch_others()
    *answers, _ = (folder / "read").read_text(encoding="ascii").split("\n")
    victim.hear_all(questions, answers)
    return [WELL, WRITE]


def send_half_line(stage: Stage, rng: Random) -> Faults:
    """A client writes half a line, and the rest later."""
    victim = stage.victim
    for question in victim.account.ask_many(3):
        half = rng.randrange(1, len(question.line) + 1)
        victim.talk.pour(question.line[:half])
        stage.watch_others()
        (answer,) = victim.talk.exchange(question.line[half:] + b"\n", 1)
        victim.account.hear(question, answer)
    return [WELL]


def end_in_line(stage: Stage, rng: Random) -> Faults:
    """A client's last line lacks its line feed, and is answered."""
    victim = stage.victim
    *questions, last = victim.account.ask_many(30)
    victim.ask_all(questions)
    victim.talk.pour(last.line)
    stage.watch_others()
    victim.is_over = True
    victim.pipes.lines.close()
    (answer,) = victim.talk.exchange(b"", 1)
    victim.account.hear(last, answer)
    if victim.number:
        victim.read_to_end()
    return [WELL]


def end_before_answers(stage: Stage, rng: Random) -> Faults:
    """A client ends its lines first, and reads the answers afterwards."""
    victim = stage.victim
    questions, data = send_many(victim, 60)
    victim.talk.pour(data)
    victim.is_over = True
    victim.pipes.lines.close()
    stage.watch_others()
    victim.hear_all(questions, victim.talk.exchange(b"", len(questions)))
    if victim.number:
        victim.read_to_end()
    return [WELL]


def fill(stage: Stage) -> tuple[list[Question], bytes]:
    """Sends lines until no more fit, as nobody reads the answers. Returns all lines, and the bytes that don't fit."""
    questions, data = send_many(stage.victim, MANY_LINES)
    sent = stage.victim.talk.pour(data, FULL)
    if sent == len(data):
        raise Wrong("all lines fit, though nobody reads their answers")
    stage.watch_others()
    return questions, data[sent:]


def read_late(stage: Stage, rng: Random) -> Faults:
    """A client doesn't read, until all pipes are full, and then does."""
    questions, left = fill(stage)
    stage.victim.hear_all(questions, stage.victim.talk.exchange(left, len(questions)))
    return [WELL]


def never_read(stage: Stage, rng: Random) -> Faults:
    """A client doesn't read, until all pipes are full, and then closes them."""
    questions, _ = fill(stage)
    stage.victim.hear_all(questions, [])
    stage.victim.close()
    return [WRITE]


def close_answers(stage: Stage, rng: Random) -> Faults:
    """A client closes its answers, and still writes lines."""
    victim = stage.victim
    questions, data = send_many(victim, 2)
    victim.hear_all(questions, [])
    victim.pipes.answers.close()
    stage.watch_others()
    victim.talk.pour(data)
    stage.watch_others()
    victim.is_over = True
    # The standard streams of the operator stay open.
    if victim.number:
        victim.talk.wait_for_end_of_lines()
    victim.close()
    return [WRITE]


def read_slowly(stage: Stage, rng: Random) -> Faults:
    """A client reads a byte at a time."""
    victim = stage.victim
    questions, data = send_many(victim, 40)
    victim.talk.pour(data)
    for _ in range(400):
        victim.talk.read_byte()
        time.sleep(0.0005)
    stage.watch_others()
    victim.hear_all(questions, victim.talk.exchange(b"", len(questions)))
    return [WELL]


def write_slowly(stage: Stage, rng: Random) -> Faults:
    """A client writes a byte at a time."""
    victim = stage.victim
    questions, data = send_many(victim, 4)
    for place in range(len(data)):
        victim.talk.pour(data[place : place + 1])
        time.sleep(0.0005)
    stage.watch_others()
    victim.hear_all(questions, victim.talk.exchange(b"", len(questions)))
    return [WELL]


def write_long_line(stage: Stage, rng: Random) -> Faults:
    """A client writes a line of 100 MB, which is read, not stored, and bad. The memory of the program doesn't grow by it."""
    victim = stage.victim
    stage.watch_others()
    before, heard, part = stage.memory(), stage.count_heard(), b"x" * MEGABYTE
    for _ in range(LONG_LINE // MEGABYTE):
        if victim.talk.pour(part) < len(part):
            raise Wrong(f"a long line isn't read on for {LONG:.0f} seconds")
    grown = stage.memory() - before
    if grown > FIRST_GROWN + GROWN_BY_ANSWER * (stage.count_heard() - heard):
        raise Wrong(f"a line of {LONG_LINE // MEGABYTE} MB takes {grown} kB")
    (answer,) = victim.talk.exchange(b"\n", 1)
    victim.account.hear(victim.account.say("x"), answer)
    stage.watch_others()
    return [WELL]


def write_garbage(stage: Stage, rng: Random) -> Faults:
    """A client writes random bytes."""
    victim = stage.victim
    lines = [b"\0" + rng.randbytes(rng.randrange(300)).replace(b"\n", b"") for _ in range(50)]
    questions = [victim.account.say("garbage") for _ in lines]
    victim.hear_all(questions, victim.talk.exchange(b"".join(line + b"\n" for line in lines), len(lines)))
    return [WELL]


def end_early(stage: Stage, rng: Random) -> Faults:
    """A conversation ends while the others go on."""
    victim = stage.victim
    victim.ask_all(victim.account.ask_many(30))
    victim.end()
    stage.watch_others()
    return [WELL]


class Trouble(NamedTuple):
    """What happens, to any conversation."""

    name: str
    happen: Callable[[Stage, Random], Faults]


TROUBLES = [
    Trouble("killed while idle", kill_idle),
    Trouble("killed in a line", kill_in_line),
    Trouble("killed while busy", kill_busy),
    Trouble("half a line", send_half_line),
    Trouble("an end in a line", end_in_line),
    Trouble("an end before the answers", end_before_answers),
    Trouble("full pipes, read late", read_late),
    Trouble("full pipes, never read", never_read),
    Trouble("closed answers", close_answers),
    Trouble("a slow reader", read_slowly),
    Trouble("a slow writer", write_slowly),
    Trouble("a line of 100 MB", write_long_line),
    Trouble("random bytes", write_garbage),
    Trouble("an early end", end_early),
]
