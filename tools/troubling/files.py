"""The troubles of a client whose files we don't open before the program does, and of clients without a pool."""

from __future__ import annotations

import os
import select
import time
from collections.abc import Callable
from pathlib import Path
from random import Random
from typing import NamedTuple

from .pipes import LONG, LatePipes, Wrong, open_to_read, open_to_write, wait_for
from .stage import READ, WELL, WRITE, Faults, Files, Stage

LATE = Files("late.lines", "late.answers")


def see_fault(fault: str) -> Callable[[Stage, Random], Faults]:
    """Returns a trouble in which the program opens what it can, and the others notice nothing."""

    def see(stage: Stage, rng: Random) -> Faults:
        Path(stage.folder, "empty").write_bytes(b"")
        Path(stage.folder, "comment").write_bytes(b"# hello\n")
        os.symlink("/dev/full", f"{stage.folder}/full")
        stage.begin()
        return [fault]

    return see


def compare_file(stage: Stage, rng: Random) -> Faults:
    """Lines are read from a file of the disk, and answered in another one."""
    account = stage.accounts[stage.victim_number]
    questions = account.ask_many(100)
    Path(stage.folder, "lines").write_bytes(b"".join(question.line + b"\n" for question in questions))
    answers = Path(stage.folder, "answers")
    answers.write_bytes(b"")
    stage.begin()
    until = time.monotonic() + LONG
    while (text := answers.read_text(encoding="ascii")).count("\n") < len(questions):
        if time.monotonic() > until:
            raise Wrong(f"the lines of a file aren't answered for {LONG:.0f} seconds")
        time.sleep(0.01)
    for question, answer in zip(questions, text.split("\n")):
        account.hear(question, answer)
    return [WELL]


def make_late_pipes(stage: Stage) -> None:
    for name in LATE:
        os.mkfifo(f"{stage.folder}/{name}", 0o600)


def open_late(stage: Stage, rng: Random) -> Faults:
    """A client opens its named pipes while the others work."""
    make_late_pipes(stage)
    stage.begin()
    stage.watch_others()
    victim = stage.join(LatePipes(stage.folder, LATE))
    for _ in range(5):
        victim.ask(victim.account.ask_some())
    return [WELL]


def open_half(stage: Stage, rng: Random) -> Faults:
    """A client opens the pipe of its lines, and closes it. Later somebody opens that of the answers."""
    make_late_pipes(stage)
    stage.begin()
    open_to_write(f"{stage.folder}/{LATE.lines}").close()
    stage.watch_others()
    with open_to_read(f"{stage.folder}/{LATE.answers}") as answers:
        if not wait_for(answers, select.POLLIN, LONG):
            raise Wrong(f"the answers haven't ended for {LONG:.0f} seconds")
        rest = answers.read()
    if rest:
        raise Wrong(f"without a line {rest!r:.100} is answered")
    return [WELL]


class FileTrouble(NamedTuple):
    """What happens to a client with these files."""

    name: str
    files: Files
    happen: Callable[[Stage, Random], Faults]


FILE_TROUBLES = [
    FileTrouble("no file of lines", Files("none", "empty"), see_fault(READ)),
    FileTrouble("a folder of lines", Files(".", "empty"), see_fault(READ)),
    FileTrouble("no file of answers", Files("comment", "none"), see_fault(WRITE)),
    FileTrouble("no file of answers, and no line", Files("empty", "none"), see_fault(WELL)),
    FileTrouble("a folder of answers", Files("comment", "."), see_fault(WRITE)),
    FileTrouble("a full device", Files("comment", "full"), see_fault(WRITE)),
    FileTrouble("files on the disk", Files("lines", "answers"), compare_file),
    FileTrouble("named pipes that are opened late", LATE, open_late),
    FileTrouble("named pipes that are opened in part", LATE, open_half),
]


def end_without_pool(stage: Stage) -> None:
    """The operator's input ends before its first request: no client's conversation begins."""
    operator = stage.conversations[0]
    operator.ask_all([operator.account.greet()])
    operator.end()
    status = stage.child.wait(LONG)
    for number, one in stage.conversations.items():
        one.pipes.let_go()
        one.read_to_end()
    if status or stage.read_errors():
        raise Wrong(f"without a pool it ends with status {status} and {stage.read_errors()!r:.200}")
