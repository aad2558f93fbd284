"""A conversation with the program, which is sent lines and answers them."""

from __future__ import annotations

import contextlib
import subprocess
import threading
from random import Random
from typing import IO, NamedTuple

LONGEST_SECONDS = 120


class Held(NamedTuple):
    """What came of a conversation."""

    answers: list[bytes]  # Without their line feeds.
    rest: bytes  # What stands behind the last line feed.
    status: int  # Below 0 where a signal ended the program, as one does after LONGEST_SECONDS.
    error: bytes  # What it wrote to standard error.


def hold(words: list[str], lines: list[bytes], rng: Random) -> Held:
    """Starts the program by the words, and holds a conversation of these lines: most are sent ahead."""
    text = [line + b"\n" for line in lines]
    if lines[-1] and rng.random() < 0.2:
        text[-1] = lines[-1]
    longest = rng.choice([len(text)] * 4 + [1, rng.randint(2, 20)])
    with subprocess.Popen(words, stdin=subprocess.PIPE, stdout=subprocess.PIPE, stderr=subprocess.PIPE) as child:
        watch = threading.Timer(LONGEST_SECONDS, child.kill)
        watch.start()
        try:
            if longest == len(text):
                answered, error = child.communicate(b"".join(text))
            else:
                answered = _wait_for_each(child, text, longest)
                error = child.stderr.read()
        finally:
            watch.cancel()
    *answers, rest = answered.split(b"\n")
    return Held(answers, rest, child.returncode, error)


def _wait_for_each(child: subprocess.Popen[bytes], text: list[bytes], longest: int) -> bytes:
    """Sends at most so many lines ahead, and then waits for their answers; gives all answers."""
    answers = []
    for start in range(0, len(text), longest):
        sent = text[start : start + longest]
        writer = threading.Thread(target=_write, args=(child.stdin, b"".join(sent)), daemon=True)
        writer.start()
        answers += [child.stdout.readline() for line in sent if line.endswith(b"\n")]
        writer.join()
        if not all(answers):
            break
    with contextlib.suppress(BrokenPipeError):
        child.stdin.close()
    return b"".join(answers) + child.stdout.read()


def _write(device: IO[bytes], text: bytes) -> None:
    """Writes to the program. That it has ended is seen where its answers are read."""
    with contextlib.suppress(BrokenPipeError):
        device.write(text)
        device.flush()
