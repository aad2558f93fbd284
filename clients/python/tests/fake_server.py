#!/usr/bin/env python3
"""Speaks the protocol of `keltuvar serve`, with lines of its own that make it misbehave.

    next TEXT     the next line that isn't one of these is answered TEXT
    heard         answers the last line that wasn't one of these
    arguments     answers the words of the command line
    sleep S       answers after S seconds
    silent        gives no answer
    half          writes half an answer, and nothing more
    twice         gives two answers
    long N        answers with so many letters
    error TEXT    writes the text to standard error
    die S         ends with this status
    leave         ends this conversation
    late          clients begin only at the end of this conversation
    deaf          closes its input, and goes on
    stay          goes on when its input ends or it is asked to end

A `lookup N` is answered with a name made of N, and any other line with `ok`. Each
`--client LINES ANSWERS` is a conversation too. It begins after the first line of standard input.
"""

from __future__ import annotations

import os
import signal
import sys
import threading
import time
from typing import TextIO

stays = threading.Event()
is_open = threading.Event()


def talk(lines: TextIO, answers: TextIO) -> None:
    planned: list[str] = []
    heard = ""

    def write(text: str) -> None:
        answers.write(text)
        answers.flush()

    for line in lines:
        line = line.removesuffix("\n")
        word, _, rest = line.partition(" ")
        if word == "next":
            planned.append(rest)
            write("ok\n")
        elif word == "heard":
            write(f"{heard}\n")
        elif word == "arguments":
            write(f"{' '.join(sys.argv[1:])}\n")
        elif word == "sleep":
            time.sleep(float(rest))
            write("ok\n")
        elif word == "silent":
            pass
        elif word == "half":
            write("o")
        elif word == "twice":
            write("ok\nok\n")
        elif word == "long":
            write("x" * int(rest) + "\n")
        elif word == "error":
            sys.stderr.write(rest)
            sys.stderr.flush()
            write("ok\n")
        elif word == "die":
            os._exit(int(rest))
        elif word == "leave":
            return
        elif word == "late":
            write("ok\n")
            continue
        elif word == "deaf":
            os.close(0)
            write("ok\n")
            time.sleep(600)
        elif word == "stay":
            stays.set()
            signal.signal(signal.SIGTERM, signal.SIG_IGN)
            write("ok\n")
        else:
            heard = line
            answer = f"lookup n{rest}" if word == "lookup" else "ok"
            write(f"{planned.pop(0) if planned else answer}\n")
        is_open.set()


def talk_over(pipes: list[str]) -> None:
    is_open.wait()
    with open(pipes[0], encoding="ascii") as lines, open(pipes[1], "w", encoding="ascii") as answers:
        talk(lines, answers)


def main() -> None:
    places = [place for place, word in enumerate(sys.argv) if word == "--client"]
    pipes = [sys.argv[place + 1 : place + 3] for place in places]
    threads = [threading.Thread(target=talk_over, args=(pair,), daemon=True) for pair in pipes]
    for thread in threads:
        thread.start()
    talk(sys.stdin, sys.stdout)
    is_open.set()
    for thread in threads:
        thread.join()
    while stays.is_set():
        time.sleep(600)


if __name__ == "__main__":
    main()
