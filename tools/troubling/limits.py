"""A program that may have only so much memory, and conversations whose lines are sent ahead."""

from __future__ import annotations

import re
import subprocess
import threading
from random import Random

from .account import NO_MEMORY, Account, Question, id_of, pay
from .pipes import LONG, StandardPipes, Talk, Wrong

from keltuvar.clients import Pipes

CLIENTS, OUTPUTS, LINES = 3, 100, 400
# With so many kB any program starts.
MOST = 1 << 18
# How many limits are tried, and by how many kB the second and the last are above the least with which the program starts.
LIMITS, FIRST_STEP, LAST_STEP = 20, 16, 300_000
UNREAD, UNTOLD = "fault: read", "fault: an answer was lost"


def limit_memory(kilobytes: int, words: list[str]) -> list[str]:
    """Returns the words that start a program with so much address space."""
    return ["sh", "-c", 'ulimit -v "$0" && exec "$@"', str(kilobytes), *words]


def does_start(program: str, kilobytes: int) -> bool:
    words = limit_memory(kilobytes, [program, "serve"])
    return subprocess.run(words, stdin=subprocess.DEVNULL, capture_output=True, timeout=LONG).returncode == 0


def find_limits(program: str) -> list[int]:
    """Returns the limits in kB, of which the first is about the least with which the program starts."""
    least, most = 0, MOST
    if not does_start(program, most):
        raise Wrong(f"it doesn't start with {most} kB")
    while most - least > FIRST_STEP:
        middle = (least + most) // 2
        least, most = (least, middle) if does_start(program, middle) else (middle, most)
    factor = (LAST_STEP / FIRST_STEP) ** (1 / (LIMITS - 2))
    return [most, *(most + round(FIRST_STEP * factor**place) for place in range(LIMITS - 1))]


class Pump(threading.Thread):
    """Sends all lines of a conversation, ends it, and reads all answers."""

    def __init__(self, talk: Talk, questions: list[Question]) -> None:
        super().__init__(daemon=True)
        self._talk, self._data = talk, b"".join(question.line + b"\n" for question in questions)
        self.read = b""

    def run(self) -> None:
        self.read = self._talk.exchange_all(self._data)


class Limited:
    """A run with a limit."""

    def __init__(self, program: str, folder: str, rng: Random, kilobytes: int) -> None:
        self._command, self._errors = limit_memory(kilobytes, [program, "serve"]), f"{folder}/errors"
        self._accounts = [Account(number, OUTPUTS, rng, may_lack_memory=True) for number in range(CLIENTS + 1)]
        operator, *clients = self._accounts
        begins = operator.open()
        self._made = [(account, output) for account in self._accounts for output in account.outputs]
        makes = [line for account in self._accounts for line in operator.make_outputs(account)]
        self._first = len(begins) + len(makes)
        self._lines = [[*begins, *makes, *operator.ask_many(LINES)], *(client.ask_many(LINES) for client in clients)]
        self._answers: list[list[str]] = []
        self.lacked = 0

    def run(self) -> str:
        """Holds all conversations, compares the answers, and returns what the program writes to standard error."""
        status, errors = self._hold()
        makes = self._answers[0][self._first - len(self._made) : self._first]
        for (account, output), answer in zip(self._made, makes):
            if answer == NO_MEMORY:
                account.missing.add(id_of(pay(output)))
        for account, lines, answers in zip(self._accounts, self._lines, self._answers):
            if len(answers) > len(lines):
                raise Wrong(f"{account.name} has {len(answers)} answers to {len(lines)} lines")
            for line, answer in zip(lines, answers):
                account.hear(line, answer)
            self.lacked += answers.count(NO_MEMORY)
        self._compare_end(status, errors)
        return errors

    def _hold(self) -> tuple[int, str]:
        """Holds the conversations. Returns the status, and what is on standard error."""
        pipes = [Pipes() for _ in range(CLIENTS)]
        words = [word for pair in pipes for word in pair.words]
        with open(self._errors, "w+b") as errors:
            child = subprocess.Popen(
                [*self._command, *words], bufsize=0, stdin=subprocess.PIPE, stdout=subprocess.PIPE, stderr=errors
            )
            ends: list[StandardPipes | Pipes] = [StandardPipes(child), *pipes]
            pumps = [Pump(Talk(pair.lines, pair.answers), lines) for pair, lines in zip(ends, self._lines)]
            for pump in pumps:
                pump.start()
            try:
                status = child.wait(LONG)
            except subprocess.TimeoutExpired:
                raise Wrong(f"it doesn't end within {LONG:.0f} seconds") from None
            finally:
                child.kill()
                child.wait()
                for pair in pipes:
                    pair.let_go()
                for pump in pumps:
                    pump.join(LONG)
                for pair in ends:
                    pair.close()
            errors.seek(0)
            text = errors.read().decode("utf-8", "backslashreplace")
        for account, pump in zip(self._accounts, pumps):
            *answers, rest = pump.read.decode("latin-1").split("\n")
            if rest:
                raise Wrong(f"{account.name} has half an answer: {rest!r:.100}")
            self._answers.append(answers)
        return status, text

    def _compare_end(self, status: int, errors: str) -> None:
        """Says whether the program may end like this with so many answers."""
        are_all = [len(answers) == len(lines) for answers, lines in zip(self._answers, self._lines)]
        if (status, errors) == (0, ""):
            is_open = any(answer != NO_MEMORY for answer in self._answers[0][self._first :: 20])
            if not all(are_all if is_open else [are_all[0], not any(self._answers[1:])]):
                raise Wrong(f"it ends well after {[len(answers) for answers in self._answers]} answers")
            return
        found = re.fullmatch(f"(?:client ([1-9]): )?({NO_MEMORY}|{UNREAD}|{UNTOLD})\n", errors)
        number = int(found[1] or 0) if found else 0
        is_first = all(are_all[:number]) and not are_all[number]
        if status != 1 or not (self._is_beginning(errors) or (found and (is_first or errors == f"{NO_MEMORY}\n"))):
            raise Wrong(f"it ends with status {status} and {errors!r:.200}, after {[len(answers) for answers in self._answers]} answers")
        if found and found[2] == UNREAD and self._answers[number]:
            raise Wrong(f"client {number} ends with {UNREAD!r} after {len(self._answers[number])} answers")

    def _is_beginning(self, errors: str) -> bool:
        """Returns whether the program ends with one line of standard error before all answers."""
        return not any(self._answers) and errors.count("\n") == 1
