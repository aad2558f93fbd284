"""A program that runs, with an operator and clients, of which all but one work by themselves."""

from __future__ import annotations

import re
import subprocess
import threading
import time
from collections.abc import Iterator, Sequence
from random import Random
from types import TracebackType
from typing import NamedTuple

from .account import SIZE, Account, Question, read_items
from .pipes import LONG, Ended, LatePipes, NamedPipes, StandardPipes, Talk, Wrong

from keltuvar.clients import Pipes

# How many outputs each conversation may spend.
OUTPUTS = 150
CLIENTS = 3
# So many answers the others get while one is in trouble.
SOME_ANSWERS = 20
# The faults with which a conversation may end; "" is none.
WELL, READ, WRITE = "", "fault: read", "fault: write"
AnyPipes = Pipes | NamedPipes | StandardPipes | LatePipes
Faults = Sequence[str]


class Files(NamedTuple):
    """The files of a client, in the folder of the program. We don't open them."""

    lines: str
    answers: str


class Conversation:
    """A conversation that we hold."""

    def __init__(self, number: int, account: Account, pipes: AnyPipes) -> None:
        self.number, self.account, self.pipes = number, account, pipes
        self.talk = Talk(pipes.lines, pipes.answers)
        self.is_over = False
        self.unheard: list[str] = []  # What was given, in order, if the answers are lost.

    def ask(self, questions: Iterator[Question]) -> None:
        """Asks one after the other."""
        for question in questions:
            self.account.hear(question, self.talk.ask(question.line))

    def ask_all(self, questions: Sequence[Question]) -> None:
        """Asks without waiting for each answer."""
        data = b"".join(question.line + b"\n" for question in questions)
        self.hear_all(questions, self.talk.exchange(data, len(questions)))

    def hear_all(self, questions: Sequence[Question], answers: Sequence[str]) -> None:
        """Compares answers to the first of these lines, and notes what the others give."""
        for question, answer in zip(questions, answers):
            self.account.hear(question, answer)
        self.unheard += [question.id for question in questions[len(answers) :] if question.id]

    def begin(self) -> None:
        """Begins a client's conversation, which the program has opened then."""
        self.ask_all([self.account.greet()])
        self.pipes.let_go()

    def close(self) -> None:
        """Closes our ends."""
        self.is_over = True
        self.pipes.close()

    def end(self) -> None:
        """Ends the lines, and reads on until the program ends the answers."""
        self.is_over = True
        self.pipes.lines.close()
        # The operator's answers end with the program.
        if self.number:
            self.read_to_end()

    def read_to_end(self) -> None:
        """Reads on until the answers end. Nothing may come."""
        rest = self.talk.read_rest()
        if rest:
            raise Wrong(f"{self.account.name}: at the end {rest!r:.100} is left")
        self.pipes.close()


class Worker(threading.Thread):
    """Asks in a conversation until it is to stop."""

    def __init__(self, conversation: Conversation) -> None:
        super().__init__(daemon=True)
        self.conversation = conversation
        self._is_to_end = threading.Event()
        self.wrong: Exception | None = None

    def run(self) -> None:
        try:
            while not self._is_to_end.is_set():
                self.conversation.ask(self.conversation.account.ask_some())
        except Ended:
            self.wrong = Wrong(f"{self.conversation.account.name} does nothing wrong, and the conversation ends")
        except Exception as error:
            self.wrong = error

    def stop(self) -> None:
        self._is_to_end.set()
        self.join(2 * LONG)
        if self.wrong:
            raise self.wrong


class Stage:
    """The program, an operator and clients, of which one is the victim of some trouble."""

    def __init__(self, program: str, folder: str, rng: Random, victim: int, *, is_named: bool = False, files: Files | None = None) -> None:
        """Starts it. The victim is the operator, number 0, or a client, whose pipes have names on the disk or whose files are these."""
        self.folder, self.victim_number = folder, victim
        self._errors = open(f"{folder}/errors", "w+b")
        pipes: dict[int, AnyPipes] = {}
        words: list[str] = []
        for number in range(1, CLIENTS + 1):
            if number == victim and files:
                words += ["--client", *(f"{folder}/{name}" for name in files)]
            else:
                has_names = is_named if number == victim else rng.random() < 0.5
                made = NamedPipes(folder, number) if has_names else Pipes()
                words += made.words
                pipes[number] = made
        self.child = subprocess.Popen(
            [program, "serve", *words], bufsize=0, stdin=subprocess.PIPE, stdout=subprocess.PIPE, stderr=self._errors
        )
        pipes[0] = StandardPipes(self.child)
        self.accounts = [Account(number, OUTPUTS, Random(rng.random())) for number in range(CLIENTS + 1)]
        self.conversations = {number: Conversation(number, self.accounts[number], pipes[number]) for number in sorted(pipes)}
        self._workers: list[Worker] = []

    def __enter__(self) -> Stage:
        return self

    def __exit__(self, kind: type[BaseException] | None, error: BaseException | None, traceback: TracebackType | None) -> None:
        self.child.kill()
        self.child.wait()
        for one in self.conversations.values():
            one.close()
        self._errors.close()

    @property
    def victim(self) -> Conversation:
        return self.conversations[self.victim_number]

    def _open_pool(self) -> None:
        """Has the operator say what comes before the first request, and this."""
        operator = self.conversations[0]
        lines = operator.account.open()
        for account in self.accounts:
            lines += operator.account.make_outputs(account)
        operator.ask_all([*lines, operator.account.take_snapshot()])

    def begin(self) -> None:
        """Opens the pool, and begins all conversations that we hold. All but the victim's go on by themselves."""
        self._open_pool()
        for number, one in self.conversations.items():
            if number:
                one.begin()
        self._workers = [Worker(one) for number, one in self.conversations.items() if number != self.victim_number]
        for worker in self._workers:
            worker.start()

    def join(self, pipes: AnyPipes) -> Conversation:
        """Holds the victim's conversation from now on."""
        self.conversations[self.victim_number] = Conversation(self.victim_number, self.accounts[self.victim_number], pipes)
        return self.victim

    def watch_others(self) -> None:
        """Waits until each other conversation has had some more answers. Raises Wrong if one has a wrong one or none."""
        accounts = [worker.conversation.account for worker in self._workers]
        wanted = [account.heard + SOME_ANSWERS for account in accounts]
        until = time.monotonic() + LONG
        while any(account.heard < count for account, count in zip(accounts, wanted)):
            for worker in self._workers:
                if worker.wrong:
                    raise worker.wrong
            if time.monotonic() > until:
                raise Wrong(f"others had no answers for {LONG:.0f} seconds")
            time.sleep(0.002)

    def memory(self) -> int:
        """Returns the most memory that the program has had, in kB."""
        with open(f"/proc/{self.child.pid}/status", encoding="ascii") as file:
            return int(re.search("VmHWM:\\s+([0-9]+) kB", file.read())[1])  # type: ignore[index]

    def count_heard(self) -> int:
        return sum(account.heard for account in self.accounts)

    def read_errors(self) -> str:
        """Returns what the program has written to standard error."""
        self._errors.seek(0)
        return self._errors.read().decode("utf-8", "backslashreplace")

    # The end.

    def end(self, faults: Faults) -> None:
        """Ends all, and compares what the pool holds and how the program ends: by one of these faults of the victim."""
        self.watch_others()
        for worker in self._workers:
            worker.stop()
        healthy = [one for one in self.conversations.values() if not one.is_over]
        self._compare_pool(healthy[0])
        for one in healthy:
            one.end()
        try:
            status = self.child.wait(LONG)
        except subprocess.TimeoutExpired:
            raise Wrong("the program goes on after the end of all conversations") from None
        if healthy[0].number == 0:
            healthy[0].read_to_end()
        text = self.read_errors()
        told = [self._tell(fault) for fault in faults]
        if text not in told or status != (1 if text else 0):
            raise Wrong(f"it ends with status {status} and {text!r:.300}, and not with {' or '.join(map(repr, told))}")

    def _tell(self, fault: str) -> str:
        """Returns what the program writes to standard error."""
        name = f"client {self.victim_number}: " if self.victim_number else ""
        return fault and f"{name}{fault}\n"

    def _compare_pool(self, healthy: Conversation) -> None:
        """A read after a change has all that came before this."""
        healthy.ask_all([healthy.account.give_reserved()])
        question = healthy.account.take_snapshot()
        (answer,) = healthy.talk.exchange(question.line + b"\n", 1)
        found = re.fullmatch("snapshot ([0-9]+) ([0-9]+) ([0-9]+)((?: [0-9]+:[0-9a-f]{64})*)", answer)
        if not found:
            raise Wrong(f"a snapshot is answered {answer!r:.200}")
        items = read_items(found[4])
        known = {id: ticket for account in self.accounts for id, ticket in account.tickets.items()}
        unheard = [id for one in self.conversations.values() for id in one.unheard if id not in known]
        others = [id for _, id in items if id not in known]
        if others != unheard[: len(others)]:
            raise Wrong(f"the pool holds {others[:3]}, and others that nobody gave")
        tickets = [ticket for ticket, _ in items]
        if tickets != sorted(set(tickets)) or [item for item in items if item[1] in known] != sorted((t, id) for id, t in known.items()):
            raise Wrong("the pool holds other transactions than were accepted, or in another order")
        all_tickets = [ticket for account in self.accounts for ticket in account.accepted]
        all_tickets += [ticket for ticket, id in items if id not in known]
        if sorted(all_tickets) != list(range(1, int(found[3]) + 1)):
            raise Wrong(f"the last ticket is {found[3]}, and {len(all_tickets)} were given")
        if (int(found[1]), int(found[2])) != (len(items), SIZE * len(items)):
            raise Wrong(f"a snapshot of {len(items)} items begins with {answer[:40]!r}")
