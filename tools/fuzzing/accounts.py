"""What the answers of a run have to be by docs/FORMATS.md, as far as the answers before them tell, for tools/fuzz."""

from fuzzing.edits import list_lines
from repository import read_refusal_words

TICK_TOP = 2**64 - 1
# The first words of the answers to each command.
ANSWERS = {
    b"submit": (b"accepted", b"refused"),
    b"remove": (b"removed", b"refused"),
    b"sync": (b"kept", b"refused"),
    b"snapshot": (b"snapshot",),
    b"after": (b"after",),
    b"lookup": (b"lookup",),
    b"has": (b"has",),
    b"take": (b"take",),
    b"forge": (b"block",),
    b"offer": (b"offer",),
    b"for": (b"for",),
}
# The commands that no race takes.
FURTHER_READS = frozenset(ANSWERS) - {b"submit", b"remove", b"sync", b"snapshot"}
REFUSALS = frozenset(word.encode() for word in read_refusal_words()) - {b"memory"}


class Unfit(Exception):
    """Says in a line how an answer is otherwise than those before it allow."""


def expect(holds, what):
    if not holds:
        raise Unfit(what)


def split_words(line):
    """Returns the words of a line; of a comment there are none."""
    words = [word for word in line.split(b" ") if word]
    return [] if words and words[0].startswith(b"#") else words


def list_words(text, bad_line=None):
    """Returns the words of each line that comes before the bad one."""
    lines = list_lines(text)
    return [split_words(line) for line in (lines if bad_line is None else lines[: bad_line - 1])]


def is_command(words):
    return bool(words) and words[0] in ANSWERS


def kind_of(answer):
    """Returns which kind of answer it is: its first word, and of a refusal the second one too."""
    words = answer.split(b" ")
    return b" ".join(words[: 1 + (words[0] == b"refused")]).decode("ascii", "replace")


def read_setting(lines, name, otherwise):
    return next((int(words[1]) for words in lines if words[:1] == [name]), otherwise)


def read_tickets(words):
    tickets = [int(word) for word in words]
    expect(all(one < other for one, other in zip(tickets, tickets[1:])), "tickets don't rise")
    return tickets


class Accounts:
    """What a run has reported of its pool: the tickets that it holds, the last one, the changes, and the names under the tickets."""

    def __init__(self, lines):
        self.held = []
        self.last = read_setting(lines, b"last", 0)
        self.limit = read_setting(lines, b"limit", 1_000_000)
        self.changes = 0
        self.offered = 0
        # By the ticket: the name in the line that was accepted, and the one that the run reports.
        self.submitted = {}
        self.names = {}
        # By a name that was submitted: the first name of its id.
        self.firsts = {}
        # The names of transactions, each with the number of those declared before it.
        self.declared = {}

    def declare(self, words):
        """Takes a line that is no command."""
        if words[:1] == [b"tx"]:
            self.declared[words[1]] = len(self.declared)

    def take(self, words, answer):
        """Goes on by a command's answer, or raises Unfit."""
        told = answer.split(b" ")
        expect(told[0] in ANSWERS[words[0]], "the answer is that of another command")
        if words[0] in (b"submit", b"remove", b"sync"):
            full = told[:2] == [b"refused", b"history"]
            expect(full == (self.changes == self.limit), "history is full otherwise than by the limit")
            self.changes += told[0] != b"refused"
        getattr(self, f"take_{told[0].decode()}")(words, told[1:])

    def take_accepted(self, words, told):
        expect(told == [b"%d" % (self.last + 1)], "the ticket isn't the next one")
        self.last += 1
        self.held.append(self.last)
        self.submitted[self.last] = words[1]

    def take_refused(self, words, told):
        expect(words[0] == b"submit" or told == [b"history"], "a remove or a sync is refused for another reason")
        expect(told[0] in REFUSALS, "there is no such refusal")
        numbers = [int(word) for word in told[1:] if word.isdigit()]
        if told[0] == b"tickets":
            expect(self.last == TICK_TOP, "the tickets aren't spent")
        elif told[0] == b"already":
            expect(numbers[0] in self.held, "no transaction stands under the ticket")
        elif told[0] == b"full":
            expect(numbers[0] > numbers[1], "it isn't full")
        elif told[0] != b"history":
            expect(self.last < TICK_TOP, "the tickets are spent")

    def take_removed(self, words, told):
        at = told.index(b"dropped")
        removed, dropped = read_tickets(told[:at]), read_tickets(told[at + 1 :])
        expect(len(removed) < len(words), "more is removed than is named")
        self.leave(removed, dropped)

    def take_kept(self, _, told):
        at = told.index(b"dropped")
        kept, dropped = read_tickets(told[:at]), read_tickets(told[at + 1 :])
        expect(sorted(kept + dropped) == self.held, "what is kept and dropped isn't what the pool held")
        self.held = kept

    def leave(self, removed, dropped):
        gone = {*removed, *dropped}
        expect(len(gone) == len(removed) + len(dropped) and gone <= set(self.held), "what goes isn't what the pool held")
        self.held = [ticket for ticket in self.held if ticket not in gone]

    def read_items(self, told):
        items = [word.split(b":") for word in told]
        for ticket, name in items:
            self.read_name(int(ticket), name)
        return read_tickets(ticket for ticket, _ in items)

    def read_name(self, ticket, name):
        """Sees that the name may be the first one of the id that has the ticket."""
        expect(ticket in self.held, "the pool doesn't hold the ticket")
        expect(self.names.setdefault(ticket, name) == name, "the ticket has another name")
        submitted = self.submitted[ticket]
        expect(name in self.declared, "the name isn't declared")
        expect(self.declared[name] <= self.declared[submitted], "the name isn't the first of its id")
        for one in (submitted, name):
            expect(self.firsts.setdefault(one, name) == name, "two names are the first of one id")

    def take_snapshot(self, _, told):
        tickets = self.read_items(told[3:])
        expect(tickets == self.held, "the snapshot isn't what the pool holds")
        expect([int(told[0]), int(told[2])] == [len(tickets), self.last], "the snapshot's numbers are wrong")

    def take_after(self, words, told):
        expect(self.read_items(told) == [ticket for ticket in self.held if ticket > int(words[1])], "it isn't what comes after")

    def take_lookup(self, words, told):
        # A transaction may be called none.
        ticket = int(words[1])
        if ticket in self.held:
            self.read_name(ticket, told[0])
        else:
            expect(told == [b"none"], "no transaction stands under the ticket")

    def take_has(self, words, told):
        expect(told in ([b"yes"], [b"no"]), "it is no answer")
        if any(self.names.get(ticket) == words[1] for ticket in self.held):
            expect(told == [b"yes"], "the pool holds it")

    def take_take(self, words, told):
        tickets = self.read_items(told[2:])
        expect(int(told[0]) == len(tickets) and int(told[1]) <= int(words[1]), "the numbers are wrong")
        expect(tickets == self.held[: len(tickets)], "they aren't the oldest")

    take_block = take_take

    def take_offer(self, words, told):
        tickets = self.read_items(told)
        behind = [ticket for ticket in self.held if ticket > self.offered]
        expect(tickets == behind[: len(tickets)] and len(tickets) <= int(words[1]), "they aren't the next ones")
        self.offered = max([self.offered, *tickets])

    def take_for(self, _, told):
        self.read_items(told)

    def answer_of_talk(self, words, answer):
        """Returns the answer of a conversation, which reports a transaction under the name by which it was accepted."""
        first, *told = answer.split(b" ")
        if first == b"lookup" and int(words[1]) in self.held:
            told = [self.submitted[int(words[1])]]
        elif first != b"refused":
            pairs = [word.partition(b":") for word in told]
            told = [ticket + colon + (self.submitted[int(ticket)] if colon else b"") for ticket, colon, _ in pairs]
        return b" ".join([first, *told])


def find_unfit(text, bad_line, answers):
    """Returns what is wrong with the answers to the lines that come before the bad one, or None."""
    lines = list_words(text, bad_line)
    commands = sum(map(is_command, lines))
    if commands != len(answers):
        return f"{commands} commands have {len(answers)} answers"
    accounts, left = Accounts(lines), iter(answers)
    for number, words in enumerate(lines, 1):
        if not is_command(words):
            accounts.declare(words)
            continue
        answer = next(left)
        try:
            accounts.take(words, answer)
        except Unfit as what:
            return f"line {number} is answered {answer.decode('ascii', 'replace')}: {what}"
        except (ValueError, IndexError):
            return f"line {number} is answered {answer.decode('ascii', 'replace')}, which isn't an answer's form"
    return None


def list_answers_of_talk(text, bad_line, answers):
    """Returns what a conversation answers to the lines of a run that fits: those before the bad one and before a full history."""
    lines = list_words(text, bad_line)
    accounts, left, told = Accounts(lines), iter(answers), []
    for words in lines:
        if not is_command(words):
            accounts.declare(words)
            told.append(b"ok")
            continue
        answer = next(left)
        if answer == b"refused history":
            break
        accounts.take(words, answer)
        told.append(accounts.answer_of_talk(words, answer))
    return told
