"""Runs scenarios through the program for tools/fuzz, in several ways whose answers have to fit, and raises Finding where they don't."""

import collections
import re
import subprocess

from conversing.talk import fits
from conversing.tally import kind_of as kind_of_talk
from fuzzing.accounts import FURTHER_READS, find_unfit, is_command, kind_of, list_answers_of_talk, list_words, read_setting
from fuzzing.edits import edit_history, list_lines
from fuzzing.talks import TALK_LINE, expect_answers, has_form, insert_lines, is_modelled

MOST_BYTES = 2**24
TIME_OUT = 120
RUN_FAULT = re.compile(rb"fault: (?:bad line ([1-9][0-9]*)|read)\n")
EXPLAINED = re.compile(rb"bad line ([1-9][0-9]*): [ -~]+\n")
AUDIT_FAULT = re.compile(rb"fault: (?:audit|missing entry|bad line) ([0-9]+)\n[ -~]+\n")
REPORT = re.compile(
    rb"race (\d+) accepted (\d+) refused (\d+) removes (\d+) syncs (\d+) reads (\d+) entries (\d+) last (\d+)\naudit legal\n"
)

Outcome = collections.namedtuple("Outcome", "answers errors status")
LEGAL = Outcome(b"audit legal\n", b"", 0)
# What is said of a history that lacks the entry at a place and those behind it.
SHORT = b"fault: missing entry %d\nthe history ends before this entry\n"


def tell_head(workers, entries):
    """Returns the first line of a history."""
    return b"workers %d entries %d\n" % (workers, entries)


class Finding(Exception):
    """Says in a line what the program does that it must not; has the scenario, and the history or the conversation that it is about."""

    def __init__(self, what, scenario, history=None, talk=None):
        super().__init__(what)
        self.scenario = scenario
        self.history = history
        self.talk = talk


def show(outcome):
    """Returns the end of what was written, and the status, in a line."""
    return f"status {outcome.status}, error {outcome.errors[-100:]!r}, output ending in {outcome.answers[-60:]!r}"


def fault_of(line):
    return b"fault: bad line %d\n" % line


def find_first_read(text):
    """Returns the number of the first line that no race takes for what it reads, or None."""
    return next((number for number, words in enumerate(list_words(text), 1) if words and words[0] in FURTHER_READS), None)


class Checker:
    """Runs the program in a folder, and counts what it answers."""

    def __init__(self, program, room):
        self.program = program
        self.room = room
        self.counts = collections.Counter()
        self.answers = collections.Counter()

    def do(self, words, scenario, history=None, given=b"", talk=None):
        """Returns what the program does with the words; a scenario stands in the room's file `scn`, a history in `history`."""
        try:
            done = subprocess.run([self.program, *words], input=given, capture_output=True, cwd=self.room, timeout=TIME_OUT)
        except subprocess.TimeoutExpired:
            raise Finding(f"{' '.join(words)} takes over {TIME_OUT} s", scenario, history, talk) from None
        outcome = Outcome(done.stdout, done.stderr, done.returncode)
        if done.returncode not in (0, 1) or (done.returncode == 0) != (done.stderr == b""):
            raise Finding(f"{' '.join(words)} ends with {show(outcome)}", scenario, history, talk)
        return outcome

    def write(self, name, text):
        with open(f"{self.room}/{name}", "wb") as file:
            file.write(text)

    def run(self, scenario, *flags):
        """Runs the scenario from its file."""
        self.write("scn", scenario)
        return self.do(["run", *flags, "scn"], scenario)

    def expect(self, holds, what, scenario, history=None, talk=None):
        if not holds:
            raise Finding(what, scenario, history, talk)

    def check(self, rng, text):
        """Runs a scenario in all ways, and returns the number of its bad line, or None."""
        first = self.run(text)
        bad_line = self.check_run(text, first)
        self.check_again(rng, text, first)
        if len(text) > MOST_BYTES:
            return None
        self.check_beginning(rng, text, bad_line, first)
        self.check_talk(text, bad_line, first)
        if is_modelled(text):
            self.check_longer_talk(rng, text)
        self.check_race_fault(text, bad_line)
        quiet = self.check_without(text, bad_line, first)
        self.check_race_alone(rng, *quiet)
        if rng.randrange(2):
            self.check_race(rng, quiet[0], rng.choice((2, 3, 4, 8, 64)))
        return bad_line

    def check_run(self, text, first):
        """Compares a run's status with what it writes, and each answer with those before it."""
        fault = RUN_FAULT.fullmatch(first.errors)
        self.expect(first.status == 0 or fault, f"a run ends with {show(first)}", text)
        lines = list_lines(text)
        self.counts["scenarios"] += 1
        if first.errors == b"fault: read\n" or len(text) > MOST_BYTES:
            self.expect(len(text) > MOST_BYTES and first.errors == b"fault: read\n", f"{len(text)} bytes have {show(first)}", text)
            self.answers["read faults"] += 1
            return None
        bad_line = int(fault[1]) if fault else None
        self.expect(bad_line is None or bad_line <= len(lines), f"there is no line {bad_line}", text)
        answers = list_lines(first.answers)
        what = find_unfit(text, bad_line, answers)
        self.expect(what is None, what, text)
        self.expect(first.answers == b"".join(answer + b"\n" for answer in answers), "the last answer isn't ended", text)
        self.counts["lines"] += len(lines) if bad_line is None else bad_line
        self.answers.update(map(kind_of, answers))
        self.answers["bad lines"] += bad_line is not None
        return bad_line

    def check_again(self, rng, text, first):
        """Runs the scenario once more, from standard input, and explained."""
        again = self.do(["run"], text, given=text)
        self.expect(again == first, f"from standard input it ends with {show(again)} and not {show(first)}", text)
        explained = self.run(text, "--explain")
        errors = explained.errors
        if RUN_FAULT.fullmatch(first.errors) and first.errors != b"fault: read\n":
            further = EXPLAINED.fullmatch(errors[len(first.errors) :])
            number = further and fault_of(int(further[1]))
            self.expect(number == first.errors, f"a bad line is explained as {errors!r}", text)
            errors = errors[: len(first.errors)]
        self.expect(explained._replace(errors=errors) == first, f"explained it ends with {show(explained)} and not {show(first)}", text)

    def check_beginning(self, rng, text, bad_line, first):
        """Runs a beginning, whose whole lines are to be answered as they are in the whole."""
        lines = list_lines(text)
        if not lines:
            return
        count = rng.randrange(len(lines) + 1)
        beginning = b"".join(line + b"\n" for line in lines[:count])
        whole = rng.randrange(4) > 0 or count == len(lines)
        if not whole:
            beginning += lines[count][: rng.randrange(len(lines[count]) + 1)]
        found = self.run(beginning)
        if bad_line is not None and bad_line <= count:
            self.expect(found == first, f"its first {len(beginning)} bytes end with {show(found)}", text)
            return
        commands = sum(map(is_command, list_words(b"\n".join(lines[:count]))))
        wanted = first.answers.split(b"\n")[:commands]
        told = found.answers.split(b"\n")[:-1]
        fits = told[:commands] == wanted and (not whole or (found.status == 0 and len(told) == commands))
        self.expect(fits, f"its first {len(beginning)} bytes end with {show(found)}", text)

    def talk(self, scenario, text, *words):
        """Returns the answers of a conversation over the lines of a text, each of which has one, of a form that its first word allows."""
        found = self.do(["serve", *words], scenario, given=text, talk=text)
        told, lines = list_lines(found.answers), list_lines(text)
        ends = found.status == 0 and len(told) == len(lines) and found.answers == b"".join(line + b"\n" for line in told)
        what = f"a conversation of {len(lines)} lines ends with {len(told)} answers and {show(found)}"
        self.expect(ends, what, scenario, talk=text)
        reset = 0
        for number, (line, answer) in enumerate(zip(lines, told), 1):
            what = f"in a conversation line {number} is answered {answer[:200]!r}, which isn't an answer's form"
            self.expect(has_form(number - reset, line, answer), what, scenario, talk=text)
            if line.split() == [b"reset"] and answer == b"ok":
                reset = number
        self.counts["talks"] += 1
        return told

    def check_talk(self, text, bad_line, first):
        """Compares a conversation over the lines with the run up to a bad line or a full history, and with the model to its end."""
        told, lines = self.talk(text, text), list_lines(text)
        for number, wanted in enumerate(list_answers_of_talk(text, bad_line, list_lines(first.answers)), 1):
            what = f"in a conversation line {number} is answered {told[number - 1]!r} and not {wanted!r}"
            self.expect(told[number - 1] == wanted, what, text)
        if bad_line is not None and not TALK_LINE.match(lines[bad_line - 1]):
            is_bad = told[bad_line - 1].startswith(b"bad %d: " % bad_line)
            self.expect(is_bad, f"in a conversation the bad line {bad_line} is answered {told[bad_line - 1]!r}", text)
        if is_modelled(text):
            self.compare_talk(text, text, told, expect_answers(text))

    def check_longer_talk(self, rng, text):
        """Compares a conversation, which has further lines between those of the scenario, with the model."""
        checked = rng.randrange(4) == 0
        words = ["--signatures", "checked"] * checked + ["--salt", f"{rng.randrange(2**64)}"] * rng.randrange(2)
        lines, expected = insert_lines(rng, text, checked)
        if lines:
            talk = b"".join(line + b"\n" for line in lines)
            told = self.talk(text, talk, *words)
            self.compare_talk(text, talk, told, expected)
            self.counts["further lines"] += len(lines) - len(list_lines(text))
            self.answers.update("talk: " + kind_of_talk(answer) for answer in expected)

    def compare_talk(self, scenario, talk, told, expected):
        for number, (answer, wanted) in enumerate(zip(told, expected), 1):
            what = f"in a conversation line {number} is answered {answer[:200]!r} and not {wanted[:200]!r}"
            self.expect(fits(answer.decode("latin-1"), wanted), what, scenario, talk=talk)

    def check_race_fault(self, text, bad_line):
        """Where a race doesn't take the scenario it has to tell the first line that it doesn't take, and so has an audit."""
        further = find_first_read(text)
        numbers = [number for number in (bad_line, further) if number is not None]
        if not numbers:
            return
        self.write("scn", text)
        self.write("history", b"workers 1 entries 0\n")
        for words in (["race", "--workers", "2", "scn"], ["audit", "scn", "history"]):
            found = self.do(words, text)
            wanted = Outcome(b"", fault_of(min(numbers)), 1)
            self.expect(found == wanted, f"{' '.join(words)} ends with {show(found)} and not {show(wanted)}", text)

    def check_without(self, text, bad_line, first):
        """Leaves out what changes nothing, and returns the scenario as a race takes it, with its answers."""
        lines = list_lines(text)[: None if bad_line is None else bad_line - 1]
        answers = iter(list_lines(first.answers))
        taken = [(line, words, next(answers) if is_command(words) else None) for line, words in zip(lines, list_words(text, bad_line))]
        quiet = [it for it in taken if not it[1] or it[1][0] not in FURTHER_READS]
        changing = [it for it in quiet if it[2] is None or not it[2].startswith((b"refused", b"snapshot"))]
        for some, what in ((quiet, "reads"), (changing, "reads and refused commands")):
            if len(some) == len(lines):
                continue
            found = self.run(b"".join(line + b"\n" for line, _, _ in some))
            wanted = Outcome(b"".join(answer + b"\n" for _, _, answer in some if answer is not None), b"", 0)
            self.expect(found == wanted, f"without {what} it ends with {show(found)} and not {show(wanted)}", text)
        commands = [(words[0], answer) for _, words, answer in quiet if answer is not None]
        return b"".join(line + b"\n" for line, _, _ in quiet), commands, read_setting([words for _, words, _ in quiet], b"last", 0)

    def check_race_alone(self, rng, text, commands, last):
        """Compares a race of one worker, and its history, with the answers of a run."""
        kinds = collections.Counter(answer.split(b" ")[0] for _, answer in commands)
        accepted, removes, syncs = kinds[b"accepted"], kinds[b"removed"], kinds[b"kept"]
        report = b"race 1 accepted %d refused %d removes %d syncs %d reads %d entries %d last %d\naudit legal\n" % (
            *(accepted, kinds[b"refused"], removes, syncs, kinds[b"snapshot"]),
            *(accepted + removes + syncs, last + accepted),
        )
        found, history = self.race(text, 1)
        self.expect(found == Outcome(report, b"", 0), f"a race alone ends with {show(found)} and not {report!r}", text)
        changes = [(j, answer) for j, (_, answer) in enumerate(commands) if not answer.startswith((b"refused", b"snapshot"))]
        entries = [b"entry %d 0 %d %s\n" % (place, j, answer) for place, (j, answer) in enumerate(changes)]
        self.expect(history == tell_head(1, len(entries)) + b"".join(entries), "a race alone has another history than a run", text, history)
        self.check_audits(rng, text, history)

    def race(self, text, workers):
        """Returns the outcome of a race, and its history."""
        self.counts["races"] += 1
        self.write("scn", text)
        self.write("history", b"none\n")
        found = self.do(["race", "--workers", f"{workers}", "--history", "history", "--svg", "picture", "scn"], text)
        with open(f"{self.room}/history", "rb") as file:
            history = file.read()
        with open(f"{self.room}/picture", "rb") as file:
            picture = file.read()
        drawn = picture.startswith(b"<svg ") and picture.endswith(b"</svg>\n")
        self.expect(drawn, f"a race of {workers} has no picture and ends with {show(found)}", text, history)
        return found, history

    def check_race(self, rng, text, workers):
        """Sees that the numbers of a race of some workers fit one another and its history."""
        found, history = self.race(text, workers)
        report = REPORT.fullmatch(found.answers)
        self.expect(report and not found.errors, f"a race of {workers} ends with {show(found)}", text, history)
        told, accepted, refused, removes, syncs, reads, entries, last = map(int, report.groups())
        lines = list_words(text)
        asked = collections.Counter(words[0] for words in lines if is_command(words))
        fits = told == workers and accepted + removes + syncs == entries and entries + refused + reads == sum(asked.values())
        fits = fits and reads == asked[b"snapshot"] and removes <= asked[b"remove"] and syncs <= asked[b"sync"]
        fits = fits and last == read_setting(lines, b"last", 0) + accepted
        self.expect(fits, f"a race of {workers} tells {show(found)}", text, history)
        self.expect(history.count(b"\n") == 1 + entries, "the history has another number of entries", text, history)
        self.check_audits(rng, text, history)

    def audit(self, text, history):
        """Audits a history over the scenario that stands in the room, and sees that what is written fits."""
        self.counts["audits"] += 1
        self.write("history", history)
        found = self.do(["audit", "scn", "history"], text, history)
        fault = AUDIT_FAULT.fullmatch(found.errors)
        fits = found == LEGAL or (fault and not found.answers and int(fault[1]) <= history.count(b"\n") + 1)
        self.expect(fits, f"an audit ends with {show(found)}", text, history)
        self.answers["audit " + ("legal" if found == LEGAL else found.errors.split(b" ")[1].decode())] += 1
        return found

    def check_audits(self, rng, text, history):
        """Audits a race's history and a beginning of it, which are legal where the first line tells so, and edited ones."""
        lines = [line + b"\n" for line in list_lines(history)]
        workers = int(lines[0].split()[1])
        for count in {len(lines), rng.randrange(1, len(lines) + 1)}:
            found = self.audit(text, b"".join(lines[:count]))
            wanted = LEGAL if count == len(lines) else Outcome(b"", SHORT % (count - 1), 1)
            self.expect(found == wanted, f"an audit of its first {count} lines ends with {show(found)}", text, history)
            found = self.audit(text, tell_head(workers, count - 1) + b"".join(lines[1:count]))
            self.expect(found == LEGAL, f"an audit of its first {count - 1} entries ends with {show(found)}", text, history)
        edited = edit_history(rng, history)
        found = self.audit(text, edited)
        self.expect(found == self.audit(text, edited), "an audit ends otherwise the second time", text, edited)
