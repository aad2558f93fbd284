"""Conversations over the lines of scenarios, for tools/fuzz: the answers that docs/SERVE.md allows, and those that a model expects."""

import re

from conversing import rules
from conversing.lines import RandomTalk
from conversing.talk import REFUSALS, Talk
from conversing.tally import FAULTS
from fuzzing.accounts import ANSWERS, split_words
from fuzzing.edits import list_lines
from repository import read_details, read_rules, read_scenario_words

# The model takes time in proportion to the lines and to what the pool holds.
MOST_MODELLED = 40_000
MOST_MODELLED_LINES = 2_000
# How often each kind of line is inserted that no scenario has, or that reads what such a line changed; before the pool is open, and after.
OPENING_KINDS = (
    (RandomTalk.say_utxo, 10),
    (RandomTalk.say_bytes, 2),
    (RandomTalk.say_forget, 1),
    (RandomTalk.say_show, 1),
    (RandomTalk.say_check, 0.2),
)
KINDS = (
    (RandomTalk.say_adopt, 8),
    (RandomTalk.say_back, 5),
    (RandomTalk.say_stage, 3),
    (RandomTalk.say_forged, 2),
    (RandomTalk.say_staged_outputs, 2),
    (RandomTalk.say_forget, 4),
    (RandomTalk.say_bytes, 4),
    (RandomTalk.say_twins, 1.5),
    (RandomTalk.say_check, 3),
    (RandomTalk.say_show, 2),
    (RandomTalk.say_read, 4),
    (RandomTalk.say_submit, 2),
    (RandomTalk.say_tx, 2),
    (RandomTalk.say_spoilt, 2),
    (RandomTalk.say_utxo, 0.3),
    (RandomTalk.say_long, 0.2),
)
# The lines that are inserted declare names from this number on, so that they leave the scenario's names free.
FIRST_NUMBER = 1_000_000

NUMBER = "(?:0|[1-9][0-9]*)"
NAME = "[a-z][a-z0-9]{0,15}"
HEX = "[0-9a-f]"
TX = f"(?:{NAME}|{HEX}{{64}})"
POLICY = f"(?:{NAME}|#{HEX}{{64}})"
TICKETS, ITEMS = f"(?: {NUMBER})*", f"(?: {NUMBER}:{TX})*"
TWO_LISTS = f"{TICKETS} dropped{TICKETS}"
# What the specs call the texts that come after the word of a refusal.
DETAILS = {"number_text": NUMBER, "policy_text": POLICY, "token_text": f"{POLICY}(?:\\.(?:[a-z0-9]+|#{HEX}+))?"}
# By the word of a refusal.
REFUSAL_FORMS = {word: " ".join([word, *(DETAILS[text] for text in texts)]) for word, texts in read_details().items()}
RULE = f"(?:{'|'.join(REFUSAL_FORMS[rule.word] for rule in read_rules())})"
OF_SUBMITS = [form for word, form in REFUSAL_FORMS.items() if word not in ("history", "memory")]
SUBMITTED = f"(?:accepted {NUMBER}|refused (?:{'|'.join(OF_SUBMITS)}))"
UNDECODABLE = f"undecodable (?:{'|'.join(FAULTS)})"
# The answers to a line by its first word, unless it is bad: lines of scenarios, and those that only a conversation takes.
FORMS = {
    **{word: "ok" for word in read_scenario_words() if word.encode() not in ANSWERS},
    "submit": SUBMITTED,
    "remove": f"removed{TWO_LISTS}",
    "sync": f"kept{TWO_LISTS}",
    "snapshot": f"snapshot {NUMBER} {NUMBER} {NUMBER}{ITEMS}",
    "after": f"after{ITEMS}",
    "lookup": f"lookup {TX}",
    "has": "has (?:yes|no)",
    "take": f"take {NUMBER} {NUMBER}{ITEMS}",
    "forge": f"block {NUMBER} {NUMBER}{ITEMS}",
    "offer": f"offer{ITEMS}",
    "for": f"for{ITEMS}",
}
TALK_FORMS = {
    "utxo": "ok",
    "bytes": f"tx {NUMBER} {HEX}{{64}}|{UNDECODABLE}",
    "give": f"{SUBMITTED} {HEX}{{64}}|{UNDECODABLE}",
    "stage": f"staged {NUMBER}|{UNDECODABLE}",
    **dict.fromkeys(["unstage", "ids", "names", "reset"], "ok"),
    "show": f"tx {NUMBER} {HEX}{{64}} (?:{HEX}{{2}})+",
    "check": SUBMITTED,
    "adopt": f"kept{TWO_LISTS}|refused adopt {TX} {RULE}",
    "back": f"kept{TWO_LISTS}|refused back {NUMBER}",
    "forget": f"forgotten {NUMBER}",
    "stats": f"stats(?: {NUMBER}){{5}}(?: (?:{'|'.join(REFUSALS)}) [1-9][0-9]*)*",
}
PATTERNS = {first.encode(): re.compile(form.encode()) for first, form in (FORMS | TALK_FORMS).items()}
# Begins a line that only a conversation takes.
TALK_LINE = re.compile(rb" *(?:%s)(?: |$)" % "|".join(TALK_FORMS).encode())


def has_form(number, line, answer):
    """Returns whether the answer to the line with this number has a form that the line's first word allows."""
    if re.fullmatch(rb"bad %d: [ -~]+" % number, answer):
        return True
    words = split_words(line)
    if not words:
        return answer == b"ok"
    return words[0] in PATTERNS and PATTERNS[words[0]].fullmatch(answer) is not None


def is_modelled(text):
    return len(text) <= MOST_MODELLED and text.count(b"\n") <= MOST_MODELLED_LINES


def expect_answers(text):
    """Returns the model's answers to the lines; those to bad lines as far as they are fixed."""
    talk = Talk(rules.is_key_then_id)
    return [talk.hear(line) for line in list_lines(text)]


def insert_lines(rng, text, checked):
    """Returns the lines of a text with others in between, and the model's answers to them."""
    talk = RandomTalk(rng, checked)
    talk.named = FIRST_NUMBER
    often = rng.choice((0.05, 0.2, 0.2, 0.5))
    for line in list_lines(text):
        if rng.random() < often:
            insert_line(rng, talk)
        talk.say(line)
        learn_scripts(talk)
    for _ in range(rng.randrange(4)):
        insert_line(rng, talk)
    return talk.lines, talk.answers


def insert_line(rng, talk):
    kinds, weights = zip(*(KINDS if talk.talk.pool else OPENING_KINDS))
    rng.choices(kinds, weights)[0](talk)


def learn_scripts(talk):
    """Has further transactions spend outputs with the scripts and data that the lines declare."""
    talk.known.scripts.update((script.hash, script) for script in talk.names.scripts.values())
    talk.known.data.update((datum.hash, datum) for datum in talk.names.data.values())
