"""What the files of the repository say, for the programs of this folder: crates.txt, words of lines and refusals, and options of scenarios."""

import os
import re
import shutil
import sys
from importlib.machinery import SourceFileLoader
from importlib.util import module_from_spec, spec_from_loader
from typing import NamedTuple

TOP = os.path.dirname(os.path.dirname(os.path.abspath(__file__)))
# The folders of a crate that the prover reads.
SOURCES = ("src", "specs", "proofs")
ANSWER_TEXT = "crates/mp_answers/specs/AnswerText.antt"
RULES = "crates/mp_rules/specs"


class Rule(NamedTuple):
    """A rule of validity, as the specs have it: its number, the fault of a transaction that breaks it, and the word of that."""

    number: int
    fault: str
    word: str


def read(path):
    with open(f"{TOP}/{path}", encoding="utf-8") as file:
        return file.read()


def read_crates():
    """Returns the line of each crate, and the repository's crates that it names behind the colon."""
    lines, named = {}, {}
    with open(f"{TOP}/crates.txt", encoding="utf-8") as file:
        for line in file:
            words, colon, libraries = line.partition("#")[0].partition(":")
            if colon:
                name = words.split()[0]
                lines[name], named[name] = line, libraries.split()
    return lines, {name: [it for it in libraries if it in lines] for name, libraries in named.items()}


def read_refusal_words():
    """Returns the words of refusals, in the order of the specs. That of an allocation failure is never answered."""
    words = re.search(r"^refusal_words =((?:\s+(?:∷ )?codes \S+)+)", read(ANSWER_TEXT), re.M)[1]
    return re.findall(r'codes "(\S+)"', words)


def read_rules():
    """Returns the rules of validity, in the order in which they are checked."""
    validity = read(f"{RULES}/Validity.antt")
    order = re.findall(r"\w+", re.search(r"^rules =((?:\s+(?:∷ )?\w+)+)", validity, re.M)[1])
    numbers = {rule: int(number) for rule, number in re.findall(r"^row (\w+) = record \{\s+number = (\d+);", validity, re.M)}
    of = re.findall(r"^rule_of \(?rule\.(\w+).* = Some (\w+)$", read(f"{RULES}/FirstFault.antt"), re.M)
    faults = {rule: fault for fault, rule in of}
    words = read_refusal_words()
    places = [int(place) for place in re.findall(r"\d+", re.search(r"^rule_places = (.*) ∷ \[\]$", read(ANSWER_TEXT), re.M)[1])]
    return [Rule(numbers[rule], faults[rule], words[places[numbers[rule] - 1]]) for rule in order]


def read_details():
    """Returns for the word of each refusal which texts come after it, as number_text, policy_text or token_text."""
    answers, words = read(ANSWER_TEXT), read_refusal_words()
    places = {name: int(place) for name, place in re.findall(r"^refusal_place \(?refusals\.(\w+).* = (\d+)$", answers, re.M)}
    told = {f"refusals.{name}": words[place] for name, place in places.items()}
    told |= {f"rules.{rule.fault}": rule.word for rule in read_rules()}
    texts = re.findall(r"^told_of_\w+ names \(?((?:refusals|rules)\.\w+).* = (.*)$", answers, re.M)
    return {told[name]: re.findall(r"\w+_text", text) for name, text in texts if name in told}


def read_first_words(path):
    """Returns the words with which the lines begin whose forms are in a file."""
    return re.findall(r'^    word: b"(\w+)",$', read(path), re.M)


def read_scenario_words():
    """Returns the first words of the lines of scenarios."""
    return read_first_words("crates/mp_lines/src/forms.rt") + read_first_words("crates/mp_lines/src/query.rt")


def read_talk_words():
    """Returns the first words of the lines of conversations, among which are those of scenarios."""
    return list(dict.fromkeys(read_scenario_words() + read_first_words("crates/mp_serve/src/ask.rt")))


def read_flags(name):
    """Returns the options in NAME.args, or none if there is no such file."""
    if not os.path.exists(f"{name}.args"):
        return []
    with open(f"{name}.args", encoding="utf-8") as file:
        return file.read().split()


def with_all_below(names, below):
    """Returns the crates with all that they stand on, each behind what it stands on."""
    found = []

    def add(name):
        if name not in found:
            for lower in below[name]:
                add(lower)
            found.append(name)

    for name in names:
        add(name)
    return found


def stop_on_unknown(names, known):
    """Ends with status 2 where a name is no crate."""
    unknown = [name for name in names if name not in known]
    if unknown:
        print(f"{os.path.basename(sys.argv[0])}: crates.txt has no crate {', '.join(unknown)}", file=sys.stderr)
        sys.exit(2)


def link(source, target):
    """Has a file stand at a second place too, or copies it where the two are on different devices."""
    try:
        os.link(source, target)
    except OSError:
        shutil.copy2(source, target)


def copy_built(name, to):
    """Has what was built of a library stand in a copy of the repository too."""
    built = f"crates/{name}/out/rlib"
    if os.path.isdir(f"{TOP}/{built}"):
        shutil.copytree(f"{TOP}/{built}", f"{to}/{built}", copy_function=link)


def load_program(path):
    """Returns a program that is written in Python, as a module. It finds what stands in its own folder."""
    folder, name = os.path.split(os.path.realpath(path))
    if folder not in sys.path:
        sys.path.insert(0, folder)
    loader = SourceFileLoader(name, f"{folder}/{name}")
    module = module_from_spec(spec_from_loader(name, loader))
    loader.exec_module(module)
    return module


def tell_usage(usage, is_enough):
    """Prints a program's own account of itself where that is asked for, or ends with status 2 where words are wanting."""
    if sys.argv[1:2] in (["--help"], ["-h"]):
        print(usage.strip())
        sys.exit(0)
    if not is_enough:
        print(usage.strip(), file=sys.stderr)
        sys.exit(2)


def apply_edit(folder, edit):
    """Returns the files of a crate as an edit makes them, by their paths, or raises ValueError where it can't be made."""
    texts, path, old = {}, None, None
    with open(edit, encoding="utf-8") as file:
        lines = file.read().split("\n")
    for line in lines:
        if line.startswith("file: "):
            path = line[len("file: ") :].strip()
            with open(f"{folder}/{path}", encoding="utf-8") as file:
                texts.setdefault(path, file.read())
        elif line.startswith("old: "):
            old = line[len("old: ") :]
            if path is None or texts[path].count(old) != 1:
                raise ValueError(f"'{old}' doesn't stand once in {path}")
        elif line.startswith("new:"):
            new = line[len("new:") :]
            texts[path] = texts[path].replace(old, new[new.startswith(" ") :])
    if not old:
        raise ValueError("it turns nothing")
    return texts
