"""The lines of the operator's that change what the gateway keeps copies of."""

from __future__ import annotations

from keltuvar import Shown, answers, words

from .ledger import Ledger
from .transactions import Reference, decode, make_reference


class Operation:
    """A line of the operator's, and the lines that show what it names."""

    def __init__(self, line: str) -> None:
        self.words = line.split()
        self.fault = self._find_fault()
        """Why the gateway doesn't pass the line on, or nothing."""
        self.shown: list[str] = []
        """The answers to the lines before."""
        self.before = [f"show {name}" for name in self._names()]
        """The lines to be sent before this one."""

    def _find_fault(self) -> str:
        match self.words:
            case ["stage", *_]:
                return "the gateway wouldn't know what is staged"
        return ""

    def _names(self) -> list[str]:
        """Returns the names of the transactions whose bytes have to be known."""
        match self.words:
            case ["submit", name]:
                return [name]
            case ["adopt", _, *rest]:
                return _without_block(rest)
            case ["sync", _, *rest]:
                return list(dict.fromkeys(one.partition(".")[0] for one in _without_block(rest)))
        return []

    def transactions(self) -> list[Shown]:
        """Returns the transactions that the line names."""
        return [answers.read_shown(answer) for answer in self.shown]

    def move(self, ledger: Ledger) -> None:
        """Does what the line did to the ledger state."""
        number = words.read_number(self.words[1])
        block = next((int(word[6:]) for word in self.words if word.startswith("block=")), None)
        match self.words[0]:
            case "adopt":
                ledger.adopt(number, block, [(tx.id, tx.data) for tx in self.transactions()])
            case "sync":
                ledger.sync(number, block, self._synced())
            case "back":
                ledger.back(number)

    def _synced(self) -> dict[Reference, bytes]:
        """Returns the outputs that a `sync` line names."""
        names = (name.removeprefix("show ") for name in self.before)
        known = dict(zip(names, self.transactions(), strict=True))
        outputs = {}
        for word in _without_block(self.words[2:]):
            name, _, place = word.partition(".")
            shown = known[name]
            outputs[make_reference(shown.id, int(place))] = (
                decode(shown.data).outputs[int(place)].data
            )
        return outputs


def _without_block(rest: list[str]) -> list[str]:
    return [word for word in rest if not word.startswith("block=")]
