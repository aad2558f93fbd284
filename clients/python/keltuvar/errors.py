"""Errors. Each is a `KeltuvarError`, except a ValueError for a wrong argument."""

from __future__ import annotations

from .words import is_id, read_number


class KeltuvarError(Exception):
    """The base of all errors of this package."""


# For each word: the fields of the words after it, and what it means.
_REFUSALS: dict[str, tuple[tuple[str, ...], str]] = {
    "history": ((), "the pool has made as many changes as its limit allows"),
    "tickets": ((), "the last ticket has been given"),
    "already": (("ticket",), "the pool holds this transaction, under ticket {ticket}"),
    "full": (("need", "free"), "the transaction has {need} bytes, and {free} are free"),
    "no-inputs": ((), "the transaction has no input"),
    "interval": ((), "the pool's tick is outside the transaction's interval"),
    "negative": (("output",), "output {output} has a negative quantity"),
    "missing": (("input",), "input {input} names no unspent output"),
    "reference": (("reference",), "reference input {reference} names no unspent output"),
    "address": (("input",), "the validator of input {input} isn't that of the output it spends"),
    "datum": (("input",), "the datum of input {input} isn't that of the output it spends"),
    "taken": (("output",), "output {output} would have the reference of an unspent output"),
    "no-policy": (("policy",), "it forges tokens of policy {policy} without that script"),
    "unbalanced": (("policy", "token"), "it doesn't pay what it spends and forges of {name}"),
    "signature": (("key",), "a signature of key {key} isn't good"),
    "validator": (("input",), "the validator of input {input} doesn't accept"),
    "policy-script": (("policy_script",), "policy script {policy_script} doesn't accept"),
    "back": (("kept",), "only {kept} former ledger states are kept"),
}


class Refused(KeltuvarError):
    """A refusal. Nothing has changed. A field that the word doesn't have is None."""

    word: str
    """What was refused and why, like `missing` or `full`; `adopt` if a block isn't valid."""
    details: tuple[str, ...]
    """The words after it in the answer, without the id."""
    id: str | None = None
    """If the line was `give`: the transaction's id."""
    ticket: int | None = None
    """At `already`: the ticket under which the pool holds the transaction."""
    need: int | None = None
    """At `full`: the transaction's bytes."""
    free: int | None = None
    """At `full`: the bytes that are free."""
    input: int | None = None
    """At `missing`, `address`, `datum` and `validator`: the input's place, from 0."""
    output: int | None = None
    """At `negative` and `taken`: the output's place, from 0."""
    reference: int | None = None
    """At `reference`: the place of the reference input, from 0."""
    policy: str | None = None
    """At `no-policy` and `unbalanced`: the script's name, `coin`, or `#` and the policy's digits."""
    token: str | None = None
    """At `unbalanced`: the token's name, or `#` and its digits; None if it has no name."""
    key: int | None = None
    """At `signature`: the key's first byte."""
    policy_script: int | None = None
    """At `policy-script`: the place of the policy script, from 0."""
    kept: int | None = None
    """At `back`: how many former ledger states are kept."""
    transaction: str | None = None
    """At `adopt`: the name or the id of the block's first transaction that isn't valid."""
    cause: Refused | None = None
    """At `adopt`: why that transaction isn't valid."""

    def __init__(self, word: str, *details: str) -> None:
        """Reads the words after `refused`. Raises a ValueError if a known word has other words."""
        super().__init__(word, *details)
        if details and is_id(details[-1]):
            *words, self.id = details
            details = tuple(words)
        self.word, self.details = word, details
        if word == "adopt":
            self.transaction, cause, *words = details
            self.cause = Refused(cause, *words)
        elif word in _REFUSALS:
            self._read(_REFUSALS[word][0])

    def _read(self, fields: tuple[str, ...]) -> None:
        """Reads the details into these fields."""
        words: tuple[str | None, ...] = self.details
        if self.word == "unbalanced":
            (name,) = self.details
            policy, _, token = name.partition(".")
            words = (policy, token or None)
        for field, text in zip(fields, words, strict=True):
            is_text = field in ("policy", "token") or text is None
            setattr(self, field, text if is_text else read_number(str(text)))

    def __str__(self) -> str:
        if self.cause:
            return f"adopt: transaction '{self.transaction}' isn't valid: {self.cause}"
        if self.word not in _REFUSALS:
            return " ".join((self.word, *self.details))
        name = f"'{'.'.join(self.details)}'"
        return f"{self.word}: " + _REFUSALS[self.word][1].format(name=name, **vars(self))


_FAULTS = {
    "truncated": "they end too early",
    "trailing": "there are more of them than the transaction has",
    "version": "their first is neither 1 nor 2",
    "order": "inputs, references, policy scripts or signatures aren't strictly increasing",
    "bundle": "a bundle isn't in order, or has a wrong quantity or name",
    "script": "a validator or a policy script is none",
    "data": "a datum or a redeemer is none",
    "interval": "the first tick is after the last one",
    "large": "there are too many of them, or too many inputs, references or outputs",
    "spent": "an output is both spent and referred to",
    "references": "they say that there are references, and have none",
}


class Undecodable(KeltuvarError):
    """Bytes that are no transaction. Nothing was declared."""

    fault: str
    """What is wrong with them: a word like `truncated`."""

    def __init__(self, fault: str) -> None:
        super().__init__(fault)
        self.fault = fault

    def __str__(self) -> str:
        return f"the bytes are no transaction: {self.fault}: {_FAULTS.get(self.fault, 'unknown')}"


class BadLine(KeltuvarError):
    """A line that the program can't do, like one with an undeclared name. Nothing has changed."""

    number: int
    """The line's number in the conversation, from 1."""
    reason: str
    """What is wrong with it. The wording isn't fixed."""

    def __init__(self, number: int, reason: str) -> None:
        super().__init__(number, reason)
        self.number, self.reason = number, reason

    def __str__(self) -> str:
        return f"line {self.number}: {self.reason}"


class OutOfMemory(KeltuvarError):
    """The program is out of memory for the line. Nothing has changed; it may be sent again."""

    def __str__(self) -> str:
        return "the program is out of memory; nothing has changed"


class Timeout(KeltuvarError, TimeoutError):
    """A call had no answer in time."""

    line: str
    """The line, or the first of several; only its beginning if it is long."""
    seconds: float
    """How long the call waited."""
    sent: bool
    """Whether the line was sent. If so, its answer may still come and be mistaken for a later one:
    the conversation is ended, and the pool takes no further calls. If not, another thread's call
    took all the time. Nothing has happened, and the pool goes on."""

    def __init__(self, line: str, seconds: float, sent: bool) -> None:
        if sent:
            super().__init__(f"no answer to '{line}' within {seconds:g} s; the conversation was ended")
        else:
            super().__init__(f"'{line}' wasn't sent: other calls took {seconds:g} s")
        self.line, self.seconds, self.sent = line, seconds, sent

    def __reduce__(self) -> tuple[type[Timeout], tuple[str, float, bool]]:
        return type(self), (self.line, self.seconds, self.sent)


class Closed(KeltuvarError):
    """The pool was closed, so it takes no further calls."""


class Broken(KeltuvarError):
    """The program ended, or one of its answers may be missing. The pool takes no further calls."""

    reason: str
    """What happened."""
    status: int | None
    """The program's exit status, negative if a signal ended it; None if there is none."""
    stderr: str
    """The end of what the program wrote to standard error."""

    def __init__(self, reason: str, status: int | None = None, stderr: str = "") -> None:
        super().__init__(reason, status, stderr)
        self.reason, self.status, self.stderr = reason, status, stderr

    def __str__(self) -> str:
        return self.reason + (f": {self.stderr.strip()}" if self.stderr.strip() else "")
