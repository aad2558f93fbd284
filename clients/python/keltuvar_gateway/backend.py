"""What a gateway asks of a pool, whatever conversations it holds with it."""

from __future__ import annotations

from abc import ABC, abstractmethod
from collections import Counter
from dataclasses import dataclass

from keltuvar import KeltuvarError, Refused, Stats, Undecodable

from .holdings import Held
from .program import Program
from .state import State


class Busy(Exception):
    """As many submits as allowed wait for the pool, or all conversations are taken."""


class BadStart(Exception):
    """The pool doesn't take the settings, outputs and transactions that it is to begin with."""


@dataclass(frozen=True, slots=True)
class Receipt:
    """What came of a submit."""

    id: str | None
    """The transaction's id; None if its bytes are no transaction."""
    ticket: int | None
    """Its ticket; None if it wasn't accepted."""
    error: KeltuvarError | None
    """Why it wasn't accepted."""

    @property
    def word(self) -> str:
        """What came of it in a word: `accepted`, `undecodable`, or the refusal's."""
        match self.error:
            case None:
                return "accepted"
            case Refused(word=word):
                return word
            case Undecodable():
                return "undecodable"
        return "no-memory"


@dataclass(frozen=True, slots=True)
class View:
    """All that the pool held at one moment."""

    tick: int
    stats: Stats
    transactions: tuple[Held, ...]
    """What it held, oldest first."""


class Session(ABC):
    """What a connection of the client socket talks to."""

    @abstractmethod
    async def ask(self, line: str) -> str:
        """Returns the answer to a line, for one that is bad whatever its number is.

        Raises a ValueError if clients may not send it, `Busy` if too many submits wait, and a
        KeltuvarError if there is no memory.
        """

    @abstractmethod
    def end(self) -> None:
        """Ends it. What was its own isn't that of the next one."""


class Backend(ABC):
    """A pool. A call raises `Down` while the pool's process isn't there."""

    answers: Counter[str]
    """How often each word was the receipt's of a client's submit."""

    @abstractmethod
    async def open(self) -> Program:
        """Starts a process of the pool, and gives it all that the gateway knows.

        Raises an OSError if it can't be run, `BadStart` if it doesn't take that, and `Down` if it
        ends meanwhile.
        """

    @property
    @abstractmethod
    def running(self) -> bool:
        """Whether the pool takes transactions."""

    @property
    @abstractmethod
    def count(self) -> int:
        """How many transactions the pool holds."""

    @property
    @abstractmethod
    def waiting(self) -> int:
        """How many lines wait for an answer of the pool."""

    @abstractmethod
    async def submit(self, data: bytes) -> Receipt:
        """Submits a transaction. Raises `Busy` if too many others wait."""

    @abstractmethod
    async def open_session(self) -> Session:
        """Begins to talk to a connection. Raises `Busy` if there are too many others."""

    @abstractmethod
    def find(self, transaction_id: str) -> Held | None:
        """Returns the transaction of this id that the pool holds, or None."""

    @abstractmethod
    def dependents(self, transaction_id: str, outputs: int) -> dict[str, list[int]]:
        """Returns what in the pool names outputs of a transaction: ids, and indices of outputs."""

    @abstractmethod
    def has_output(self, reference: bytes) -> bool:
        """Returns whether the ledger state has this output."""

    @abstractmethod
    def newest(self, count: int) -> tuple[Held, ...]:
        """Returns the newest transactions, the newest first."""

    @abstractmethod
    async def after(self, ticket: int, limit: int) -> tuple[Held, ...]:
        """Returns the oldest transactions with greater tickets."""

    @abstractmethod
    async def lookup(self, ticket: int) -> Held | None:
        """Returns the transaction with this ticket, or None."""

    @abstractmethod
    async def stats(self) -> tuple[int, Stats]:
        """Returns the tick of the ledger state, and the pool's numbers."""

    @abstractmethod
    async def snapshot(self) -> View:
        """Returns all that the pool holds."""

    @abstractmethod
    async def wait_for_change(self) -> None:
        """Returns once a transaction came to the pool or left it."""

    @abstractmethod
    async def operate(self, line: str) -> str:
        """Sends a line of the operator's, and returns its answer."""

    @abstractmethod
    def copy_state(self) -> State:
        """Returns what is to be known for a new start."""
