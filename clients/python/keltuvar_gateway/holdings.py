"""The gateway's own copy of what the pool holds."""

from __future__ import annotations

from collections.abc import Iterable, Iterator

from .transactions import Reference, make_reference, read_references


class Held:
    """A transaction that the pool holds, or held."""

    __slots__ = ("_references", "data", "id", "ticket")

    def __init__(self, transaction_id: str, ticket: int, data: bytes) -> None:
        self.id, self.ticket, self.data = transaction_id, ticket, data
        self._references: frozenset[Reference] | None = None

    @property
    def references(self) -> frozenset[Reference]:
        """The outputs that it spends or refers to."""
        if self._references is None:
            self._references = read_references(self.data)
        return self._references


class Holdings:
    """The transactions of a pool, in the order of their tickets."""

    def __init__(self) -> None:
        self._by_id: dict[str, Held] = {}
        self._by_ticket: dict[int, Held] = {}

    def __len__(self) -> int:
        return len(self._by_ticket)

    def __iter__(self) -> Iterator[Held]:
        """The transactions, oldest first."""
        return iter(self._by_ticket.values())

    def __reversed__(self) -> Iterator[Held]:
        return reversed(self._by_ticket.values())

    def add(self, held: Held) -> None:
        """Adds a transaction, which has the greatest ticket."""
        if held.id in self._by_id or held.ticket in self._by_ticket:
            raise ValueError(f"ticket {held.ticket} or its transaction is in the pool already")
        self._by_id[held.id] = self._by_ticket[held.ticket] = held

    def drop(self, tickets: Iterable[int]) -> None:
        """Takes out the transactions with these tickets."""
        for held in self.pick(tickets):
            del self._by_id[held.id], self._by_ticket[held.ticket]

    def find(self, transaction_id: str) -> Held | None:
        """Returns the transaction of this id."""
        return self._by_id.get(transaction_id)

    def pick(self, tickets: Iterable[int]) -> tuple[Held, ...]:
        """Returns the transactions with these tickets. Each must be there."""
        return tuple(self._at(ticket) for ticket in tickets)

    def dependents(self, transaction_id: str, outputs: int) -> dict[str, list[int]]:
        """Returns, by their ids, what names outputs of a transaction, and which of them."""
        made = {make_reference(transaction_id, index): index for index in range(outputs)}
        found = ((held, held.references & made.keys()) for held in self)
        return {held.id: sorted(made[one] for one in used) for held, used in found if used}

    def _at(self, ticket: int) -> Held:
        held = self._by_ticket.get(ticket)
        if held is None:
            raise ValueError(f"the pool holds ticket {ticket}, which the gateway doesn't know")
        return held
