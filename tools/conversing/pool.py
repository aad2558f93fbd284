"""The pool: what it holds, what changes it, and the ledger states that it may go back to."""

from __future__ import annotations

from collections.abc import Iterable
from typing import NamedTuple

from .rules import Broken, Unspent, Verifier, applied, apply_to, first_broken
from .transactions import Output, Ref, Tx

LAST_TICKET = 2**64 - 1
MOST_FORMER = 2160


class LedgerState(NamedTuple):
    tick: int
    block_bytes: int
    outputs: dict[Ref, Output]


class Item(NamedTuple):
    ticket: int
    tx: Tx


class Refused(Exception):
    """Why nothing has changed: a word, and what stands behind it."""

    def __init__(self, broken: Broken) -> None:
        self.broken = broken


class Block(NamedTuple):
    items: list[Item]
    size: int


def size_of(items: Iterable[Item]) -> int:
    return sum(item.tx.size for item in items)


class Pool:
    """A pool. Its lists and mappings are never changed in place, so that a shallow copy is a pool of its own."""

    def __init__(self, ledger: LedgerState, limit: int, last: int, verifier: Verifier) -> None:
        self.ledger, self.limit, self.last, self.verifier = ledger, limit, last, verifier
        self.items: list[Item] = []
        self.changes = 0
        self.former: list[LedgerState] = []
        self._unspent: Unspent | None = None

    def unspent(self) -> Unspent:
        """Gives what may be spent after all that the pool holds."""
        if self._unspent is None:
            self._unspent = applied((item.tx for item in self.items), self.ledger.outputs)
        return self._unspent

    def free(self) -> int:
        return max(0, 2 * self.ledger.block_bytes - size_of(self.items))

    def held(self, id: bytes) -> Item | None:
        return next((item for item in self.items if item.tx.id == id), None)

    def check(self, tx: Tx) -> int:
        """Gives the ticket that a submit of the transaction would be given."""
        self._begin_change()
        if self.last == LAST_TICKET:
            raise Refused(("tickets",))
        held = self.held(tx.id)
        if held:
            raise Refused(("already", held.ticket))
        if tx.size > self.free():
            raise Refused(("full", tx.size, self.free()))
        broken = first_broken(tx, self.ledger.tick, self.unspent(), self.verifier)
        if broken:
            raise Refused(broken)
        return self.last + 1

    def submit(self, tx: Tx) -> int:
        self.last = self.check(tx)
        self.items = [*self.items, Item(self.last, tx)]
        self._unspent = applied([tx], self.unspent())
        self._count_change()
        return self.last

    def remove(self, ids: set[bytes]) -> tuple[list[Item], list[Item]]:
        """Gives what was taken out, and what was dropped with it."""
        self._begin_change()
        removed = [item for item in self.items if item.tx.id in ids]
        _, dropped = self._look_anew(self.ledger, [item for item in self.items if item.tx.id not in ids])
        self._count_change()
        return removed, dropped

    def sync(self, ledger: LedgerState) -> tuple[list[Item], list[Item]]:
        """Adopts a ledger state, and gives what was kept and what was dropped."""
        self._begin_change()
        self.former = [*self.former, self.ledger][-MOST_FORMER:]
        return self._move_to(ledger)

    def adopt(self, tick: int, block_bytes: int, txs: list[Tx]) -> tuple[list[Item], list[Item]]:
        """Adopts the ledger state after a block. A refusal has the transaction that isn't valid, and then why."""
        unspent = dict(self.ledger.outputs)
        for place, tx in enumerate(txs):
            broken = first_broken(tx, tick, unspent, self.verifier)
            if broken:
                raise Refused(("adopt", place, *broken))
            apply_to(tx, unspent)
        return self.sync(LedgerState(tick, block_bytes, unspent))

    def back(self, count: int) -> tuple[list[Item], list[Item]]:
        """Goes back to the ledger state before so many others were adopted."""
        kept = len(self.former)
        if count > kept:
            raise Refused(("back", kept))
        self._begin_change()
        ledger = self.former[kept - count] if count else self.ledger
        self.former = self.former[: kept - count]
        return self._move_to(ledger)

    def stays(self, ledger: LedgerState) -> list[Item]:
        """Gives what would stay upon a ledger state."""
        unspent = dict(ledger.outputs)
        stays = []
        for item in self.items:
            if first_broken(item.tx, ledger.tick, unspent, self.verifier) is None:
                stays.append(item)
                apply_to(item.tx, unspent)
        return stays

    def _move_to(self, ledger: LedgerState) -> tuple[list[Item], list[Item]]:
        kept, dropped = self._look_anew(ledger, self.items)
        self._count_change()
        return kept, dropped

    def _look_anew(self, ledger: LedgerState, items: list[Item]) -> tuple[list[Item], list[Item]]:
        """Leaves of the items those that are valid upon the ledger state, which the pool has from then on."""
        self.ledger, self.items, self._unspent = ledger, items, None
        self.items = self.stays(ledger)
        kept = {item.ticket for item in self.items}
        return self.items, [item for item in items if item.ticket not in kept]

    def _begin_change(self) -> None:
        """Refuses the change if the pool makes no more."""

    def _count_change(self) -> None:
        """Counts a change, and begins anew where as many were made as the limit says."""
        self.changes = (self.changes + 1) % self.limit

    def after(self, ticket: int) -> list[Item]:
        return [item for item in self.items if item.ticket > ticket]

    def lookup(self, ticket: int) -> Item | None:
        return next((item for item in self.items if item.ticket == ticket), None)

    def take(self, most_bytes: int) -> Block:
        """Gives the oldest items in a row that have at most so many bytes."""
        return self._beginning(self.items, len(self.items), most_bytes)

    def offer(self, offered: int, most: int, most_bytes: int) -> list[Item]:
        """Gives what a peer is offered next that was offered all up to a ticket."""
        return self._beginning(self.after(offered), most, most_bytes).items

    @staticmethod
    def _beginning(items: list[Item], most: int, most_bytes: int) -> Block:
        chosen: list[Item] = []
        size = 0
        for item in items[:most]:
            if size + item.tx.size > most_bytes:
                break
            chosen.append(item)
            size += item.tx.size
        return Block(chosen, size)


class SharedPool(Pool):
    """A pool that several conversations share. It makes as many changes as the limit says, and then refuses each."""

    def _begin_change(self) -> None:
        if self.changes == self.limit:
            raise Refused(("history",))

    def _count_change(self) -> None:
        self.changes += 1
