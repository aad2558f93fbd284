#!/usr/bin/env python3
"""A node that keeps transactions in a pool: the events of docs/SERVE.md, one after the other.

    python3 clients/python/example.py PROGRAM | diff clients/python/example.out -
"""

from __future__ import annotations

import hashlib
import sys
from collections.abc import Iterable

sys.dont_write_bytecode = True
from keltuvar import Item, Pool, Refused, Undecodable

# The script that always accepts, and the datum without content.
VALIDATOR, DATUM = b"\x01", b"\x03\x00\x00"
ADDRESS, DATUM_HASH = hashlib.sha256(VALIDATOR).digest(), hashlib.sha256(DATUM).digest()
ALICE, BOB = "aa" * 32, "bb" * 32


def output_bytes(coin: int) -> bytes:
    """Returns the bytes of an output of so much coin."""
    return ADDRESS + DATUM_HASH + b"\x00\x01" + bytes(33) + coin.to_bytes(8, "big")


def transaction_bytes(spent_id: str, spent_index: int, *coins: int) -> bytes:
    """Returns the bytes of a transaction that spends an output and pays others, as a wallet does."""
    spent = bytes.fromhex(spent_id) + spent_index.to_bytes(2, "big")
    unlock = b"\x00\x01" + VALIDATOR + (b"\x00\x03" + DATUM) * 2
    outputs = len(coins).to_bytes(2, "big") + b"".join(output_bytes(coin) for coin in coins)
    always = bytes(8) + b"\xff" * 8
    return b"\x01\x00\x01" + spent + unlock + outputs + always + bytes(6)


def names(items: Iterable[Item]) -> str:
    return ", ".join(f"{item.name} under ticket {item.ticket}" for item in items) or "nothing"


def submit(pool: Pool, name: str) -> None:
    try:
        print(f"{name}: accepted under ticket {pool.submit(name)}")
    except Refused as refused:
        print(f"{name}: refused as {refused}")


def receive(pool: Pool, name: str, data: bytes) -> None:
    """A transaction comes from a peer or a wallet."""
    try:
        print(f"{name}: {pool.tx_from_bytes(name, data).size} bytes")
    except Undecodable as undecodable:
        print(f"{name}: {undecodable}")
        return
    submit(pool, name)


def run_node(pool: Pool) -> None:
    # The node starts, with the unspent outputs of its ledger state.
    pool.settings(block=300, tick=1)
    pool.utxo(ALICE, 0, output_bytes(100))
    pool.utxo(BOB, 0, output_bytes(50))

    # Transactions come.
    pay = transaction_bytes(ALICE, 0, 100)
    pay_id = hashlib.sha256(pay[:-2]).hexdigest()
    receive(pool, "spend", transaction_bytes(pay_id, 0, 60, 40))
    receive(pool, "cut", pay[:-1])
    receive(pool, "pay", pay)
    submit(pool, "spend")
    submit(pool, "pay")
    receive(pool, "save", transaction_bytes(BOB, 0, 50))
    print(f"the pool holds {names(pool.snapshot().items)}")

    # A peer asks for transactions.
    offered = pool.offer(9, 400)
    print(f"offered: {names(offered)}, {len(pool.show(offered[0].name).data)} bytes")
    print(f"offered then: {names(pool.offer(9, 400))}")

    # A block is forged, and adopted.
    block = pool.forge(300)
    print(f"a block of {block.size} bytes: {names(block.items)}")
    change = pool.adopt(2, [item.name for item in block.items])
    print(f"adopted: tickets {change.kept} stay, {change.dropped} go")
    pool.forget(*(item.name for item in block.items))
    submit(pool, "save")

    # The chain is rolled back, and the block's transaction comes again.
    change = pool.back(1)
    print(f"rolled back: tickets {change.kept} stay, {change.dropped} go")
    receive(pool, "again", pay)
    stats = pool.stats()
    print(f"{stats.count} transactions, {stats.size} bytes, {stats.free} free, {stats.changes} changes")
    print(f"refusals: {dict(stats.refusals)}")


def main() -> int:
    if len(sys.argv) != 2:
        print(__doc__, file=sys.stderr)
        return 2
    # A node whose transactions are signed starts it with `signatures="ed25519"`.
    with Pool(sys.argv[1], timeout=60) as pool:
        run_node(pool)
    print(f"the program has ended with status {pool.status}")
    return pool.status or 0


if __name__ == "__main__":
    sys.exit(main())
