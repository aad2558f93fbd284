"""The JSON of answers."""

from __future__ import annotations

from collections.abc import Iterable
from typing import Any

from keltuvar import KeltuvarError, Refused, Stats, Undecodable

from .backend import Backend, Receipt
from .holdings import Held
from .transactions import Entry, Reference, decode, format_reference


def shape_refusal(receipt: Receipt, held: Held | None, data: bytes) -> dict[str, Any]:
    """Returns why a transaction wasn't accepted; `held` is what the pool has of its id."""
    error = receipt.error
    shape: dict[str, Any] = {"message": str(error)}
    if isinstance(error, Undecodable):
        shape["undecodable"] = error.fault
    if isinstance(error, Refused):
        fields = {name: value for name, value in vars(error).items() if value is not None}
        del fields["word"], fields["details"]
        shape |= {"refused": error.word, "id": receipt.id, **fields}
        if error.word == "already":
            # Signatures aren't part of the id, so the bytes may be others.
            shape["sameBytes"] = held is not None and held.data == data
    return shape


def is_final(error: KeltuvarError) -> bool:
    """Returns whether an error says something of the transaction, and not of the program."""
    return isinstance(error, Refused | Undecodable)


def shape_pool(tick: int, stats: Stats, answers: dict[str, int]) -> dict[str, Any]:
    """Returns the pool's numbers."""
    return {
        "count": stats.count,
        "bytes": stats.size,
        "capacity": stats.size + stats.free,
        "lastTicket": stats.last_ticket,
        "tick": tick,
        "changes": stats.changes,
        "answers": answers,
    }


def shape_list(transactions: Iterable[Held]) -> list[dict[str, Any]]:
    """Returns a list of transactions."""
    return [{"ticket": held.ticket, "id": held.id, "size": len(held.data)} for held in transactions]


def shape_bundle(bundle: Iterable[Entry]) -> list[dict[str, str]]:
    """Returns a bundle. Quantities are texts, as a number of JavaScript has only 53 bits."""
    return [
        {"policy": one.policy.hex(), "name": one.name.hex(), "quantity": str(one.quantity)}
        for one in bundle
    ]


def _shape_source(pool: Backend, reference: Reference) -> dict[str, str]:
    """Returns an output that a transaction names, and where it is."""
    source = "ledger" if pool.has_output(reference) else "gone"
    if pool.find(reference[:32].hex()):
        source = "pool"
    return {"output": format_reference(reference), "from": source}


def shape_transaction(pool: Backend, held: Held) -> dict[str, Any]:
    """Returns the parts of a transaction, and what in the pool names its outputs."""
    parts = decode(held.data)
    users = pool.dependents(held.id, len(parts.outputs))
    inputs = [
        _shape_source(pool, spent.reference)
        | {
            "validator": spent.validator.hex(),
            "datum": spent.datum.hex(),
            "redeemer": spent.redeemer.hex(),
        }
        for spent in parts.inputs
    ]
    outputs = [
        {
            "address": output.address.hex(),
            "datumHash": output.datum_hash.hex(),
            "bundle": shape_bundle(output.bundle),
            "usedBy": [user for user, places in users.items() if index in places],
        }
        for index, output in enumerate(parts.outputs)
    ]
    return {
        **shape_list([held])[0],
        "format": parts.version,
        "inputs": inputs,
        "references": [_shape_source(pool, reference) for reference in parts.references],
        "outputs": outputs,
        "firstTick": str(parts.first_tick),
        "lastTick": str(parts.last_tick),
        "forged": shape_bundle(parts.forged),
        "policyScripts": [script.hex() for script in parts.policy_scripts],
        "keys": [key.hex() for key in parts.keys],
        "dependents": list(users),
    }
