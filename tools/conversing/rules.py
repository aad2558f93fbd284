"""The rules of validity, in the order in which they are looked at."""

from __future__ import annotations

from collections.abc import Callable, Iterable, Iterator, Mapping

from . import bundles
from .scripts import Own, Paid, View, accepts
from .transactions import Output, Ref, Signature, Tx

Unspent = Mapping[Ref, Output]
Verifier = Callable[[Signature, bytes], bool]
Broken = tuple  # The word of a rule, and what stands behind it: a place, a policy, a token or the first byte of a key.


def is_key_then_id(signature: Signature, id: bytes) -> bool:
    """Accepts the signatures of scenarios."""
    return signature.octets == signature.key + id


def is_anything(signature: Signature, id: bytes) -> bool:
    """Accepts all signatures."""
    return True


def first_broken(tx: Tx, tick: int, unspent: Unspent, verifier: Verifier) -> Broken | None:
    """Gives the first rule that the transaction breaks."""
    for look in (_own, _outputs_there, _fits, _tokens, _signed, _scripts):
        for broken in look(tx, tick, unspent, verifier):
            return broken
    return None


def _own(tx: Tx, tick: int, unspent: Unspent, verifier: Verifier) -> Iterator[Broken]:
    if not tx.parts.inputs:
        yield ("no-inputs",)
    if not tx.parts.start <= tick <= tx.parts.end:
        yield ("interval",)
    for place, output in enumerate(tx.parts.outputs):
        if any(quantity < 0 for quantity in output.value.values()):
            yield ("negative", place)


def _outputs_there(tx: Tx, tick: int, unspent: Unspent, verifier: Verifier) -> Iterator[Broken]:
    for place, one in enumerate(tx.parts.inputs):
        if one.ref not in unspent:
            yield ("missing", place)
    for place, ref in enumerate(tx.parts.references):
        if ref not in unspent:
            yield ("reference", place)


def _fits(tx: Tx, tick: int, unspent: Unspent, verifier: Verifier) -> Iterator[Broken]:
    for place, one in enumerate(tx.parts.inputs):
        if one.validator.hash != unspent[one.ref].address:
            yield ("address", place)
    for place, one in enumerate(tx.parts.inputs):
        if one.datum.hash != unspent[one.ref].datum_hash:
            yield ("datum", place)
    for ref, _ in tx.made():
        if ref in unspent:
            yield ("taken", ref.place)


def _tokens(tx: Tx, tick: int, unspent: Unspent, verifier: Verifier) -> Iterator[Broken]:
    carried = {policy.hash for policy in tx.parts.policies}
    missing = [policy for policy, _ in tx.parts.forged if policy not in carried]
    if missing:
        yield ("no-policy", min(missing))
    spent = [unspent[one.ref].value for one in tx.parts.inputs]
    paid = [output.value for output in tx.parts.outputs]
    token = bundles.least_difference(bundles.total([*spent, tx.parts.forged]), bundles.total(paid))
    if token is not None:
        yield ("unbalanced", token)


def _signed(tx: Tx, tick: int, unspent: Unspent, verifier: Verifier) -> Iterator[Broken]:
    for signature in tx.parts.signatures:
        if not verifier(signature, tx.id):
            yield ("signature", signature.key[0])


def _scripts(tx: Tx, tick: int, unspent: Unspent, verifier: Verifier) -> Iterator[Broken]:
    view = view_of(tx, unspent)
    for place, one in enumerate(tx.parts.inputs):
        own = Own(one.datum, one.redeemer, unspent[one.ref].value)
        if not accepts(one.validator, view._replace(own=own)):
            yield ("validator", place)
    for place, policy in enumerate(tx.parts.policies):
        if not accepts(policy, view):
            yield ("policy-script", place)


def view_of(tx: Tx, unspent: Unspent) -> View:
    """Gives what a policy script of a transaction sees, all outputs that it names being there."""
    parts = tx.parts
    return View(
        start=parts.start,
        end=parts.end,
        keys=frozenset(signature.key for signature in parts.signatures),
        forged=parts.forged,
        spent=bundles.total(unspent[one.ref].value for one in parts.inputs),
        outputs=[Paid(*output) for output in parts.outputs],
        references=[Paid(*unspent[ref]) for ref in parts.references],
        own=None,
    )


def apply_to(tx: Tx, unspent: dict[Ref, Output]) -> None:
    """Takes out what the transaction spends, and puts in what it makes."""
    for one in tx.parts.inputs:
        unspent.pop(one.ref, None)
    unspent.update(tx.made())


def applied(txs: Iterable[Tx], unspent: Unspent) -> dict[Ref, Output]:
    """Gives what may be spent after the transactions."""
    left = dict(unspent)
    for tx in txs:
        apply_to(tx, left)
    return left
