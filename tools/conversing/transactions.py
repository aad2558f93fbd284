"""Transactions: their parts, their bytes in both formats, and the faults of these bytes."""

from __future__ import annotations

from collections.abc import Iterator
from hashlib import sha256
from typing import NamedTuple

from . import data, scripts
from .bundles import GREATEST, LONGEST_NAME, Bundle
from .data import Datum
from .scripts import Script

MOST_PARTS = 256  # Inputs, references, and outputs.
MOST_BYTES = 16_384
LAST_TICK = 2**64 - 1


class Fault(Exception):
    """The bytes are no transaction. The name is the one by which a conversation tells it."""

    def __init__(self, name: str) -> None:
        self.name = name


class NoTransaction(Exception):
    """The parts make no transaction."""


class Ref(NamedTuple):
    id: bytes
    place: int


class Input(NamedTuple):
    ref: Ref
    validator: Script
    datum: Datum
    redeemer: Datum


class Output(NamedTuple):
    address: bytes
    datum_hash: bytes
    value: Bundle


class Signature(NamedTuple):
    key: bytes
    octets: bytes


class Parts(NamedTuple):
    inputs: list[Input] = []
    references: list[Ref] = []
    outputs: list[Output] = []
    start: int = 0
    end: int = LAST_TICK
    forged: Bundle = {}
    policies: list[Script] = []
    signatures: list[Signature] = []


class Tx(NamedTuple):
    parts: Parts
    octets: bytes
    id: bytes

    @property
    def size(self) -> int:
        return len(self.octets)

    def made(self) -> list[tuple[Ref, Output]]:
        """Gives the outputs that it makes, with their references."""
        return [(Ref(self.id, place), output) for place, output in enumerate(self.parts.outputs)]


class Field(NamedTuple):
    """A run of a transaction's bytes, and what it is."""

    name: str
    octets: bytes


def of_number(name: str, number: int, length: int = 2) -> Field:
    return Field(name, number.to_bytes(length, "big"))


def spell_bundle(bundle: Bundle) -> Iterator[Field]:
    yield of_number("count", len(bundle))
    for (policy, name), quantity in sorted(bundle.items()):
        yield Field("policy", policy)
        yield of_number("name length", len(name), 1)
        yield Field("name", name)
        yield Field("quantity", quantity.to_bytes(8, "big", signed=True))


def spell_sized(name: str, octets: bytes) -> Iterator[Field]:
    yield of_number("length", len(octets))
    yield Field(name, octets)


def spell_ref(ref: Ref) -> Iterator[Field]:
    yield Field("id", ref.id)
    yield of_number("place", ref.place)


def spell_output(output: Output) -> Iterator[Field]:
    yield Field("hash", output.address)
    yield Field("hash", output.datum_hash)
    yield from spell_bundle(output.value)


def spell_body(parts: Parts) -> Iterator[Field]:
    """Spells all but the signatures, in the order in which the parts stand."""
    yield of_number("version", 2 if parts.references else 1, 1)
    yield of_number("count", len(parts.inputs))
    for ref, validator, datum, redeemer in parts.inputs:
        yield from spell_ref(ref)
        yield from spell_sized("script", validator.octets)
        yield from spell_sized("datum", datum.octets)
        yield from spell_sized("datum", redeemer.octets)
    if parts.references:
        yield of_number("reference count", len(parts.references))
        for ref in parts.references:
            yield from spell_ref(ref)
    yield of_number("count", len(parts.outputs))
    for output in parts.outputs:
        yield from spell_output(output)
    yield of_number("tick", parts.start, 8)
    yield of_number("tick", parts.end, 8)
    yield from spell_bundle(parts.forged)
    yield of_number("count", len(parts.policies))
    for policy in parts.policies:
        yield from spell_sized("script", policy.octets)


def spell_signatures(signatures: list[Signature]) -> Iterator[Field]:
    yield of_number("count", len(signatures))
    for signature in signatures:
        yield Field("key", signature.key)
        yield Field("signature", signature.octets)


def join(fields: Iterator[Field]) -> bytes:
    return b"".join([field.octets for field in fields])


def spell(parts: Parts) -> bytes:
    return join(spell_body(parts)) + join(spell_signatures(parts.signatures))


def id_of(parts: Parts) -> bytes:
    return sha256(join(spell_body(parts))).digest()


def sign(parts: Parts, key: bytes, good: bool = True) -> Signature:
    """Makes the signature that scenarios know, which is the key and then the id; a bad one differs in one bit."""
    octets = key + id_of(parts)
    return Signature(key, octets if good else bytes([octets[0] ^ 1]) + octets[1:])


def in_order(parts: Parts) -> Parts:
    """Puts inputs, references, policy scripts and signatures into rising order."""
    return parts._replace(
        inputs=sorted(parts.inputs, key=lambda one: one.ref),
        references=sorted(parts.references),
        policies=sorted(parts.policies, key=lambda one: one.octets),
        signatures=sorted(parts.signatures),
    )


def _rise(parts: list) -> bool:
    return all(one < other for one, other in zip(parts, parts[1:]))


def of_parts(parts: Parts) -> Tx:
    """Makes a transaction of parts that stand in order."""
    refs = [one.ref for one in parts.inputs]
    lists = (refs, parts.references, [one.octets for one in parts.policies], parts.signatures)
    if not all(map(_rise, lists)) or set(refs) & set(parts.references) or parts.start > parts.end:
        raise NoTransaction
    if max(len(refs), len(parts.references), len(parts.outputs)) > MOST_PARTS:
        raise NoTransaction
    body = join(spell_body(parts))
    octets = body + join(spell_signatures(parts.signatures))
    if len(octets) > MOST_BYTES:
        raise NoTransaction
    return Tx(parts, octets, sha256(body).digest())


class Reader:
    """Reads the fields of a transaction from the left."""

    def __init__(self, octets: bytes) -> None:
        self.octets, self.at = octets, 0

    def run(self, length: int) -> bytes:
        if self.at + length > len(self.octets):
            raise Fault("truncated")
        self.at += length
        return self.octets[self.at - length : self.at]

    def number(self, length: int) -> int:
        return int.from_bytes(self.run(length), "big")

    def count(self, most: int) -> int:
        count = self.number(2)
        if count > most:
            raise Fault("large")
        return count

    def ref(self) -> Ref:
        return Ref(self.run(32), self.number(2))

    def script(self) -> Script:
        try:
            return scripts.decode(self.run(self.number(2)))
        except scripts.NoScript:
            raise Fault("script") from None

    def datum(self) -> Datum:
        try:
            return data.decode(self.run(self.number(2)))
        except data.NoDatum:
            raise Fault("data") from None

    def inputs(self) -> list[Input]:
        inputs: list[Input] = []
        for _ in range(self.count(MOST_PARTS)):
            ref = self.ref()
            if inputs and ref <= inputs[-1].ref:
                raise Fault("order")
            inputs.append(Input(ref, self.script(), self.datum(), self.datum()))
        return inputs

    def references(self, spent: set[Ref]) -> list[Ref]:
        references: list[Ref] = []
        count = self.number(2)
        if count == 0:
            raise Fault("references")
        if count > MOST_PARTS:
            raise Fault("large")
        for _ in range(count):
            ref = self.ref()
            if references and ref <= references[-1]:
                raise Fault("order")
            if ref in spent:
                raise Fault("spent")
            references.append(ref)
        return references

    def bundle(self) -> Bundle:
        bundle: Bundle = {}
        before = None
        for _ in range(self.number(2)):
            policy, length = self.run(32), self.number(1)
            if length > LONGEST_NAME:
                raise Fault("bundle")
            token = (policy, self.run(length))
            quantity = int.from_bytes(self.run(8), "big", signed=True)
            if (before is not None and token <= before) or quantity == 0 or quantity < -GREATEST:
                raise Fault("bundle")
            bundle[token], before = quantity, token
        return bundle

    def output(self) -> Output:
        return Output(self.run(32), self.run(32), self.bundle())

    def outputs(self) -> list[Output]:
        return [self.output() for _ in range(self.count(MOST_PARTS))]

    def end(self) -> None:
        if self.at != len(self.octets):
            raise Fault("trailing")

    def interval(self) -> tuple[int, int]:
        start, end = self.number(8), self.number(8)
        if start > end:
            raise Fault("interval")
        return start, end

    def policies(self) -> list[Script]:
        policies: list[Script] = []
        for _ in range(self.number(2)):
            policy = self.script()
            if policies and policy.octets <= policies[-1].octets:
                raise Fault("order")
            policies.append(policy)
        return policies

    def signatures(self) -> list[Signature]:
        signatures: list[Signature] = []
        for _ in range(self.number(2)):
            signature = Signature(self.run(32), self.run(64))
            if signatures and signature <= signatures[-1]:
                raise Fault("order")
            signatures.append(signature)
        return signatures


def decode(octets: bytes) -> Tx:
    """Reads the transaction that the bytes spell."""
    if len(octets) > MOST_BYTES:
        raise Fault("large")
    reader = Reader(octets)
    version = reader.number(1)
    if version not in (1, 2):
        raise Fault("version")
    inputs = reader.inputs()
    references = reader.references({one.ref for one in inputs}) if version == 2 else []
    outputs = reader.outputs()
    start, end = reader.interval()
    forged, policies = reader.bundle(), reader.policies()
    body = octets[: reader.at]
    signatures = reader.signatures()
    reader.end()
    parts = Parts(inputs, references, outputs, start, end, forged, policies, signatures)
    return Tx(parts, octets, sha256(body).digest())


def decode_output(octets: bytes) -> Output:
    """Reads the output that all of the bytes spell."""
    reader = Reader(octets)
    output = reader.output()
    reader.end()
    return output
