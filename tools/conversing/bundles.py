"""Tokens and bundles: how much there is of each token."""

from __future__ import annotations

from collections.abc import Iterable

Token = tuple[bytes, bytes]  # A policy of 32 bytes, and a name of at most 32.
Bundle = dict[Token, int]  # No quantity is 0.

COIN_POLICY = bytes(32)
COIN: Token = (COIN_POLICY, b"")
GREATEST = 2**63 - 1
LONGEST_NAME = 32


def total(bundles: Iterable[Bundle]) -> Bundle:
    """Gives the sums of the quantities, without those that are 0. They may be past the range of one entry."""
    sums: Bundle = {}
    for bundle in bundles:
        for token, quantity in bundle.items():
            sums[token] = sums.get(token, 0) + quantity
    return {token: quantity for token, quantity in sums.items() if quantity}


def least_difference(one: Bundle, other: Bundle) -> Token | None:
    """Gives the least token of which the two have different quantities."""
    differing = [token for token in one.keys() | other.keys() if one.get(token, 0) != other.get(token, 0)]
    return min(differing, default=None)
