#!/usr/bin/env python3
"""A wallet that signs a transaction with Ed25519, by the system's `openssl` command, and submits it.

    python3 clients/python/signed_example.py PROGRAM | diff clients/python/signed_example.out -

The key is a new one each time. The pool refuses a spoilt signature, and then accepts the good one.
"""

from __future__ import annotations

import hashlib
import subprocess
import sys
import tempfile
from pathlib import Path

sys.dont_write_bytecode = True
from example import ALICE, output_bytes, transaction_bytes
from keltuvar import Pool, Refused


def openssl(*words: str) -> bytes:
    """Runs the command, and returns what it writes to standard output."""
    return subprocess.run(["openssl", *words], check=True, capture_output=True).stdout


class Wallet:
    """A key pair in a folder."""

    def __init__(self, folder: Path) -> None:
        self._folder, self._pair = folder, str(folder / "pair")
        openssl("genpkey", "-algorithm", "ed25519", "-out", self._pair)
        # The encoding of a public key ends with its 32 bytes.
        self.key = openssl("pkey", "-in", self._pair, "-pubout", "-outform", "DER")[-32:]

    def sign(self, message: bytes) -> bytes:
        """Returns the 64 bytes of the message's signature."""
        file = self._folder / "message"
        file.write_bytes(message)
        return openssl("pkeyutl", "-sign", "-rawin", "-inkey", self._pair, "-in", str(file))


def signed_bytes(unsigned: bytes, key: bytes, signature: bytes) -> bytes:
    """Returns the bytes of a transaction without signatures, with this one instead of none."""
    return unsigned[:-2] + b"\x00\x01" + key + signature


def submit(pool: Pool, name: str, data: bytes) -> None:
    declared = pool.tx_from_bytes(name, data)
    try:
        print(f"{name}: {declared.size} bytes, accepted under ticket {pool.submit(name)}")
    except Refused as refused:
        print(f"{name}: {declared.size} bytes, refused as {refused.word}")


def run_wallet(pool: Pool, wallet: Wallet) -> None:
    pool.utxo(ALICE, 0, output_bytes(100))
    unsigned = transaction_bytes(ALICE, 0, 100)
    # The id is the hash of all bytes before the count of the signatures.
    signature = wallet.sign(hashlib.sha256(unsigned[:-2]).digest())
    spoilt = bytes([signature[0] ^ 1]) + signature[1:]
    submit(pool, "spoilt", signed_bytes(unsigned, wallet.key, spoilt))
    submit(pool, "signed", signed_bytes(unsigned, wallet.key, signature))
    print(f"the pool holds {', '.join(item.name for item in pool.snapshot().items)}")


def main() -> int:
    if len(sys.argv) != 2:
        print(__doc__, file=sys.stderr)
        return 2
    with tempfile.TemporaryDirectory() as folder:
        wallet = Wallet(Path(folder))
        with Pool(sys.argv[1], signatures="ed25519", timeout=60) as pool:
            run_wallet(pool, wallet)
    return pool.status or 0


if __name__ == "__main__":
    sys.exit(main())
