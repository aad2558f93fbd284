"""Tests of the gateway. KELTUVAR names the program, without which a model of it answers."""

from __future__ import annotations

import asyncio
import os
import tempfile
import unittest
from hashlib import sha256
from pathlib import Path
from typing import Any

try:
    from aiohttp import ClientSession, ClientTimeout
except ImportError:
    raise unittest.SkipTest("there is no aiohttp: apt-get install python3-aiohttp") from None

from example import output_bytes, transaction_bytes
from keltuvar_gateway.gateway import Gateway
from keltuvar_gateway.options import read_options

PROGRAM = os.environ.get("KELTUVAR", str(Path(__file__).with_name("model_program")))

# What has to come comes within so many seconds, also on a machine that has much else to do.
LONG = 60.0
# The transaction whose outputs the ledger state has at first, and how many there are, of 100 coin.
OPENING, OUTPUTS = "aa" * 32, 50


def pay(place: int, *coins: int) -> bytes:
    """Returns a transaction that spends an opening output."""
    return transaction_bytes(OPENING, place, *(coins or (100,)))


def spend(data: bytes, place: int, *coins: int) -> bytes:
    """Returns a transaction that spends an output of another one."""
    return transaction_bytes(id_of(data), place, *coins)


def id_of(data: bytes) -> str:
    """Returns the id of a transaction without signatures."""
    return sha256(data[:-2]).hexdigest()


def sign(data: bytes, key: int) -> bytes:
    """Returns the bytes with a signature of no known scheme, which the id doesn't depend on."""
    return data[:-2] + b"\x00\x01" + bytes([key]) * 96


def write_ledger(path: str) -> None:
    """Writes a ledger file with the opening outputs."""
    with open(path, "w", encoding="ascii") as file:
        file.write("# for tests\n\nblock 20000\ntick 7\nlast 10\n")
        for place in range(OUTPUTS):
            file.write(f"utxo {OPENING}#{place} {output_bytes(100).hex()}\n")


def pool_of(gateway: Gateway) -> int:
    """Returns the number of the pool's process."""
    program = gateway._keeper._program
    assert program
    return program.pid


class GatewayCase(unittest.IsolatedAsyncioTestCase):
    """A test with a folder, a session of HTTP, and gateways that end with it."""

    async def asyncSetUp(self) -> None:
        folder = tempfile.TemporaryDirectory()
        self.addCleanup(folder.cleanup)
        self.folder = folder.name
        self.state, self.ledger = f"{self.folder}/state", f"{self.folder}/ledger"
        self.client_socket, self.operator_socket = f"{self.folder}/c", f"{self.folder}/o"
        write_ledger(self.ledger)
        self.http = ClientSession(timeout=ClientTimeout(LONG))
        self.addAsyncCleanup(self.http.close)

    async def start(self, *words: str, program: str = PROGRAM) -> Gateway:
        """Starts a gateway at a free port, with these words of the command line."""
        sockets = ["--client-socket", self.client_socket, "--operator-socket", self.operator_socket]
        files = ["--ledger", self.ledger, "--state", self.state, "--signatures", "checked"]
        first = ["--http", "127.0.0.1:0", "--program", program]
        gateway = Gateway(read_options([*first, *sockets, *files, *words]))
        await gateway.start()
        self.addAsyncCleanup(gateway.end, save=False)
        self.url = f"http://127.0.0.1:{gateway.port}"
        return gateway

    async def get(self, path: str, status: int = 200) -> Any:
        """Returns the JSON of an answer, whose status has to be this."""
        async with self.http.get(self.url + path) as answer:
            self.assertEqual(answer.status, status, path)
            return await answer.json()

    async def post(self, data: bytes) -> tuple[int, Any]:
        """Posts a transaction, and returns the status and the JSON."""
        async with self.http.post(f"{self.url}/api/submit/tx", data=data) as answer:
            return answer.status, await answer.json()

    async def accept(self, *transactions: bytes) -> None:
        """Posts transactions that are accepted."""
        for data in transactions:
            self.assertEqual(await self.post(data), (202, id_of(data)))

    async def talk(self, path: str, *lines: str) -> list[str]:
        """Sends lines to a Unix socket, and returns all answers."""
        reader, writer = await asyncio.open_unix_connection(path, limit=2**24)
        writer.write("".join(f"{line}\n" for line in lines).encode("latin-1"))
        writer.write_eof()
        answers = (await asyncio.wait_for(reader.read(), LONG)).decode("ascii").splitlines()
        writer.close()
        return answers

    async def operate(self, *lines: str) -> list[str]:
        """Sends lines to the operator's socket."""
        return await self.talk(self.operator_socket, *lines)

    async def held(self) -> list[str]:
        """Returns the ids in the pool, oldest first."""
        return [one["id"] for one in (await self.get("/mempool/txs?limit=1000"))["transactions"]]

    async def until(self, path: str, status: int) -> None:
        """Waits until a path is answered with this status."""
        async with asyncio.timeout(LONG):
            while True:
                async with self.http.get(self.url + path) as answer:
                    if answer.status == status:
                        return
                await asyncio.sleep(0.05)
