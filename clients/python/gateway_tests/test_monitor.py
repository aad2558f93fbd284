"""The local tx monitor."""

from __future__ import annotations

import asyncio
import json
from typing import Any

from aiohttp import ClientWebSocketResponse, WSServerHandshakeError

from . import LONG, GatewayCase, id_of, pay, spend

UPGRADE = (
    b"GET /monitor HTTP/1.1\r\nHost: x\r\nUpgrade: websocket\r\nConnection: Upgrade\r\n"
    b"Sec-WebSocket-Version: 13\r\nSec-WebSocket-Key: AAAAAAAAAAAAAAAAAAAAAA==\r\n\r\n"
)


class Session(GatewayCase):
    async def open(self) -> ClientWebSocketResponse:
        socket = await self.http.ws_connect(f"{self.url}/monitor")
        self.addAsyncCleanup(socket.close)
        return socket

    async def open_when_free(self) -> ClientWebSocketResponse:
        """Opens a session as soon as there are fewer than the most."""
        while True:
            try:
                return await self.open()
            except WSServerHandshakeError as error:
                self.assertEqual(error.status, 503)
                await asyncio.sleep(0.1)

    async def ask(self, socket: ClientWebSocketResponse, method: str, **params: Any) -> Any:
        """Returns the result of a request."""
        request = {"jsonrpc": "2.0", "method": method, "params": params, "id": [1, "x"]}
        await socket.send_json(request)
        answer = await socket.receive_json(timeout=LONG)
        self.assertEqual(
            (answer["jsonrpc"], answer["method"], answer["id"]), ("2.0", method, [1, "x"])
        )
        return answer["result"] if "result" in answer else answer["error"]["code"]

    async def test_one_snapshot(self) -> None:
        await self.start()
        first, second = pay(0), pay(1)
        await self.accept(first, second)
        socket = await self.open()
        self.assertEqual(
            await self.ask(socket, "acquireMempool"), {"acquired": "mempool", "slot": 7}
        )
        await self.accept(pay(2))
        await self.operate(f"remove #{id_of(first)}")
        size = await self.ask(socket, "sizeOfMempool")
        self.assertEqual(size["maxCapacity"], {"bytes": 40000})
        self.assertEqual(
            (size["currentSize"], size["transactions"]), ({"bytes": 362}, {"count": 2})
        )
        for data, held in ((first, True), (second, True), (pay(2), False)):
            self.assertIs(await self.ask(socket, "hasTransaction", id=id_of(data)), held)
        one = {"transaction": {"id": id_of(first)}}
        self.assertEqual(await self.ask(socket, "nextTransaction"), one)
        two = {"transaction": {"id": id_of(second), "ticket": 12, "cbor": second.hex()}}
        self.assertEqual(await self.ask(socket, "nextTransaction", fields="all"), two)
        for _ in range(2):
            self.assertEqual(await self.ask(socket, "nextTransaction"), {"transaction": None})
        self.assertEqual(await self.ask(socket, "releaseMempool"), {"released": "mempool"})
        self.assertEqual(await self.ask(socket, "nextTransaction"), 4000)

    async def test_a_second_one_waits_for_a_change(self) -> None:
        await self.start()
        socket = await self.open()
        await self.ask(socket, "acquireMempool")
        waiting = asyncio.create_task(self.ask(socket, "acquireMempool"))
        await asyncio.sleep(0.2)
        self.assertFalse(waiting.done())
        await self.accept(pay(0))
        await waiting
        found = await self.ask(socket, "nextTransaction")
        self.assertEqual(found, {"transaction": {"id": id_of(pay(0))}})

    async def test_wrong_requests(self) -> None:
        await self.start()
        socket = await self.open()
        self.assertEqual(await self.ask(socket, "sizeOfMempool"), 4000)
        self.assertEqual(await self.ask(socket, "submitTransaction"), -32601)
        await self.ask(socket, "acquireMempool")
        self.assertEqual(await self.ask(socket, "hasTransaction"), -32602)
        self.assertEqual(await self.ask(socket, "nextTransaction", fields="some"), -32602)
        deep = "[" * 4000
        for text, code in (("{", -32700), ("[]", -32600), ("{}", -32600), (deep, -32700)):
            await socket.send_str(text)
            answer = json.loads(await socket.receive_str(timeout=LONG))
            self.assertEqual((answer["error"]["code"], answer["id"]), (code, None))

    async def test_requests_of_many_sessions(self) -> None:
        await self.start()
        transactions = [pay(0)]
        for _ in range(9):
            transactions.append(spend(transactions[-1], 0, 100))
        await self.accept(*transactions)
        sockets = [await self.open() for _ in range(10)]
        await asyncio.gather(*(self.ask(socket, "acquireMempool") for socket in sockets))
        for data in transactions:
            for socket in sockets:
                found = await self.ask(socket, "nextTransaction")
                self.assertEqual(found, {"transaction": {"id": id_of(data)}})

    async def test_too_many_sessions(self) -> None:
        await self.start("--rate", "0")
        sockets = [await self.open() for _ in range(64)]
        await self.get("/monitor", 503)
        await sockets[0].close()
        async with asyncio.timeout(LONG):
            while (await self.http.get(f"{self.url}/monitor")).status == 503:
                await asyncio.sleep(0.05)
        await self.get("/monitor", 400)

    async def test_clients_that_dont_read(self) -> None:
        await self.start("--rate", "0", "--request-seconds", "1")
        await self.accept(pay(0, *[1] * 100))
        clients = [await self.send_without_reading() for _ in range(4)]
        sockets = [await self.open() for _ in range(60)]
        async with asyncio.timeout(LONG):
            sockets += [await self.open_when_free() for _ in range(4)]
        await self.get("/monitor", 503)
        for client in clients:
            client.close()

    async def send_without_reading(self) -> asyncio.StreamWriter:
        """Begins a session, asks for more than fits into the buffers, and stays."""
        port = int(self.url.rpartition(":")[2])
        reader, writer = await asyncio.open_connection("127.0.0.1", port, limit=1000)
        writer.write(UPGRADE)
        await reader.readuntil(b"\r\n\r\n")
        for method in ("acquireMempool", "nextTransaction", "releaseMempool") * 400:
            request = {"jsonrpc": "2.0", "method": method, "params": {"fields": "all"}}
            text = json.dumps(request).encode()
            # The mask is zero.
            writer.write(bytes([0x81, 0x80 | len(text)]) + bytes(4) + text)
        return writer

    async def test_a_message_that_is_too_long(self) -> None:
        await self.start()
        socket = await self.open()
        await socket.send_str("x" * 5000)
        self.assertTrue((await socket.receive(timeout=LONG)).type.name.startswith("CLOSE"))
        self.assertEqual(await self.get("/health"), {"status": "up"})
