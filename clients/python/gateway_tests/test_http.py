"""What HTTP answers."""

from __future__ import annotations

import asyncio
import json
from typing import Any

from . import OUTPUTS, GatewayCase, id_of, pay, sign, spend


class Http(GatewayCase):
    async def test_a_transaction_comes(self) -> None:
        await self.start()
        data = pay(0)
        self.assertEqual(await self.post(data), (202, id_of(data)))
        pool = await self.get("/mempool")
        self.assertEqual((pool["count"], pool["bytes"], pool["capacity"]), (1, len(data), 40000))
        self.assertEqual((pool["lastTicket"], pool["tick"], pool["changes"]), (11, 7, 1))
        self.assertEqual(pool["answers"], {"accepted": 1})
        one = {"ticket": 11, "id": id_of(data), "size": len(data)}
        for query in ("", "?after=10", "?limit=1", "?newest=5"):
            self.assertEqual((await self.get(f"/mempool/txs{query}"))["transactions"], [one])
        for query in ("?after=11", "?limit=0"):
            self.assertEqual((await self.get(f"/mempool/txs{query}"))["transactions"], [])

    async def test_bytes_by_the_id(self) -> None:
        await self.start()
        data = pay(0)
        path = f"{self.url}/mempool/txs/{id_of(data)}"
        async with self.http.head(path) as answer:
            self.assertEqual(answer.status, 404)
        await self.accept(data)
        async with self.http.get(path) as answer:
            self.assertEqual((answer.status, await answer.read()), (200, data))
            self.assertEqual(answer.headers["Keltuvar-Ticket"], "11")
        async with self.http.head(path.replace(id_of(data), id_of(data).upper())) as answer:
            self.assertEqual((answer.status, answer.headers["Content-Length"]), (200, "181"))
        self.assertIn("64", (await self.get("/mempool/txs/12", 400))["message"])

    async def test_refusals(self) -> None:
        await self.start()
        first, second = pay(0), spend(pay(0), 0, 60, 50)
        await self.accept(first)
        self.assertEqual(
            await self.refuse(second),
            {"refused": "unbalanced", "policy": "coin", "id": id_of(second)},
        )
        already = {"refused": "already", "ticket": 11, "id": id_of(first)}
        self.assertEqual(await self.refuse(first), already | {"sameBytes": True})
        self.assertEqual(await self.refuse(sign(first, 1)), already | {"sameBytes": False})
        unknown = spend(pay(1), 0, 100)
        self.assertEqual(
            await self.refuse(unknown), {"refused": "missing", "input": 0, "id": id_of(unknown)}
        )
        self.assertEqual(await self.refuse(first[:-1]), {"undecodable": "truncated"})
        self.assertEqual(await self.refuse(b""), {"undecodable": "truncated"})
        self.assertEqual(await self.refuse(b"\7"), {"undecodable": "version"})
        answers = (await self.get("/mempool"))["answers"]
        counted = {"accepted": 1, "unbalanced": 1, "already": 2, "missing": 1, "undecodable": 2}
        self.assertEqual(answers, counted)

    async def refuse(self, data: bytes) -> Any:
        status, answer = await self.post(data)
        self.assertEqual(status, 400)
        self.assertTrue(answer.pop("message"))
        return answer

    async def test_a_full_pool(self) -> None:
        with open(self.ledger, "a", encoding="ascii") as file:
            file.write("block 100\n")
        await self.start()
        await self.accept(pay(0))
        refused = await self.refuse(pay(1))
        self.assertEqual((refused["refused"], refused["need"], refused["free"]), ("full", 181, 19))

    async def test_bodies_that_are_too_long(self) -> None:
        await self.start()
        self.assertEqual((await self.post(bytes(16384)))[0], 400)
        self.assertEqual((await self.post(bytes(16385)))[0], 413)

        async def stream() -> Any:
            for _ in range(5):
                yield bytes(4096)

        async with self.http.post(f"{self.url}/api/submit/tx", data=stream()) as answer:
            self.assertEqual(answer.status, 413)

    async def test_many_at_once(self) -> None:
        await self.start("--rate", "0")
        transactions = [pay(place) for place in range(OUTPUTS)]
        broken = [data[:-1] for data in transactions] + [spend(data, 7, 1) for data in transactions]
        got = await asyncio.gather(*map(self.post, [*transactions, *broken]))
        self.assertEqual(got[:OUTPUTS], [(202, id_of(data)) for data in transactions])
        self.assertEqual({status for status, _ in got[OUTPUTS:]}, {400})
        self.assertEqual(sorted(await self.held()), sorted(map(id_of, transactions)))

    async def test_parts_of_a_transaction(self) -> None:
        await self.start()
        first = pay(0, 60, 40)
        second = spend(first, 1, 40)
        await self.accept(first, second)
        shown = await self.get(f"/mempool/txs/{id_of(first)}?decoded=1")
        self.assertEqual(shown["inputs"][0]["from"], "ledger")
        self.assertEqual([one["bundle"][0]["quantity"] for one in shown["outputs"]], ["60", "40"])
        self.assertEqual([one["usedBy"] for one in shown["outputs"]], [[], [id_of(second)]])
        self.assertEqual(shown["dependents"], [id_of(second)])
        shown = await self.get(f"/mempool/txs/{id_of(second)}?decoded=1")
        source = {"output": f"{id_of(first)}#1", "from": "pool"}
        self.assertEqual(shown["inputs"][0] | source, shown["inputs"][0])
        self.assertEqual((shown["ticket"], shown["dependents"]), (12, []))

    async def test_metrics(self) -> None:
        await self.start()
        await self.accept(pay(0))
        await self.post(b"\7")
        async with self.http.get(f"{self.url}/metrics") as answer:
            lines = (await answer.text()).splitlines()
        for line in (
            "keltuvar_up 1",
            "keltuvar_transactions 1",
            "keltuvar_bytes 181",
            "keltuvar_free_bytes 39819",
            "keltuvar_last_ticket 11",
            'keltuvar_submits_total{answer="accepted"} 1',
            'keltuvar_submits_total{answer="undecodable"} 1',
            'keltuvar_submit_seconds_bucket{le="+Inf"} 2',
            "keltuvar_submit_seconds_count 2",
            'keltuvar_gateway_events_total{event="starts"} 1',
        ):
            self.assertIn(line, lines)

    async def test_other_requests(self) -> None:
        await self.start()
        self.assertEqual(await self.get("/health"), {"status": "up"})
        await self.get("/nothing", 404)
        await self.get("/api/submit/tx", 405)
        for query in (
            "after=-1",
            "after=x",
            "limit=1001",
            "limit=",
            f"after={2**64}",
            "newest=1e3",
        ):
            await self.get(f"/mempool/txs?{query}", 400)

    async def test_the_description_names_every_path(self) -> None:
        await self.start()
        described = await self.get("/openapi.json")
        for path in ("/api/submit/tx", "/mempool", "/mempool/txs", "/mempool/txs/{id}", "/health"):
            self.assertIn(path, described["paths"])
        self.assertIn("16384", json.dumps(described))
