"""The Unix sockets."""

from __future__ import annotations

import asyncio
import os
import stat

from example import output_bytes, transaction_bytes
from keltuvar_gateway.gateway import NoStart

from . import LONG, OPENING, GatewayCase, id_of, pay, sign, spend


class ClientSocket(GatewayCase):
    async def ask(self, *lines: str) -> list[str]:
        return await self.talk(self.client_socket, *lines)

    async def test_all_lines(self) -> None:
        await self.start()
        data, unknown = pay(0), spend(pay(1), 0, 100)
        one = id_of(data)
        lines = {
            f"give {data.hex()}": f"accepted 11 {one}",
            f"give {sign(data, 1).hex()}": f"refused already 11 {one}",
            f"give {unknown.hex()}": f"refused missing 0 {id_of(unknown)}",
            "give 07": "undecodable version",
            f"give {bytes(16385).hex()}": "undecodable large",
            f"show #{one}": f"tx 181 {one} {data.hex()}",
            f"has #{one.upper()}": "has yes",
            f"has #{id_of(unknown)}": "has no",
            "snapshot": f"snapshot 1 181 11 11:{one}",
            "after 10": f"after 11:{one}",
            "after 11": "after",
            "lookup 11": f"lookup {one}",
            "lookup 12": "lookup none",
            "stats": "stats 1 181 39819 11 1 already 1 missing 1",
        }
        self.assertEqual(await self.ask(*lines), list(lines.values()))

    async def test_bad_lines(self) -> None:
        await self.start()
        lines = [
            "",
            "adopt 8",
            "forge 100",
            "give",
            "give 0",
            "give zz",
            f"show #{'0' * 64}",
            "has a",
        ]
        lines += [
            "after x",
            f"after {2**64}",
            f"remove #{'0' * 64}",
            "bytes a 00",
            "sn\xe4pshot",
            "z" * 70000,
        ]
        answers = await self.ask(*lines)
        for number in range(1, len(lines)):
            self.assertTrue(answers[number - 1].startswith(f"bad {number}: "), answers[number - 1])
        self.assertEqual(await self.ask("stats"), ["stats 0 0 40000 10 0"])

    async def test_a_silent_connection_is_closed(self) -> None:
        await self.start("--idle-seconds", "0.2")
        reader, writer = await asyncio.open_unix_connection(self.client_socket)
        self.assertEqual(await asyncio.wait_for(reader.read(), LONG), b"")
        writer.close()

    async def test_too_many_connections(self) -> None:
        await self.start("--connections", "1")
        _, first = await asyncio.open_unix_connection(self.client_socket)
        reader, second = await asyncio.open_unix_connection(self.client_socket)
        self.assertEqual(await asyncio.wait_for(reader.read(), LONG), b"")
        first.close()
        second.close()


class OperatorSocket(GatewayCase):
    async def test_only_its_owner_may_use_it(self) -> None:
        await self.start()
        self.assertEqual(stat.S_IMODE(os.stat(self.operator_socket).st_mode), 0o600)
        self.assertEqual(stat.S_IMODE(os.stat(self.client_socket).st_mode), 0o660)

    async def test_a_block(self) -> None:
        await self.start()
        first = pay(0, 60, 40)
        second, third = spend(first, 1, 40), pay(1)
        await self.accept(first, second, third)
        (forged,) = await self.operate("forge 300")
        word, count, size, item = forged.split()
        self.assertEqual((word, count, size, item), ("block", "1", "288", f"11:{id_of(first)}"))
        lines = [f"bytes b {pay(2).hex()}", f"adopt 8 #{item[3:]} b", "forget b", "snapshot"]
        self.assertEqual(
            (await self.operate(*lines))[1:3], ["kept 12 13 dropped 11", "forgotten 1"]
        )
        self.assertEqual(await self.held(), [id_of(second), id_of(third)])
        self.assertEqual((await self.get("/mempool"))["tick"], 8)
        self.assertEqual(await self.operate("back 1"), ["kept 13 dropped 12"])
        self.assertEqual((await self.get("/mempool"))["tick"], 7)
        await self.accept(first, second, pay(2))

    async def test_names_and_other_lines(self) -> None:
        await self.start()
        lines = [f"stage {pay(0).hex()}", "", "nonsense", "submit x", "# a comment", "names", "ids"]
        answers = await self.operate(*lines)
        for number in (1, 3, 4):
            self.assertTrue(answers[number - 1].startswith(f"bad {number}: "), answers[number - 1])
        self.assertEqual([answers[place] for place in (1, 4, 5, 6)], ["ok"] * 4)

    async def test_transactions_of_clients_have_ids(self) -> None:
        await self.start()
        one, two = id_of(pay(0)), id_of(pay(1))
        await self.accept(pay(0), pay(1))
        self.assertEqual(await self.operate("after 10"), [f"after 11:{one} 12:{two}"])
        lines = [f"bytes a {pay(0).hex()}", "lookup 11", "names", "lookup 11", f"has #{one}"]
        got = await self.operate(*lines)
        self.assertEqual(got[1:], [f"lookup {one}", "ok", "lookup a", "has yes"])
        got = await self.operate(f"adopt 8 #{one}", "forget a", f"show #{one}", "after 10")
        self.assertEqual(got[:2], ["kept 12 dropped 11", "forgotten 1"])
        self.assertEqual((got[2][:6], got[3]), ("bad 3:", f"after 12:{two}"))

    async def test_its_submits_are_known(self) -> None:
        await self.start()
        data = pay(0)
        got = await self.operate(f"bytes a {data.hex()}", "submit a", "submit a", "submit b")
        self.assertEqual(got[1:3], ["accepted 11", "refused already 11"])
        self.assertEqual(await self.held(), [id_of(data)])
        other = id_of(pay(1))
        self.assertEqual(await self.operate(f"give {pay(1).hex()}"), [f"accepted 12 {other}"])
        self.assertEqual(await self.held(), [id_of(data), other])
        self.assertEqual(await self.operate(f"remove #{other}"), ["removed 12 dropped"])
        self.assertEqual(await self.operate("remove a"), ["removed 11 dropped"])
        self.assertEqual(await self.held(), [])
        async with self.http.head(f"{self.url}/mempool/txs/{id_of(data)}") as answer:
            self.assertEqual(answer.status, 404)

    async def test_another_ledger_state(self) -> None:
        await self.start()
        await self.accept(pay(0))
        synced = await self.operate("tx t out=5 out=7", "sync 9 block=10001 t.1", "show t")
        self.assertEqual(synced[:2], ["ok", "kept dropped 11"])
        declared = synced[2].split()[2]
        pool = await self.get("/mempool")
        self.assertEqual((pool["tick"], pool["capacity"], pool["count"]), (9, 20002, 0))
        await self.accept(transaction_bytes(declared, 1, 7))
        await self.operate("save")
        with open(self.state, encoding="ascii") as file:
            lines = file.read().splitlines()
        self.assertEqual(lines[:3], ["block 10001", "last 12", "tick 9"])
        self.assertEqual(lines[3], f"utxo {declared}#1 {output_bytes(7).hex()}")
        self.assertEqual(len(lines), 6)
        self.assertEqual(await self.operate("back 1"), ["kept dropped 12"])
        pool = await self.get("/mempool")
        self.assertEqual((pool["tick"], pool["capacity"]), (7, 40000))
        await self.accept(pay(0))

    async def test_a_save(self) -> None:
        await self.start()
        await self.accept(pay(0))
        self.assertEqual(await self.operate("save"), ["saved 1"])
        reader, writer = await asyncio.open_unix_connection(self.operator_socket)
        writer.write(b"POST /admin/save HTTP/1.1\r\nHost: x\r\n\r\n")
        answer = await asyncio.wait_for(reader.read(), LONG)
        self.assertTrue(answer.startswith(b"HTTP/1.1 200 OK\r\n"))
        self.assertTrue(answer.endswith(b'{"message": "saved 1"}'))
        writer.close()
        with open(self.state, encoding="ascii") as file:
            lines = file.read().splitlines()
        self.assertEqual(lines[:3], ["block 20000", "last 11", "tick 7"])
        self.assertEqual(lines[3], f"utxo {OPENING}#0 {output_bytes(100).hex()}")
        self.assertEqual(lines[-2:], [f"give {pay(0).hex()}", "end"])

    async def test_one_connection_at_a_time(self) -> None:
        await self.start()
        reader, writer = await asyncio.open_unix_connection(self.operator_socket)
        writer.write(b"stats\n")
        await reader.readline()
        second = asyncio.create_task(self.operate("stats"))
        await asyncio.sleep(0.2)
        self.assertFalse(second.done())
        writer.close()
        self.assertEqual(await second, ["stats 0 0 40000 10 0"])

    async def test_a_socket_in_use(self) -> None:
        await self.start()
        with self.assertRaises(NoStart):
            await self.start()
        self.assertEqual(await self.operate("stats"), ["stats 0 0 40000 10 0"])
