"""Conversations of clients, which go on at once."""

from __future__ import annotations

import asyncio
import os
from types import SimpleNamespace
from typing import cast

from keltuvar_gateway.backend import Receipt
from keltuvar_gateway.conversations import Conversations
from keltuvar_gateway.program import Conversation, Down, Program, knows_clients
from keltuvar_gateway.state import State
from tests import FAKE

from . import LONG, OPENING, OUTPUTS, PROGRAM, GatewayCase, id_of, pay, spend

# A program without the option, which refuses it.
OLDER = """#!/bin/sh
case "$*" in *--help) exit ;; *--client*) exit 2 ;; esac
exec {program} "$@"
"""


class Line:
    """A connection of the client socket."""

    def __init__(self, reader: asyncio.StreamReader, writer: asyncio.StreamWriter) -> None:
        self.reader, self.writer = reader, writer

    async def ask(self, line: str) -> str:
        self.writer.write(f"{line}\n".encode())
        answer = await asyncio.wait_for(self.reader.readline(), LONG)
        return answer.decode("ascii").removesuffix("\n")

    async def ask_until_free(self, line: str) -> str:
        """Asks until there is a conversation for it."""
        async with asyncio.timeout(LONG):
            while (answer := await self.ask(line)) == "busy":
                await asyncio.sleep(0.05)
        return answer


class Sessions(GatewayCase):
    async def connect(self) -> Line:
        line = Line(*await asyncio.open_unix_connection(self.client_socket))
        self.addCleanup(line.writer.close)
        return line

    async def test_submits_at_once(self) -> None:
        await self.start("--rate", "0")
        firsts = [pay(place, 60, 40) for place in range(OUTPUTS)]
        posted = await asyncio.gather(*(self.post(data) for data in firsts * 2))
        self.assertEqual(sorted({status for status, _ in posted}), [202, 400])
        self.assertEqual(sorted(await self.held()), sorted(map(id_of, firsts)))
        listed = (await self.get("/mempool/txs?limit=1000"))["transactions"]
        self.assertEqual([one["ticket"] for one in listed], list(range(11, 11 + OUTPUTS)))
        self.assertEqual((await self.get("/mempool/txs?newest=1000"))["transactions"], listed[::-1])
        answers = (await self.get("/mempool"))["answers"]
        self.assertEqual(answers, {"accepted": OUTPUTS, "already": OUTPUTS})

    async def test_each_connection_is_offered_all(self) -> None:
        await self.start()
        await self.accept(pay(0), pay(1))
        both = f"offer 11:{id_of(pay(0))} 12:{id_of(pay(1))}"
        for _ in range(12):
            line = await self.connect()
            self.assertEqual(await line.ask_until_free("offer 9 100000"), both)
            self.assertEqual(await line.ask("offer 9 100000"), "offer")
            line.writer.close()

    async def test_refusals_are_those_of_the_connection(self) -> None:
        await self.start("--clients", "2")
        await self.accept(pay(0))
        for _ in range(3):
            line = await self.connect()
            self.assertEqual(await line.ask_until_free("stats"), "stats 1 181 39819 11 1")
            for count in (1, 2):
                already = f"refused already 11 {id_of(pay(0))}"
                self.assertEqual(await line.ask(f"give {pay(0).hex()}"), already)
                told = f"stats 1 181 39819 11 1 already {count}"
                self.assertEqual(await line.ask("stats"), told)
            line.writer.close()

    async def test_too_many_connections(self) -> None:
        await self.start("--clients", "3")
        first, second, third = [await self.connect() for _ in range(3)]
        for line in (first, second):
            self.assertEqual(await line.ask("lookup 1"), "lookup none")
        self.assertEqual(await third.ask("lookup 1"), "busy")
        await self.accept(pay(0))
        first.writer.close()
        self.assertEqual(await third.ask_until_free("lookup 1"), "lookup none")
        self.assertEqual((await third.ask("what"))[:4], "bad ")
        self.assertEqual(await third.ask("lookup 11"), f"lookup {id_of(pay(0))}")

    async def test_no_client_declares_a_name(self) -> None:
        await self.start()
        lines = [f"bytes a {pay(0).hex()}", "tx a out=1", "reset", "ids", "names", "for 1", "forget a"]
        answers = await self.talk(self.client_socket, *lines)
        self.assertEqual([answer[:4] for answer in answers], ["bad "] * len(lines))

    async def test_the_operator_and_clients(self) -> None:
        await self.start()
        line = await self.connect()
        first = pay(0, 60, 40)
        self.assertEqual(await line.ask(f"give {first.hex()}"), f"accepted 11 {id_of(first)}")
        got = await self.operate(f"adopt 8 #{id_of(first)}", f"give {pay(1).hex()}")
        self.assertEqual(got, ["kept dropped 11", f"accepted 12 {id_of(pay(1))}"])
        self.assertEqual(await line.ask(f"has #{id_of(first)}"), "has no")
        await self.accept(spend(first, 0, 60))
        self.assertEqual(await self.held(), [id_of(pay(1)), id_of(spend(first, 0, 60))])

    async def test_the_limit_of_changes(self) -> None:
        with open(self.ledger, "a", encoding="ascii") as file:
            file.write("limit 3\n")
        gateway = await self.start()
        await self.accept(pay(0), pay(1), pay(2))
        status, answer = await self.post(pay(3))
        self.assertEqual(status, 503)
        self.assertIn("as many changes as it may", answer["message"])
        async with asyncio.timeout(LONG):
            while gateway._keeper.counts["starts"] < 2:
                await asyncio.sleep(0.05)
        self.assertEqual(await self.held(), [id_of(pay(place)) for place in range(3)])

    async def test_one_conversation(self) -> None:
        older = f"{self.folder}/older"
        with open(older, "w", encoding="ascii") as file:
            file.write(OLDER.format(program=PROGRAM))
        os.chmod(older, 0o755)
        self.assertEqual([knows_clients([one, "serve"]) for one in (PROGRAM, older)], [True, False])
        starts: list[tuple[list[str], str]] = [(["--clients", "0"], PROGRAM), ([], older)]
        for words, program in starts:
            gateway = await self.start(*words, program=program)
            self.assertEqual(gateway._pool._clients, 0)
            await self.accept(pay(0))
            told = await self.talk(self.client_socket, f"has #{id_of(pay(0))}", "offer 1 1000")
            self.assertEqual((told[0], told[1][:4]), ("has yes", "bad "))
            await gateway.end(save=False)


class Order(GatewayCase):
    """Answers that come in another order than that of the changes."""

    async def asyncSetUp(self) -> None:
        await super().asyncSetUp()
        self.operator, self.first, self.second = (Conversation(self.fail) for _ in range(3))
        outputs = {bytes.fromhex(OPENING) + bytes([0, place]): b"x" for place in range(3)}
        self.pool = Conversations([], State(tick=7, outputs=outputs), 10, clients=2)
        ended = asyncio.get_running_loop().create_future()
        clients = [self.first, self.second]
        program = SimpleNamespace(ended=ended, operator=self.operator, clients=clients, waiting=0)
        self.pool._program = cast(Program, program)
        self.pool._free, self.pool._is_open = clients, True

    async def submit(self, data: bytes, client: Conversation) -> asyncio.Task[Receipt]:
        """Begins a submit, which has to go to this client."""
        before = client.waiting
        task = asyncio.create_task(self.pool.submit(data))
        await asyncio.sleep(0)
        self.assertEqual(client.waiting, before + 1)
        return task

    async def test_a_block_before_a_submit_that_it_has(self) -> None:
        one, two = pay(0), pay(1)
        slow, quick = await self.submit(one, self.first), await self.submit(two, self.second)
        block = asyncio.create_task(self.pool.operate(f"adopt 8 #{id_of(one)}"))
        view = asyncio.create_task(self.pool.snapshot())
        await asyncio.sleep(0)
        self.second.receive(f"accepted 2 {id_of(two)}\n".encode())
        self.assertEqual((await quick).ticket, 2)
        shown = f"tx {len(one)} {id_of(one)} {one.hex()}\n"
        self.operator.receive(f"{shown}kept 2 dropped 1\n".encode())
        told = f"snapshot 1 181 2 2:{id_of(two)}\nstats 2 362 999638 3 4\n"
        self.operator.receive(told.encode())
        await asyncio.sleep(0)
        self.assertEqual((block.done(), view.done(), self.pool.count), (False, False, 0))
        held = self.pool.find(id_of(two))
        self.assertEqual(held and held.ticket, 2)
        self.assertEqual([len(data) for data in self.pool.copy_state().transactions], [181])
        self.first.receive(f"accepted 1 {id_of(one)}\n".encode())
        self.assertEqual(((await slow).ticket, await block), (1, "kept 2 dropped 1"))
        found = await view
        self.assertEqual([one.id for one in found.transactions], [id_of(two)])
        self.assertEqual((found.tick, found.stats.size, found.stats.free), (8, 181, 999819))
        self.assertEqual(self.pool.find(id_of(one)), None)

    async def test_a_submit_whose_answer_is_lost(self) -> None:
        slow, quick = await self.submit(pay(0), self.first), await self.submit(pay(1), self.second)
        read = asyncio.create_task(self.pool.after(0, 10))
        await asyncio.sleep(0)
        self.second.receive(f"accepted 2 {id_of(pay(1))}\n".encode())
        self.operator.receive(f"after 1:{id_of(pay(0))} 2:{id_of(pay(1))}\n".encode())
        self.first.fail("it ended")
        self.pool._stop_waiting()
        for task in (slow, read):
            with self.assertRaises(Down):
                await task
        self.assertEqual((await quick).ticket, 2)
        state = self.pool.copy_state()
        self.assertEqual((state.last, state.transactions), (2, [pay(1)]))

    async def test_a_ticket_that_is_given_twice(self) -> None:
        faults: list[str] = []
        self.second = Conversation(faults.append)
        self.pool._free[1] = self.second
        for client in (self.first, self.second):
            await self.submit(pay(0), client)
        self.first.receive(f"accepted 1 {id_of(pay(0))}\n".encode())
        self.second.receive(f"accepted 1 {id_of(pay(0))}\n".encode())
        self.assertIn("ticket 1", faults[0])


class Processes(GatewayCase):
    async def test_a_conversation_that_ends(self) -> None:
        program = await Program.start([str(FAKE), "serve"], 2)
        self.assertEqual(await program.operator.ask("a"), "ok")
        for client in program.clients:
            self.assertEqual(await client.ask("lookup 3"), "lookup n3")
        program.forget_pipes()
        with self.assertRaises(Down):
            await program.clients[0].ask("leave")
        self.assertTrue(program.is_lost)
        self.assertIn("status", await asyncio.wait_for(program.ended, LONG))

    async def test_the_end(self) -> None:
        program = await Program.start([str(FAKE), "serve"], 3)
        self.assertEqual(await program.operator.ask("a"), "ok")
        for client in program.clients:
            self.assertEqual(await client.ask("b"), "ok")
        await program.end(LONG)
        self.assertIn("status 0", program.ended.result())

    async def test_a_program_that_ends_at_once(self) -> None:
        program = await Program.start(["/bin/true"], 2)
        with self.assertRaises(Down):
            await program.clients[1].ask("a")
        await asyncio.wait_for(program.ended, LONG)
