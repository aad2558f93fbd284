"""What is saved, and what a restart brings back."""

from __future__ import annotations

import asyncio
import os
import signal
import socket
import sys
import threading
import unittest
from pathlib import Path
from typing import Any
from unittest import mock

from keltuvar_gateway import keeper, program
from keltuvar_gateway.gateway import Gateway, NoStart
from keltuvar_gateway.state import BadFile, State, read_state, write_state

from . import LONG, OPENING, OUTPUTS, PROGRAM, GatewayCase, id_of, pay, pool_of, spend

# The second time that it starts it ends at once, and the third time it has no memory.
FAILING = """#!/bin/sh
case "$*" in *--help) exec {program} "$@" ;; esac
echo start >> {folder}/starts
case $(wc -l < {folder}/starts) in
  2) exit 3 ;;
  3) while read line; do echo 'fault: no memory'; done ;;
esac
exec {program} "$@"
"""
# The second time that it starts it takes only so many lines, and the third time it waits.
BROKEN_OFF = """#!/bin/sh
case "$*" in *--help) exec {program} "$@" ;; esac
echo start >> {folder}/starts
case $(wc -l < {folder}/starts) in
  2) mkfifo {folder}/lines; exec 3<&0; sed -u {lines}q <&3 >{folder}/lines & exec {program} "$@" <{folder}/lines 3<&- ;;
  3) while [ ! -e {folder}/go ]; do sleep 0.1; done ;;
esac
exec {program} "$@"
"""
# Until there is room, its files may have 40 blocks of 512 bytes the first time, and then 30.
FULL = """#!/bin/sh
case "$*" in *--help) exec {program} "$@" ;; esac
blocks=40
[ ! -e {folder}/first ] || blocks=30
touch {folder}/first
[ -e {folder}/room ] || {{ trap '' XFSZ; ulimit -f $blocks; }}
exec {program} "$@"
"""


class Files(GatewayCase):
    async def test_what_is_written_is_read(self) -> None:
        state = State(7, 8, 9, 10, {bytes(34): b"x", bytes([1]) * 34: b"y"}, [b"a", b"b"])
        write_state(self.state, state)
        self.assertEqual(read_state(self.state, whole=True), state)
        self.assertEqual(os.stat(self.state).st_mode & 0o777, 0o600)
        self.assertEqual(os.listdir(self.folder).count("state.new"), 0)

    async def test_a_part_of_a_file(self) -> None:
        write_state(self.state, State(transactions=[b"a", b"b"]))
        with open(self.state, encoding="ascii") as file:
            lines = file.readlines()
        for end in range(len(lines)):
            with open(self.state, "w", encoding="ascii") as file:
                file.writelines(lines[:end])
            with self.assertRaises(BadFile):
                read_state(self.state, whole=True)

    async def test_bad_files(self) -> None:
        for text in (
            "end\nend\n",
            "block x\n",
            "utxo 00#0 00\n",
            "give zz\n",
            "out g0 100\n",
            "\xff\n",
        ):
            with open(self.ledger, "w", encoding="latin-1") as file:
                file.write(text)
            with self.assertRaises(BadFile):
                read_state(self.ledger, whole=False)
            with self.assertRaises(NoStart):
                await self.start()

    async def test_a_ledger_that_the_pool_refuses(self) -> None:
        with open(self.ledger, "w", encoding="ascii") as file:
            file.write("block 0\n")
        with self.assertRaisesRegex(NoStart, "'block 0'"):
            await self.start()

    async def test_a_disk_that_is_full(self) -> None:
        write_state(self.state, State(transactions=[b"a"]))
        before = read_state(self.state, whole=True)
        os.symlink("/dev/full", f"{self.state}.new")
        with self.assertRaises(OSError):
            write_state(self.state, State(transactions=[b"b"]))
        self.assertEqual(read_state(self.state, whole=True), before)

    async def test_a_save_that_is_broken_off(self) -> None:
        """The next save begins only when its thread has ended."""
        begun, go_on = threading.Event(), threading.Event()
        at_once: list[int] = []

        def write_slowly(path: str, state: State) -> None:
            at_once.append(len(at_once))
            begun.set()
            self.assertTrue(go_on.wait(LONG))
            write_state(path, state)
            at_once.pop()

        gateway = await self.start()
        with mock.patch.object(keeper, "write_state", write_slowly):
            first = asyncio.create_task(gateway._keeper.save())
            await asyncio.to_thread(begun.wait, LONG)
            first.cancel()
            second = asyncio.create_task(gateway._keeper.save())
            await asyncio.sleep(0.2)
            self.assertEqual(at_once, [0])
            go_on.set()
            self.assertEqual(await second, 0)
        with self.assertRaises(asyncio.CancelledError):
            await first
        self.assertFalse(os.path.exists(f"{self.state}.new"))
        read_state(self.state, whole=True)

    async def test_no_program(self) -> None:
        with self.assertRaisesRegex(NoStart, "No such file"):
            await self.start(program=f"{self.folder}/nothing")
        with self.assertRaisesRegex(NoStart, "ended"):
            await self.start(program="/bin/true")


class Restarts(GatewayCase):
    async def test_a_second_gateway_goes_on(self) -> None:
        gateway = await self.start()
        first = pay(0, 60, 40)
        await self.accept(first, spend(first, 1, 40), pay(1))
        await self.operate(f"adopt 8 #{id_of(pay(1))}", f"adopt 9 #{id_of(first)}")
        self.assertTrue(await gateway.end())
        os.unlink(self.ledger)
        await self.start()
        self.assertEqual(await self.held(), [id_of(spend(first, 1, 40))])
        pool = await self.get("/mempool")
        self.assertEqual((pool["tick"], pool["lastTicket"], pool["answers"]), (9, 14, {}))
        self.assertEqual((await self.post(pay(1)))[1]["refused"], "missing")
        await self.accept(spend(first, 0, 60))

    async def test_the_pool_is_killed(self) -> None:
        gateway = await self.start()
        first = pay(0, 60, 40)
        await self.accept(first, spend(first, 1, 40), pay(1))
        await self.operate(f"adopt 8 #{id_of(pay(1))}", f"bytes a {pay(2).hex()}", "submit a")
        before = await self.held()
        self.assertEqual(len(before), 3)
        kill_pool(gateway)
        await self.comes_back(gateway)
        self.assertEqual(await self.held(), before)
        self.assertEqual((await self.get("/mempool"))["tick"], 8)
        await self.accept(pay(4))

    @unittest.skipUnless("KELTUVAR" in os.environ, "the model records no history")
    async def test_histories(self) -> None:
        """Each process of the pool has a file, which an audit finds legal."""
        folder = Path(self.folder, "new", "histories")
        gateway = await self.start("--history", str(folder))
        await self.accept(pay(0), pay(1))
        await self.operate(f"adopt 8 #{id_of(pay(1))}")
        kill_pool(gateway)
        await self.comes_back(gateway)
        await self.accept(pay(2))
        self.assertTrue(await gateway.end())
        found = []
        for history in sorted(folder.iterdir()):
            words = (PROGRAM, "audit", "--signatures", "checked", str(history))
            audit = await asyncio.create_subprocess_exec(
                *words, stdout=asyncio.subprocess.PIPE, stderr=asyncio.subprocess.STDOUT
            )
            told, _ = await audit.communicate()
            found.append((told.decode("ascii"), audit.returncode))
        self.assertEqual(found, [("audit legal\n", 0)] * 2)
        has_new = [pay(2).hex() in one.read_text() for one in sorted(folder.iterdir())]
        self.assertEqual(has_new, [False, True])

    @unittest.skipUnless("KELTUVAR" in os.environ, "the model records no history")
    async def test_a_history_on_a_full_disk(self) -> None:
        script = Path(self.folder, "program")
        script.write_text(FULL.format(folder=self.folder, program=PROGRAM))
        script.chmod(0o755)
        with mock.patch.object(program, "_SILENCE", 1.0):
            words = ("--history", f"{self.folder}/histories", "--clients", "2")
            gateway = await self.start(*words, program=str(script))
            got = [(await self.post(pay(place)))[0] for place in range(OUTPUTS)]
            accepted = [id_of(pay(place)) for place in range(OUTPUTS) if got[place] == 202]
            self.assertTrue(0 < len(accepted) < OUTPUTS)
            await asyncio.sleep(3)
            await self.get("/health", 503)
            Path(self.folder, "room").touch()
            await self.comes_back(gateway)
        held = await self.held()
        self.assertEqual(held[: len(accepted)], accepted)
        self.assertLessEqual(len(held), len(accepted) + 1)
        self.assertEqual(len(os.listdir(f"{self.folder}/histories")), 2)

    async def comes_back(self, gateway: Gateway) -> None:
        """Waits until the pool's second process takes transactions."""
        async with asyncio.timeout(LONG):
            while gateway._keeper.counts["starts"] < 2:
                await asyncio.sleep(0.05)
        await self.until("/health", 200)

    async def test_no_answer_is_lost_while_the_pool_is_killed(self) -> None:
        gateway = await self.start("--rate", "0")
        posts = [asyncio.create_task(self.post(pay(place))) for place in range(OUTPUTS)]
        await posts[OUTPUTS // 2]
        kill_pool(gateway)
        got = await asyncio.gather(*posts)
        self.assertLessEqual({status for status, _ in got}, {202, 503})
        accepted = {answer for status, answer in got if status == 202}
        await self.comes_back(gateway)
        self.assertLessEqual(accepted, set(await self.held()))

    async def test_starts_that_fail(self) -> None:
        program = f"{self.folder}/program"
        with open(program, "w", encoding="ascii") as file:
            file.write(FAILING.format(folder=self.folder, program=PROGRAM))
        os.chmod(program, 0o755)
        gateway = await self.start(program=program)
        await self.accept(pay(0))
        kill_pool(gateway)
        await self.comes_back(gateway)
        self.assertEqual(await self.held(), [id_of(pay(0))])
        with open(f"{self.folder}/starts", encoding="ascii") as file:
            self.assertEqual(len(file.readlines()), 4)

    async def test_a_start_that_is_broken_off(self) -> None:
        program = f"{self.folder}/program"
        # Settings, outputs, the line that opens the pool, and 10 transactions.
        lines = 4 + OUTPUTS + 2 + 10
        with open(program, "w", encoding="ascii") as file:
            file.write(BROKEN_OFF.format(folder=self.folder, program=PROGRAM, lines=lines))
        os.chmod(program, 0o755)
        gateway = await self.start(program=program)
        transactions = [pay(place) for place in range(20)]
        await self.accept(*transactions)
        kill_pool(gateway)
        async with asyncio.timeout(LONG):
            while len(Path(f"{self.folder}/starts").read_text().splitlines()) < 3:
                await asyncio.sleep(0.05)
        self.assertEqual(await self.operate("save"), ["saved 20"])
        self.assertEqual(read_state(self.state, whole=True).transactions, transactions)
        Path(f"{self.folder}/go").touch()
        await self.comes_back(gateway)
        self.assertEqual(await self.held(), [id_of(data) for data in transactions])

    async def test_it_is_down_meanwhile(self) -> None:
        gateway = await self.start()
        await self.accept(pay(0))
        os.kill(pool_of(gateway), signal.SIGSTOP)
        post = asyncio.create_task(self.post(pay(1)))
        while not gateway._pool.waiting:
            await asyncio.sleep(0.05)
        kill_pool(gateway)
        self.assertEqual((await post)[0], 503)

    async def test_the_gateway_is_killed(self) -> None:
        first, port = pay(0), free_port()
        for number in range(2):
            program = await self.start_process(port)
            await self.until("/health", 200)
            if number == 0:
                await self.accept(first)
                self.assertEqual(await self.operate("save"), ["saved 1"])
                await self.accept(pay(1))
                program.kill()
                await program.wait()
        self.assertEqual(await self.held(), [id_of(first)])
        program.terminate()
        self.assertEqual(await asyncio.wait_for(program.wait(), LONG), 0)
        self.assertEqual(len(read_state(self.state, whole=True).outputs), OUTPUTS)

    async def start_process(self, port: str) -> Any:
        """Starts a gateway as a process of its own."""
        self.url = f"http://127.0.0.1:{port}"
        words = ["--program", PROGRAM, "--http", f"127.0.0.1:{port}", "--signatures", "checked"]
        files = ["--ledger", self.ledger, "--state", self.state]
        sockets = ["--operator-socket", self.operator_socket]
        program = await asyncio.create_subprocess_exec(
            *(sys.executable, "-m", "keltuvar_gateway", *words, *files, *sockets),
            stderr=asyncio.subprocess.DEVNULL,
            env={**os.environ, "PYTHONPATH": str(Path(__file__).parents[1])},
        )
        async with asyncio.timeout(LONG):
            while True:
                try:
                    await self.http.get(f"{self.url}/health")
                    return program
                except OSError:
                    await asyncio.sleep(0.1)


def free_port() -> str:
    """Returns a port that no program uses now."""
    with socket.create_server(("127.0.0.1", 0)) as server:
        return str(server.getsockname()[1])


def kill_pool(gateway: Gateway) -> None:
    os.kill(pool_of(gateway), signal.SIGKILL)
