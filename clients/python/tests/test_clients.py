"""Several conversations with one program."""

from __future__ import annotations

import contextlib
import os
import signal
import subprocess
import sys
import threading
import time
import unittest
from concurrent.futures import ThreadPoolExecutor
from pathlib import Path

from example import transaction_bytes
from keltuvar import BadLine, Broken, Clients, Closed, Pool, Refused, Timeout

from . import FAKE, LONG, PROGRAM, SHORT, is_running
from .test_program import PLAIN, PLAIN_ID, PLAIN_OUTPUT

# The folder of the package.
HERE = Path(__file__).parents[1]


def knows_clients() -> bool:
    """Returns whether the program has the option `--client`."""
    if not PROGRAM:
        return False
    told = subprocess.run([PROGRAM, "serve", "--help"], capture_output=True, timeout=LONG)
    return b"--client" in told.stdout


def kill_with_clients(program: object, calls: str) -> int:
    """Has a process start the program for two clients, make some calls and be killed.

    Returns the number of the program's process.
    """
    begins = f"from keltuvar import Clients; pools = Clients({str(program)!r}, 2)"
    ends = "import os; print(pools.pid, flush=True); os.kill(os.getpid(), 9)"
    words = [sys.executable, "-c", "; ".join([begins, *calls.split("; "), ends])]
    return int(subprocess.run(words, cwd=HERE, stdout=subprocess.PIPE, timeout=LONG).stdout)


def wait_for_end(pid: int) -> bool:
    """Waits until a process has ended that needn't be a child, and returns whether it has."""
    until = time.monotonic() + LONG
    with contextlib.suppress(OSError):
        while time.monotonic() < until:
            state = Path(f"/proc/{pid}/stat").read_text(encoding="ascii").rpartition(")")[2]
            if state.split()[0] == "Z":
                return True
            time.sleep(0.02)
        return False
    return True


# Makes pipes in a process that changes its user, if it may, or else forbids others to look at it.
UNDUMPABLE = """
import os
from keltuvar.clients import Pipes

if os.geteuid() == 0:
    os.setuid(65534)
else:
    import ctypes

    ctypes.CDLL(None).prctl(4, 0)
try:
    Pipes()
except OSError as error:
    print(error.strerror)
"""

# What a process asks before it is killed: nothing, what opens the pool, and what a client asks.
CALLS = ("pass", "pools.operator.lookup(0)", "pools.operator.lookup(0); pools.clients[1].lookup(1)")


class Fake(unittest.TestCase):
    def setUp(self) -> None:
        self.pools = Clients(FAKE, 3, timeout=LONG)
        self.addCleanup(self.pools.close)
        self.pools.operator.lookup(0)

    def test_each_has_its_conversation(self) -> None:
        first, second, _ = self.pools.clients
        first.ask("next refused missing 0")
        self.assertEqual(second.ask("submit b"), "ok")
        self.assertEqual(self.pools.operator.lookup(1), "n1")
        with self.assertRaises(Refused):
            first.submit("a")
        self.assertEqual(second.ask("heard"), "submit b")
        self.assertEqual(first.ask("heard"), "submit a")
        self.assertEqual(first.ask("long 5000000"), "x" * 5000000)

    def test_the_command_line(self) -> None:
        with Clients(FAKE, 0, signatures="checked", salt=7, names=9, timeout=LONG) as pools:
            expected = "serve --signatures checked --salt 7 --names 9"
            self.assertEqual(pools.operator.ask("arguments"), expected)
        words = self.pools.operator.ask("arguments").split(" ")
        self.assertEqual(words[1::3], ["--client"] * 3)
        ends = [os.path.dirname(word) for word in words[2::3] + words[3::3]]
        self.assertEqual(ends, [f"/proc/{os.getpid()}/fd"] * 6)

    def test_nothing_stays_open(self) -> None:
        before = len(os.listdir("/proc/self/fd"))
        with Clients(FAKE, 3, timeout=LONG) as pools:
            pools.operator.lookup(0)
            pools.clients[0].lookup(1)
            pools.clients[1].close()
        self.assertEqual(len(os.listdir("/proc/self/fd")), before)

    def test_a_process_that_is_killed(self) -> None:
        for calls in CALLS:
            self.assertTrue(wait_for_end(kill_with_clients(FAKE, calls)), calls)

    def test_a_process_whose_pipes_cannot_be_opened(self) -> None:
        words = [sys.executable, "-c", UNDUMPABLE]
        told = subprocess.run(words, cwd=HERE, stdout=subprocess.PIPE, timeout=LONG).stdout
        self.assertIn(b"isn't dumpable", told)

    def test_a_call_waits_for_no_other(self) -> None:
        first, second, _ = self.pools.clients
        slow = threading.Thread(target=first.ask, args=("sleep 1",))
        slow.start()
        began = time.monotonic()
        self.assertEqual(second.lookup(2), "n2")
        self.assertLess(time.monotonic() - began, LONG)
        slow.join()

    def test_a_client_waits_for_the_operator(self) -> None:
        with Clients(FAKE, 2, timeout=LONG) as pools, ThreadPoolExecutor(1) as threads:
            early = threads.submit(pools.clients[0].lookup, 1)
            with self.assertRaises(Timeout):
                pools.clients[1].lookup(2, timeout=SHORT)
            self.assertFalse(early.done())
            self.assertEqual(pools.operator.lookup(3), "n3")
            self.assertEqual(early.result(LONG), "n1")

    def test_threads_share_conversations(self) -> None:
        pools = (self.pools.operator, *self.pools.clients)
        with ThreadPoolExecutor(8) as threads:
            asked = [(pools[number % 4], number) for number in range(400)]
            calls = [threads.submit(pool.lookup, number) for pool, number in asked]
            found = [call.result(LONG) for call in calls]
        self.assertEqual(found, [f"n{number}" for number in range(400)])

    def test_a_call_without_an_answer_ends_only_its_conversation(self) -> None:
        first, second, _ = self.pools.clients
        with self.assertRaises(Timeout):
            first.ask("silent", timeout=SHORT)
        with self.assertRaises(Broken):
            first.lookup(1)
        self.assertEqual((second.lookup(2), self.pools.operator.lookup(3)), ("n2", "n3"))

    def test_the_end_of_a_conversation(self) -> None:
        first, second, third = self.pools.clients
        with self.assertRaises(Broken) as caught:
            first.ask("leave")
        self.assertIsNone(caught.exception.status)
        self.assertIn("the conversation ended before it answered 'leave'", str(caught.exception))
        third.close()
        self.assertEqual((second.lookup(2), self.pools.operator.lookup(3)), ("n2", "n3"))

    def test_the_end_of_the_program(self) -> None:
        first, second, third = self.pools.clients
        first.ask("error fault: too bad")
        for client, line in ((first, "die 3"), (second, "lookup 1"), (third, "lookup 1")):
            with self.assertRaises(Broken) as caught:
                client.ask(line)
            self.assertEqual((caught.exception.status, client.status), (3, 3))
            self.assertIn("fault: too bad", caught.exception.stderr)
        with self.assertRaises(Broken):
            self.pools.operator.lookup(1)

    def test_a_program_that_opens_no_pipe(self) -> None:
        with Clients("/bin/cat", 1, timeout=LONG) as pools:
            with self.assertRaises(Broken) as caught:
                pools.clients[0].lookup(1)
            self.assertEqual(caught.exception.status, 1)
            self.assertIn("--client", caught.exception.stderr)

    def test_a_close_ends_all(self) -> None:
        pools = (self.pools.operator, *self.pools.clients)
        self.pools.close()
        self.assertEqual([pool.status for pool in pools], [0] * 4)
        for pool in pools:
            with self.assertRaises(Closed):
                pool.lookup(1)

    def test_a_close_ends_calls_under_way(self) -> None:
        with ThreadPoolExecutor(2) as threads:
            calls = [threads.submit(one.ask, "silent") for one in self.pools.clients[:2]]
            while None in (one._fault for one in self.pools.clients[:2]):
                time.sleep(0.01)
            self.pools.close(SHORT)
            for call in calls:
                self.assertIsInstance(call.exception(LONG), Closed)
        self.assertFalse(is_running(self.pools.pid))

    def test_a_program_that_opens_pipes_late(self) -> None:
        with Clients(FAKE, 3, timeout=LONG) as pools:
            pools.operator.ask("late")
            pools.close(LONG)
            self.assertEqual(pools.status, 0)

    def test_a_program_that_writes_what_nobody_reads(self) -> None:
        client = self.pools.clients[0]
        client.lookup(1)
        os.write(client._channel._lines_fd, b"long 1000000\n")
        self.pools.close(LONG)
        self.assertEqual(self.pools.status, 0)

    def test_a_program_that_will_not_end(self) -> None:
        pid = self.pools.pid
        self.pools.operator.ask("stay")
        self.pools.close(SHORT)
        self.pools.close()
        self.assertFalse(is_running(pid))
        self.assertEqual(self.pools.operator.status, -signal.SIGKILL)

    def test_wrong_counts(self) -> None:
        for count in (-1, 1.5, "2", 64):
            with self.assertRaises(ValueError):
                Clients(FAKE, count)  # type: ignore[arg-type]
        with self.assertRaises(OSError):
            Clients("/no such program", 2)


@unittest.skipUnless(PROGRAM, "KELTUVAR doesn't name the program")
class Program(unittest.TestCase):
    def setUp(self) -> None:
        if not knows_clients():
            self.skipTest("the program has no option --client")

    def test_clients_share_a_pool(self) -> None:
        assert PROGRAM
        with Clients(PROGRAM, 2, timeout=LONG) as pools:
            pools.operator.utxo("0" * 64, 0, PLAIN_OUTPUT)
            self.assertEqual(pools.operator.snapshot().count, 0)
            first, second = pools.clients
            self.assertEqual(first.give(PLAIN).ticket, 1)
            with self.assertRaises(Refused) as caught:
                second.give(PLAIN)
            self.assertEqual((caught.exception.ticket, caught.exception.id), (1, PLAIN_ID))
            self.assertEqual(second.show(f"#{PLAIN_ID}").data, PLAIN)
            self.assertEqual(pools.operator.adopt(1, [f"#{PLAIN_ID}"]).dropped, (1,))
            self.assertFalse(first.has(f"#{PLAIN_ID}"))
        self.assertEqual(pools.status, 0)

    def test_what_only_the_operator_may_ask(self) -> None:
        assert PROGRAM
        with Clients(PROGRAM, 1, timeout=LONG) as pools:
            pools.operator.snapshot()
            lines = ("remove a", "sync 1", "adopt 1", "stage 00", "unstage", "back 0", "block 9")
            for line in (*lines, "out g 5"):
                with self.assertRaises(BadLine):
                    pools.clients[0].ask(line)
            pools.clients[0].reset()
            with self.assertRaises(BadLine) as caught:
                pools.clients[0].back(0)
            self.assertEqual(caught.exception.number, 1)
            self.assertEqual(pools.operator.back(0).kept, ())

    def test_a_process_that_is_killed(self) -> None:
        for calls in CALLS:
            self.assertTrue(wait_for_end(kill_with_clients(PROGRAM, calls)), calls)

    def test_a_close_before_the_pool_is_open(self) -> None:
        assert PROGRAM
        with Clients(PROGRAM, 2, timeout=LONG) as pools:
            pools.close(LONG)
            self.assertEqual(pools.status, 0)

    def test_threads_submit(self) -> None:
        assert PROGRAM
        with Clients(PROGRAM, 4, timeout=LONG) as pools, ThreadPoolExecutor(4) as threads:
            for place in range(40):
                pools.operator.utxo("0" * 64, place, PLAIN_OUTPUT)
            pools.operator.snapshot()
            given = [threads.submit(give_ten, pool, 10 * n) for n, pool in enumerate(pools.clients)]
            tickets = [call.result(LONG) for call in given]
            self.assertEqual([sorted(of) for of in tickets], tickets)
            self.assertEqual(sorted(ticket for of in tickets for ticket in of), list(range(1, 41)))
            self.assertEqual(pools.operator.snapshot().count, 40)


def give_ten(pool: Pool, first: int) -> list[int]:
    """Submits transactions that spend ten outputs, and returns their tickets."""
    data = [transaction_bytes("0" * 64, place, 100) for place in range(first, first + 10)]
    return [pool.give(one).ticket for one in data]
