"""A call that isn't answered is the last one, so that no answer is taken for that to another line."""

from __future__ import annotations

import contextlib
import math
import os
import random
import signal
import socket
import threading
import time
import unittest
from collections.abc import Callable, Iterator
from types import FrameType

from keltuvar import Broken, Closed, KeltuvarError, Pool, Timeout

from . import FAKE, LONG, SHORT, fake_pool, is_running


def interrupt(number: int, frame: FrameType | None) -> None:
    raise KeyboardInterrupt


@contextlib.contextmanager
def interrupted_after(
    seconds: float, handler: Callable[[int, FrameType | None], object] = interrupt
) -> Iterator[None]:
    """Has a signal come after so many seconds, once."""
    before = signal.signal(signal.SIGALRM, handler)
    signal.setitimer(signal.ITIMER_REAL, seconds)
    try:
        yield
    finally:
        signal.setitimer(signal.ITIMER_REAL, 0)
        signal.signal(signal.SIGALRM, before)


class Interruptions(unittest.TestCase):
    def check_is_over(self, pool: Pool, reason: str) -> None:
        """Checks that the program has ended, and that no further call is made."""
        self.assertFalse(is_running(pool.pid))
        for _ in range(2):
            with self.assertRaisesRegex(Broken, reason):
                pool.lookup(99)
        with self.assertRaisesRegex(Broken, reason):
            pool.ask_all(["stats"])

    def test_timeout(self) -> None:
        with fake_pool() as pool:
            self.assertEqual(pool.lookup(1), "n1")
            began = time.monotonic()
            with self.assertRaises(Timeout) as caught:
                pool.ask("silent", timeout=SHORT)
            self.assertGreaterEqual(time.monotonic() - began, SHORT)
            error = caught.exception
            self.assertEqual((error.line, error.seconds, error.sent), ("silent", SHORT, True))
            self.check_is_over(pool, "'silent' had no answer in time")

    def test_answer_that_comes_late(self) -> None:
        with fake_pool() as pool:
            with self.assertRaises(TimeoutError):
                pool.ask("sleep 0.3", timeout=0.1)
            time.sleep(0.3)
            self.check_is_over(pool, "'sleep 0.3' had no answer in time")

    def test_timeout_of_the_pool(self) -> None:
        with Pool(FAKE, timeout=SHORT) as pool:
            self.assertEqual(pool.ask("sleep 0.5", timeout=LONG), "ok")
            self.assertEqual(pool.ask("sleep 0.5", timeout=math.inf), "ok")
            with self.assertRaises(Timeout):
                pool.ask("silent")

    def test_no_limit(self) -> None:
        with Pool(FAKE) as pool:
            self.assertEqual(pool.ask("sleep 0.1"), "ok")

    def test_timeout_of_half_an_answer(self) -> None:
        with fake_pool() as pool:
            with self.assertRaises(Timeout):
                pool.ask("half", timeout=SHORT)
            self.check_is_over(pool, "'half' had no answer in time")

    def test_timeout_where_lines_are_not_read(self) -> None:
        with fake_pool() as pool:
            with self.assertRaises(Timeout) as caught:
                pool.ask_all(["sleep 60", *(f"lookup {number}" for number in range(100000))], timeout=SHORT)
            self.assertEqual(caught.exception.line, "sleep 60")
            self.check_is_over(pool, "'sleep 60' had no answer in time")

    def test_timeout_where_answers_come_one_by_one(self) -> None:
        with fake_pool() as pool:
            with self.assertRaises(Timeout):
                pool.ask_all(["sleep 0.1"] * 600, timeout=0.5)
            self.check_is_over(pool, "had no answer in time")

    def test_stopped_program(self) -> None:
        with fake_pool() as pool:
            assert pool.pid
            os.kill(pool.pid, signal.SIGSTOP)
            with self.assertRaises(Timeout):
                pool.lookup(5, timeout=SHORT)
            self.check_is_over(pool, "'lookup 5' had no answer in time")

    def test_keyboard_interrupt(self) -> None:
        with fake_pool() as pool:
            self.assertEqual(pool.lookup(1), "n1")
            with self.assertRaises(KeyboardInterrupt), interrupted_after(SHORT):
                pool.ask("silent")
            self.check_is_over(pool, "'silent' was interrupted")

    def test_handler_that_closes(self) -> None:
        with fake_pool() as pool:
            pool.lookup(1)
            with self.assertRaises(Closed), interrupted_after(SHORT, lambda *_: pool.close(LONG)):
                pool.ask("silent")
            self.assertEqual(pool.status, 0)

    def test_handler_that_calls(self) -> None:
        with fake_pool() as pool:
            pool.lookup(1)
            with self.assertRaises(Broken), interrupted_after(SHORT, lambda *_: pool.submit("a")):
                pool.ask("silent")
            self.check_is_over(pool, "'silent' was interrupted")

    def test_end_of_the_program(self) -> None:
        with fake_pool() as pool:
            pool.ask("error some words")
            with self.assertRaises(Broken) as caught:
                pool.ask("die 3")
            error = caught.exception
            self.assertEqual((error.status, error.stderr), (3, "some words"))
            self.assertEqual(
                str(error),
                "the program ended with status 3 before it answered 'die 3': some words",
            )
            self.assertEqual(pool.status, 3)
            self.check_is_over(pool, "with status 3 before it answered 'die 3': some words")

    def test_end_of_the_program_in_the_middle(self) -> None:
        lines = [f"lookup {number}" for number in range(50000)]
        for place in (0, 100, 49999):
            with self.subTest(place=place), fake_pool() as pool:
                with self.assertRaises(Broken):
                    pool.ask_all([*lines[:place], "die 4", *lines[place:]])
                self.assertEqual(pool.status, 4)
                self.check_is_over(pool, "with status 4")

    def test_end_of_the_program_between_calls(self) -> None:
        with fake_pool() as pool:
            assert pool.pid
            pool.lookup(1)
            os.kill(pool.pid, signal.SIGKILL)
            with self.assertRaises(Broken) as caught:
                pool.lookup(2)
            self.assertEqual(caught.exception.status, -signal.SIGKILL)
            self.check_is_over(pool, "with status -9 before it answered 'lookup 2'")

    def test_other_programs(self) -> None:
        for program, status in (("/bin/true", 0), ("/bin/false", 1)):
            with self.subTest(program=program), Pool(program, timeout=LONG) as pool:
                with self.assertRaises(Broken) as caught:
                    pool.stats()
                self.assertEqual(caught.exception.status, status)

    def test_end_of_a_stream(self) -> None:
        ours, theirs = socket.socketpair()
        with Pool.from_streams(ours, ours, timeout=LONG) as pool:
            theirs.close()
            with self.assertRaisesRegex(Broken, "^the conversation ended before it answered 'stats'$"):
                pool.stats()

    def test_half_an_answer_at_the_end(self) -> None:
        with fake_pool() as pool:
            with self.assertRaises(Broken):
                pool.ask_all(["half", "die 5"])
            self.check_is_over(pool, "with status 5 before it answered 'half'")

    def test_program_that_reads_no_more(self) -> None:
        with fake_pool() as pool:
            pool.ask("deaf")
            with self.assertRaises(Broken):
                pool.lookup(2)
            self.check_is_over(pool, "before it answered 'lookup 2'")

    def test_two_answers(self) -> None:
        with fake_pool() as pool:
            with self.assertRaises(Broken):
                while True:
                    pool.ask("twice")
            self.check_is_over(pool, "more than one answer, at 'twice'")

    def test_much_of_an_error_is_read(self) -> None:
        with fake_pool() as pool:
            for number in range(200):
                pool.ask(f"error {number:04000}")
            with self.assertRaises(Broken) as caught:
                pool.ask("die 1")
            self.assertEqual(len(caught.exception.stderr), 4096)
            self.assertTrue(caught.exception.stderr.endswith("0199"))

    def test_calls_after_the_end(self) -> None:
        with fake_pool() as pool:
            pool.lookup(1)
        for _ in range(2):
            with self.assertRaises(Closed):
                pool.lookup(2)

    def test_wrong_arguments_do_no_harm(self) -> None:
        with fake_pool() as pool:
            with self.assertRaises(ValueError):
                pool.submit("a\nremove b")
            self.assertEqual(pool.lookup(2), "n2")


def answer_lookups(server: socket.socket) -> None:
    """Answers each `lookup N` as the fake server does, until the other end is closed."""
    with server, contextlib.suppress(OSError), server.makefile("rwb") as file:
        for line in file:
            file.write(b"lookup n" + line.split(b" ")[1])
            file.flush()


class Anywhere(unittest.TestCase):
    """An interrupt at any place leaves a pool that answers rightly, or not at all."""

    ROUNDS = 300

    def test_random_moments(self) -> None:
        rng = random.Random(69)
        for _ in range(self.ROUNDS):
            ours, theirs = socket.socketpair()
            server = threading.Thread(target=answer_lookups, args=(theirs,))
            server.start()
            pool = Pool.from_streams(ours, ours, timeout=LONG)
            with contextlib.suppress(KeyboardInterrupt):
                with interrupted_after(rng.uniform(0.0001, 0.003)):
                    self.call_until_interrupted(pool)
            self.check(pool)
            pool.close()
            server.join(LONG)
            self.assertFalse(server.is_alive())

    def call_until_interrupted(self, pool: Pool) -> None:
        """Calls for so long that an interrupt comes in between."""
        until = time.monotonic() + LONG
        while time.monotonic() < until:
            self.assertEqual(pool.lookup(5), "n5")

    def check(self, pool: Pool) -> None:
        """Checks what another thread is answered."""
        found: list[object] = []

        def call() -> None:
            try:
                found.append(pool.lookup(7, timeout=LONG))
            except KeltuvarError as error:
                found.append(type(error))

        other = threading.Thread(target=call)
        other.start()
        other.join(LONG)
        self.assertIn(found, (["n7"], [Broken]))
