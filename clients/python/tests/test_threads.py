"""Threads that share a pool are answered what they asked."""

from __future__ import annotations

import time
import unittest
from concurrent.futures import Future, ThreadPoolExecutor

from keltuvar import Closed, Pool, Timeout

from . import LONG, SHORT, fake_pool, is_running

THREADS = 8
CALLS = 400


def ask_own(pool: Pool, first: int) -> list[str | None]:
    """Asks for numbers that no other thread asks for, by one line and by ten at a time."""
    found: list[str | None] = []
    for number in range(first, first + CALLS, 20):
        found += [pool.lookup(one) for one in range(number, number + 10)]
        lines = [f"lookup {one}" for one in range(number + 10, number + 20)]
        found += [answer.removeprefix("lookup ") for answer in pool.ask_all(lines)]
    return found


class Threads(unittest.TestCase):
    def test_each_gets_its_own_answers(self) -> None:
        with fake_pool() as pool, ThreadPoolExecutor(THREADS) as threads:
            firsts = [1000 * thread for thread in range(THREADS)]
            for first, found in zip(firsts, threads.map(lambda n: ask_own(pool, n), firsts)):
                self.assertEqual(found, [f"n{n}" for n in range(first, first + CALLS)])

    def test_a_wait_for_others_ends(self) -> None:
        with fake_pool() as pool, ThreadPoolExecutor(1) as threads:
            slow = self.begin(threads, pool, "sleep 2")
            with self.assertRaises(Timeout) as caught:
                pool.lookup(5, timeout=SHORT)
            self.assertFalse(caught.exception.sent)
            self.assertEqual(slow.result(LONG), "ok")
            self.assertEqual(pool.lookup(5), "n5")

    def test_those_that_wait_are_refused_after_an_interruption(self) -> None:
        with fake_pool() as pool, ThreadPoolExecutor(THREADS) as threads:
            calls = [threads.submit(pool.ask, "silent", timeout=1) for _ in range(THREADS)]
            errors = [call.exception(LONG) for call in calls]
            sent = [error for error in errors if isinstance(error, Timeout) and error.sent]
            self.assertEqual(len(sent), 1)
            self.assertNotIn(None, errors)

    def test_closing_waits_for_a_call(self) -> None:
        with fake_pool() as pool, ThreadPoolExecutor(1) as threads:
            slow = self.begin(threads, pool, "sleep 0.5")
            pool.close(timeout=LONG)
            self.assertEqual(slow.result(LONG), "ok")
            self.assertEqual(pool.status, 0)

    def test_closing_ends_a_call_that_lasts(self) -> None:
        for line in ("silent", "half", "sleep 600"):
            with self.subTest(line=line), fake_pool() as pool, ThreadPoolExecutor(1) as threads:
                slow = self.begin(threads, pool, line)
                pool.close(timeout=SHORT)
                self.assertIsInstance(slow.exception(LONG), Closed)
                self.assertFalse(is_running(pool.pid))

    def test_many_may_close(self) -> None:
        with fake_pool() as pool, ThreadPoolExecutor(THREADS) as threads:
            pool.lookup(1)
            for closing in [threads.submit(pool.close) for _ in range(THREADS)]:
                closing.result(LONG)
            self.assertEqual(pool.status, 0)

    def begin(self, threads: ThreadPoolExecutor, pool: Pool, line: str) -> Future[str]:
        """Begins a call of another thread, and waits until its line was sent."""
        pool.lookup(1)
        call = threads.submit(pool.ask, line)
        while pool._fault is None and not call.done():
            time.sleep(0.01)
        return call
