"""The program always ends with the pool."""

from __future__ import annotations

import signal
import socket
import time
import unittest

from keltuvar import Pool, Timeout

from . import LONG, SHORT, fake_pool, is_running


class Ending(unittest.TestCase):
    def test_by_itself(self) -> None:
        with fake_pool() as pool:
            self.assertIsNone(pool.status)
            self.assertTrue(is_running(pool.pid))
        self.assertEqual(pool.status, 0)
        self.assertFalse(is_running(pool.pid))

    def test_at_an_exception(self) -> None:
        with self.assertRaises(KeyError), fake_pool() as pool:
            raise KeyError
        self.assertEqual(pool.status, 0)

    def test_before_the_program_has_begun(self) -> None:
        fake_pool().close()

    def test_more_than_once(self) -> None:
        pool = fake_pool()
        pool.lookup(1)
        for _ in range(3):
            pool.close()
            self.assertEqual(pool.status, 0)

    def test_after_a_timeout(self) -> None:
        with fake_pool() as pool:
            with self.assertRaises(Timeout):
                pool.ask("silent", timeout=SHORT)
            self.assertFalse(is_running(pool.pid))
        self.assertEqual(pool.status, -signal.SIGKILL)

    def test_program_that_is_busy(self) -> None:
        pool = fake_pool()
        pool.lookup(1)
        pool.ask("deaf")
        pool.close(timeout=SHORT)
        self.assertEqual(pool.status, -signal.SIGTERM)

    def test_program_that_will_not_end(self) -> None:
        pool = fake_pool()
        pool.ask("stay")
        began = time.monotonic()
        pool.close(timeout=SHORT)
        self.assertLess(time.monotonic() - began, LONG)
        self.assertEqual(pool.status, -signal.SIGKILL)
        self.assertFalse(is_running(pool.pid))

    def test_streams_are_closed(self) -> None:
        ours, theirs = socket.socketpair()
        with theirs:
            with Pool.from_streams(ours, ours):
                pass
            self.assertEqual(ours.fileno(), -1)
            self.assertEqual(theirs.recv(1), b"")
