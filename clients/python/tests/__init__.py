"""Tests of the client. With KELTUVAR=PROGRAM they also talk to that program."""

from __future__ import annotations

import os
from pathlib import Path

from keltuvar import Pool

FAKE = Path(__file__).with_name("fake_server.py")
PROGRAM = os.environ.get("KELTUVAR")

# What has to come comes within so many seconds, also on a machine that has much else to do.
LONG = 60.0
# So many seconds a call waits for what doesn't come.
SHORT = 0.2


def fake_pool() -> Pool:
    """Returns a pool that the fake server holds."""
    return Pool(FAKE, timeout=LONG)


def is_running(pid: int | None) -> bool:
    """Says whether there is such a process, also one that has ended and wasn't waited for."""
    assert pid is not None
    try:
        os.kill(pid, 0)
    except ProcessLookupError:
        return False
    return True
