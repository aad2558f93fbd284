"""The program `keltuvar-gateway`."""

from __future__ import annotations

import asyncio
import logging
import sys
from collections.abc import Coroutine, Sequence
from typing import Any

from .options import read_options


def _run(gateway: Coroutine[Any, Any, int]) -> int:
    """Runs the gateway, on the faster event loop of python3-uvloop where that is installed."""
    try:
        import uvloop
    except ImportError:
        return asyncio.run(gateway)
    uvloop.install()
    return asyncio.run(gateway)


def main(arguments: Sequence[str] | None = None) -> int:
    """Runs the gateway, and returns the exit status."""
    options = read_options(sys.argv[1:] if arguments is None else arguments)
    try:
        import aiohttp  # noqa: F401
    except ImportError:
        print(
            "keltuvar-gateway: aiohttp is missing: apt-get install python3-aiohttp, "
            f"and run it with /usr/bin/python3 (this is {sys.executable})",
            file=sys.stderr,
        )
        return 1
    from .gateway import NoStart, allow_files, run

    logging.basicConfig(format="keltuvar-gateway: %(message)s", level=logging.WARNING)
    # aiohttp logs each broken request with a traceback. No client may fill the log.
    logging.getLogger("aiohttp").setLevel(logging.CRITICAL)
    allow_files(options.limits)
    try:
        return _run(run(options))
    except NoStart as error:
        print(f"keltuvar-gateway: {error}", file=sys.stderr)
        return 1


if __name__ == "__main__":
    sys.exit(main())
