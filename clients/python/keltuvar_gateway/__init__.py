"""A gateway to a pool: HTTP, a WebSocket, Unix sockets and a page, over `keltuvar serve`.

GATEWAY.md, next to this package, says how to use it. A Backend is what the gateway asks of a pool;
the other modules know nothing else of it.
"""

from keltuvar import __version__

__all__ = ["__version__"]
