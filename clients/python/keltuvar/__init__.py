"""A client of `keltuvar serve`: a transaction pool as a child process.

    with keltuvar.Pool("crates/mp_main/out/mp_main", timeout=10) as pool:
        pool.out("g0", 100)
        pool.tx("a", inputs=["g0"], outputs=[100])
        print(pool.submit("a"))

`Clients` holds several conversations with one pool. docs/SERVE.md has the conversation, and
docs/FORMATS.md the lines and their answers.
"""

from .answers import error_in
from .channel import Stream
from .clients import Clients
from .errors import (
    BadLine,
    Broken,
    Closed,
    KeltuvarError,
    OutOfMemory,
    Refused,
    Timeout,
    Undecodable,
)
from .pool import Pool
from .values import (
    Block,
    Bundle,
    Declared,
    Given,
    Input,
    Item,
    LedgerChange,
    Output,
    Removed,
    Shown,
    Snapshot,
    Stats,
)

__version__ = "0.1.0"

__all__ = [
    "BadLine",
    "Block",
    "Broken",
    "Bundle",
    "Clients",
    "Closed",
    "Declared",
    "Given",
    "Input",
    "Item",
    "KeltuvarError",
    "LedgerChange",
    "OutOfMemory",
    "Output",
    "Pool",
    "Refused",
    "Removed",
    "Shown",
    "Snapshot",
    "Stats",
    "Stream",
    "Timeout",
    "Undecodable",
    "error_in",
]
