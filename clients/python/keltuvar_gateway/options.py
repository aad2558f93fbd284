"""The command line."""

from __future__ import annotations

import argparse
import math
from collections.abc import Sequence
from dataclasses import dataclass

from keltuvar.clients import MOST_CLIENTS

from . import __version__
from .limits import Limits

_DEFAULTS = Limits()


@dataclass(frozen=True, slots=True)
class Options:
    """What the command line says."""

    program: str
    signatures: str
    host: str
    port: int
    client_socket: str | None
    operator_socket: str | None
    ledger: str | None
    state: str | None
    save_seconds: float
    history: str | None
    most_waiting: int
    clients: int
    limits: Limits

    @property
    def command(self) -> list[str]:
        """The command that starts the pool's process."""
        return [self.program, "serve", "--signatures", self.signatures]


def _count(text: str) -> int:
    number = int(text)
    if not 1 <= number <= 1_000_000:
        raise ValueError
    return number


def _clients(text: str) -> int:
    number = int(text)
    # One would be for requests, and none for the client socket.
    if number == 1 or not 0 <= number <= MOST_CLIENTS:
        raise ValueError
    return number


def _seconds(text: str) -> float:
    number = float(text)
    if not 0 < number < math.inf:
        raise ValueError
    return number


def _rate(text: str) -> float:
    return float(text) if float(text) == 0 else _seconds(text)


def _address(text: str) -> tuple[str, int]:
    host, _, port = text.rpartition(":")
    if not host or not 0 <= int(port) <= 65535:
        raise ValueError
    return host.strip("[]"), int(port)


def _make_parser() -> argparse.ArgumentParser:
    parser = argparse.ArgumentParser(
        "keltuvar-gateway",
        description="Serves a transaction pool over HTTP, a WebSocket and Unix sockets.",
        epilog="GATEWAY.md of the package has all answers and limits.",
        formatter_class=argparse.ArgumentDefaultsHelpFormatter,
    )
    add = parser.add_argument
    add("--version", action="version", version=f"keltuvar-gateway {__version__}")
    add("--program", metavar="FILE", default="keltuvar", help="the pool's program")
    schemes = ["ed25519", "checked", "trial"]
    add("--signatures", choices=schemes, default="ed25519", help="what the pool accepts")
    http = ("127.0.0.1", 8090)
    add("--http", metavar="HOST:PORT", type=_address, default=http, help="where HTTP is answered")
    add("--client-socket", metavar="PATH", help="a Unix socket for clients of the line protocol")
    add("--operator-socket", metavar="PATH", help="a Unix socket for the operator, of mode 0600")
    add("--ledger", metavar="FILE", help="settings and 'utxo' lines to begin with")
    add("--state", metavar="FILE", help="where all is saved; if it exists, --ledger isn't read")
    add(
        "--save-seconds", metavar="N", type=_rate, default=0.0, help="saves so often; 0: at the end"
    )
    histories = "where each process of the pool records its changes, for 'keltuvar audit'"
    add("--history", metavar="FOLDER", help=histories)
    add("--waiting", metavar="N", type=_count, default=1024, help="submits that wait for the pool")
    clients = "conversations for submits and the client socket, 2 to 63; 0: only the operator's"
    add("--clients", metavar="N", type=_clients, default=8, help=clients)
    limits = {
        "connections": (_count, "N", "connections of each listener"),
        "rate": (_rate, "N", "requests a second of one address; 0: no limit"),
        "request-seconds": (_seconds, "N", "the time for a request to come, and for its answer"),
        "idle-seconds": (_seconds, "N", "the time that a connection may be silent"),
    }
    for name, (kind, what, meaning) in limits.items():
        default = getattr(_DEFAULTS, name.replace("-", "_"))
        add(f"--{name}", metavar=what, type=kind, default=default, help=meaning)
    return parser


def read_options(arguments: Sequence[str]) -> Options:
    """Reads the command line. Where it is wrong, the program ends with status 2."""
    found = _make_parser().parse_args(arguments)
    limits = Limits(found.connections, found.rate, found.request_seconds, found.idle_seconds)
    host, port = found.http
    return Options(
        program=found.program,
        signatures=found.signatures,
        host=host,
        port=port,
        client_socket=found.client_socket,
        operator_socket=found.operator_socket,
        ledger=found.ledger,
        state=found.state,
        save_seconds=found.save_seconds,
        history=found.history,
        most_waiting=found.waiting,
        clients=found.clients,
        limits=limits,
    )
