"""The words of `exchange/serve`, and how it ends."""
from __future__ import annotations

import argparse
import socket
import threading
from collections.abc import Sequence
from importlib.util import find_spec
from pathlib import Path
from typing import Any

import uvicorn

from .api import Api, application
from .commands import programs_of
from .database import StateError, opened
from .keeper import Chains, Keeper
from .pool import Crew, Workers
from .progress import Log, Metrics, Progress
from .store import Store
from .tables import RuleError, Table, id_of
from .wishes import ASSET, assets_of
from .words import FAULT, REFUSED, TOP, Words, in_range, told
from .work import FaultError, RefusedError

# The most connections at once; how many seconds one without a request is kept, which is longer than
# proxies keep theirs; and how many a request that is under way may take once the service ends
CONNECTIONS, KEPT_OPEN, GRACE = 2000, 75, 0.4


def all_words() -> argparse.ArgumentParser:
    words = Words(prog="exchange/serve", description="The exchange as a service over HTTP. A proxy in front of it has TLS.")
    words.add_argument("--version", action="version", version=f"exchange {(TOP / 'VERSION').read_text().strip()}")
    words.add_argument("--state", required=True, metavar="STATE", help="a file of SQLite or a postgresql:// URL")
    words.add_argument("--new-admin", metavar="NAME", help="make a fresh token of this admin, write it, and end")
    words.add_argument("--chains", metavar="URL", help="where the chains are read on which wallets settle")
    words.add_argument("--host", default="127.0.0.1", metavar="ADDRESS", help="where it listens, 127.0.0.1 where left out")
    words.add_argument("--port", type=in_range(1, 65535), default=8080, metavar="PORT", help="8080 where left out")
    words.add_argument("--every", type=in_range(1, 10**6), metavar="SECONDS", help="close each day after so long; else an admin closes it")
    words.add_argument("--patience", type=in_range(1, 10**6), default=3600, metavar="SECONDS", help="how long wallets have to agree, 3600 where left out")
    words.add_argument("--assets", metavar="FILE", help="for each asset the digits behind its point, and its price")
    words.add_argument("--start", type=in_range(1, 1000), default=10, metavar="HEIGHT", help="the height at which swaps start")
    words.add_argument("--delta", type=in_range(1, 100), default=10, metavar="HEIGHTS", help="the heights within which a party reacts")
    words.add_argument("--workers", type=in_range(1, 1024), default=1, metavar="N", help="processes that cut a day")
    words.add_argument("--log", metavar="FILE", help="append what happens as lines of JSON")
    words.add_argument("--swap", metavar="PATH", help="the program `swap`")
    words.add_argument("--party", metavar="PATH", help="the program `party`")
    return words


def served(asked: argparse.Namespace, store: Store) -> int:
    """Serves until a signal ends it."""
    table = Table(asked.assets or "", Path(asked.assets).read_bytes() if asked.assets else b"", ASSET, ("decimals", "price"))
    assets = assets_of(table)
    if table.bad:
        raise RefusedError(table.bad[0])
    crew = Crew(Workers(asked.workers), programs_of(asked))
    metrics = Metrics(None) if find_spec("prometheus_client") else None
    progress = Progress(False, Log(asked.log), metrics)
    keeper = Keeper(store, crew, Chains(asked.chains), assets, (asked.start, asked.delta), asked.patience, progress)
    listening = listens(asked.host, asked.port)
    server: Any = None
    api = Api(store, keeper, lambda: bool(server.should_exit))
    app = application(api, (TOP / "VERSION").read_text().strip())
    config = uvicorn.Config(app, log_level="warning", limit_concurrency=CONNECTIONS, timeout_keep_alive=KEPT_OPEN)
    server = Server(config)
    thread = keeper.start()
    try:
        server.run([listening])
    finally:
        keeper.is_over.set()
        thread.join(GRACE)
        crew.workers.close()
    told("stopped", "what was answered is kept")
    return 0 if server.started else FAULT


def listens(host: str, port: int) -> socket.socket:
    try:
        return socket.create_server((host, port), family=socket.AF_INET6 if ":" in host else socket.AF_INET, backlog=2048)
    except OSError as why:
        raise FaultError(f"it can't listen at {host}, port {port}: {why.strerror or why}") from None


class Server(uvicorn.Server):  # type: ignore[misc]
    """Ends soon, whoever holds a connection to it open."""

    def handle_exit(self, number: int, frame: object) -> None:
        super().handle_exit(number, frame)
        threading.Timer(GRACE, self.end).start()

    def end(self) -> None:
        self.force_exit = True


def main(arguments: Sequence[str]) -> int:
    asked = all_words().parse_args(arguments)
    if not asked.new_admin and not asked.chains:
        Words().error("--chains is missing")
    if asked.delta > asked.start:
        Words().error("--start is at least --delta")
    try:
        store = Store(opened(asked.state), asked.every)
        try:
            if not asked.new_admin:
                return served(asked, store)
            print(store.put_person(id_of(asked.new_admin, "the name"), True))
        finally:
            store.database.close()
    except (StateError, RefusedError, RuleError) as why:
        told("refused", why)
        return REFUSED
    except FaultError as why:
        told("fault", why)
        return FAULT
    except OSError as why:
        told("fault", f"{why.filename or 'input or output'}: {why.strerror}")
        return FAULT
    return 0
