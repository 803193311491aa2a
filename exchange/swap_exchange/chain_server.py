"""The simulated chains of deals, behind HTTP."""
from __future__ import annotations

import json
import os
import re
import signal
import threading
import time
from collections.abc import Sequence
from http.server import BaseHTTPRequestHandler, ThreadingHTTPServer
from pathlib import Path
from urllib.parse import parse_qs, urlsplit

from chain import Chain
from swap_party import Header, Publish
from swap_party.calls import call_of
from swap_party.lines import WordError

from .words import Words, in_range

BODY = 1 << 20
PATH = re.compile("/deals/([0-9a-f]{64})(?:/([0-9]{1,3}|rest)(?:/([0-9]{1,2}))?)?")


class Deal:
    """The chains of a deal, and the heights at which its wallets came to rest."""

    def __init__(self, folder: Path, header: Header) -> None:
        self.header, self.lock = header, threading.RLock()
        for arc in range(len(header.arcs)):
            (folder / f"chain{arc}").touch()
        self.chains = [Chain(str(folder), header, arc).look() for arc in range(len(header.arcs))]
        self.rested = dict.fromkeys(header.names, 0)
        self.heard = dict.fromkeys(header.names, time.monotonic())

    @property
    def is_over(self) -> bool:
        return all(it.height > self.header.horizon for it in self.chains)

    def rest(self, name: str, heights: Sequence[int]) -> None:
        with self.lock:
            if name in self.rested:
                self.rested[name] = max(self.rested[name], min(heights, default=0))
                self.heard[name] = time.monotonic()

    def tick(self, patience: float) -> None:
        """Lets each chain rise as far as it may."""
        with self.lock:
            present = time.monotonic()
            waited = {name for name, heard in self.heard.items() if present - heard < patience}
            for chain, arc in zip(self.chains, self.header.arcs):
                ends = [self.rested[it] for it in (arc.party, arc.counterparty) if it in waited]
                chain.look()
                by = min(ends, default=chain.height) + self.header.delta - chain.height
                if by > 0 and chain.height <= self.header.horizon:
                    chain.tick(by)
                    chain.look()


class World:
    """All deals of a folder."""

    def __init__(self, folder: Path, patience: float) -> None:
        self.folder, self.patience, self.lock = folder, patience, threading.Lock()
        self.deals: dict[str, Deal] = {}
        for it in sorted(folder.glob("*/header")):
            self.deals[it.parent.name] = Deal(it.parent, Header.of(it.read_text().strip()))

    def begin(self, line: str) -> str:
        header = Header.of(line)
        deal, folder = header.deal_id().hex(), self.folder / header.deal_id().hex()
        with self.lock:
            if deal not in self.deals:
                folder.mkdir(exist_ok=True)
                new = folder / "header.new"
                with new.open("w") as file:
                    file.write(line + "\n")
                    file.flush()
                    os.fsync(file.fileno())
                new.rename(folder / "header")
                self.deals[deal] = Deal(folder, header)
        return deal

    def run(self) -> None:
        while True:
            for it in list(self.deals.values()):
                if not it.is_over:
                    it.tick(self.patience)
            time.sleep(0.05)


class Handler(BaseHTTPRequestHandler):
    world: World
    protocol_version = "HTTP/1.1"

    def log_message(self, format: str, *words: object) -> None:
        """(nothing is told of each request)"""

    def answer(self, status: int, text: str) -> None:
        told = text.encode()
        self.send_response(status)
        self.send_header("Content-Type", "text/plain; charset=utf-8")
        self.send_header("Content-Length", str(len(told)))
        self.end_headers()
        self.wfile.write(told)

    def body(self) -> str:
        length = int(self.headers.get("Content-Length") or 0)
        if not 0 <= length <= BODY:
            raise WordError("the body is too long")
        return self.rfile.read(length).decode("ascii")

    def handled(self) -> None:
        try:
            self.answer(200, self.told(self.command, self.body()))
        except LookupError:
            self.answer(404, "there is no such deal, chain or path\n")
        except ValueError as why:
            self.answer(422, f"{why}\n"[:200])

    do_GET = do_PUT = do_POST = handled

    def told(self, method: str, body: str) -> str:
        """What a request is answered."""
        at = urlsplit(self.path)
        if (method, at.path) == ("PUT", "/deals"):
            return self.world.begin(body.strip()) + "\n"
        found = PATH.fullmatch(at.path)
        if found is None:
            raise LookupError
        deal = self.world.deals[found[1]]
        if method == "GET" and found[2] is None:
            return json.dumps({"over": deal.is_over, "heights": [it.height for it in deal.chains]}) + "\n"
        if (method, found[2]) == ("POST", "rest"):
            name, *heights = body.split()
            deal.rest(name, [int(it.partition(":")[2]) for it in heights])
            return "\n"
        chain = deal.chains[int(found[2] or "x")]
        with deal.lock:
            if method == "GET" and found[3] is None:
                first = int(parse_qs(at.query).get("from", ["0"])[0])
                return "".join(f"{it}\n" for it in chain.entries[first:])
            if method == "POST" and found[3] is not None:
                if int(found[3]) not in self.ends(deal, chain):
                    raise ValueError("the party doesn't touch the arc")
                call = call_of(body.split())
                # (a publish carries a nonce: it stands once)
                chain.call(int(found[3]), call, once=isinstance(call, Publish))
                chain.look()
                return "\n"
        raise LookupError

    @staticmethod
    def ends(deal: Deal, chain: Chain) -> tuple[int, int]:
        return deal.header.ends[chain.contract.arc]


def main(arguments: Sequence[str]) -> int:
    words = Words(prog="exchange/chains", description="Simulated chains behind HTTP.")
    words.add_argument("--folder", required=True, type=Path)
    words.add_argument("--host", default="127.0.0.1", metavar="ADDRESS", help="where it listens, 127.0.0.1 where left out")
    words.add_argument("--port", type=in_range(1, 65535), default=8090, metavar="PORT", help="8090 where left out")
    words.add_argument("--patience", type=float, default=60.0, metavar="SECONDS")
    asked = words.parse_args(arguments)
    asked.folder.mkdir(parents=True, exist_ok=True)
    Handler.world = World(asked.folder, asked.patience)
    threading.Thread(target=Handler.world.run, daemon=True).start()
    server = ThreadingHTTPServer((asked.host, asked.port), Handler)
    server.daemon_threads = True
    signal.signal(signal.SIGTERM, lambda *_: os._exit(0))
    try:
        server.serve_forever()
    except KeyboardInterrupt:
        pass
    return 0
