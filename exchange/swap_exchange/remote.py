"""Servers that a user's wallet asks over HTTP: the exchange, and chains."""
from __future__ import annotations

import time
import urllib.error
import urllib.request
from collections.abc import Iterable, Mapping
from typing import Any

from swap_party import Header, Reading
from swap_party.calls import Call

TIMEOUT, PAUSE = 30.0, 0.1
# The most bytes of an answer
MOST = 1 << 26


class HttpError(Exception):
    """A server's answer that isn't a good one, or none."""

    def __init__(self, status: int, told: str) -> None:
        super().__init__(f"{status}: {told}" if status else told)
        self.status = status


class Stays(urllib.request.HTTPRedirectHandler):
    """Follows no redirect, so that a token goes to its server alone."""

    def redirect_request(self, *_: Any) -> None:
        return None


class Http:
    """A server that is asked over HTTP, with a token where there is one."""

    def __init__(self, url: str, token: str = "") -> None:
        self.url, self.token, self.opener = url.rstrip("/"), token, urllib.request.build_opener(Stays)

    def ask(self, method: str, path: str, body: str | None = None) -> str:
        headers = {"Authorization": f"Bearer {self.token}"} if self.token else {}
        try:
            asked = urllib.request.Request(f"{self.url}{path}", None if body is None else body.encode(), headers, method=method)
            with self.opener.open(asked, timeout=TIMEOUT) as answer:
                told: bytes = answer.read(MOST + 1)
        except urllib.error.HTTPError as why:
            raise HttpError(why.code, why.read(300).decode("utf-8", "replace").strip()) from None
        except (OSError, ValueError) as why:
            raise HttpError(0, f"{self.url} doesn't answer: {why}") from None
        if len(told) > MOST:
            raise HttpError(0, f"{self.url} answers more than {MOST} bytes")
        return told.decode("utf-8", "replace")


class RemoteChains:
    """The chains next to a party of a deal, for the engine. They are final at once, and their clock
    waits for its wallets."""

    def __init__(self, server: Http) -> None:
        self.server = server
        self.lines: dict[int, list[str]] = {}

    def begin(self, deal: Header, me: int, near: Iterable[int]) -> None:
        self.deal, self.me, self.path = deal, me, f"/deals/{deal.deal_id().hex()}"
        self.lines = {arc: [] for arc in near}
        self.server.ask("PUT", "/deals", deal.line)

    def look(self) -> bool:
        """Whether anything stands there that wasn't read before."""
        return any([self.count(arc) < len(self.read(arc).lines) for arc in self.lines])

    def count(self, arc: int) -> int:
        return len(self.lines[arc])

    def read(self, arc: int) -> Reading:
        lines = self.lines[arc]
        lines += self.server.ask("GET", f"{self.path}/{arc}?from={len(lines)}").splitlines()
        return Reading(tuple(lines))

    def present(self, arc: int, call: Call, until: int | None) -> None:
        self.server.ask("POST", f"{self.path}/{arc}/{self.me}", str(call))

    def sleep(self, until: int | None) -> None:
        time.sleep(PAUSE)

    def rest(self, name: str, heights: Mapping[int, int]) -> None:
        """Tells the clock that the wallet has done what was due at these heights."""
        told = " ".join(f"{arc}:{height}" for arc, height in heights.items())
        self.server.ask("POST", f"{self.path}/rest", f"{name} {told}")

    def ends(self) -> dict[int, str]:
        """Where the units of each arc are."""
        return {arc: end_of(lines) for arc, lines in self.lines.items()}


def end_of(lines: Iterable[str]) -> str:
    """Where the units of a chain with these entries are."""
    calls = {line.split(" ")[2] for line in lines if line.startswith("c ") and line.endswith(" = accepted")}
    return "paid" if "claim" in calls else "returned" if "refund" in calls or "publish" not in calls else "held"
