"""How far the work is: told on standard error at most once a second, in a log as lines of JSON, and as
metrics for Prometheus."""
from __future__ import annotations

import json
import sys
import time
from datetime import datetime, timezone
from pathlib import Path
from typing import IO, Any

from .work import FaultError


class Metrics:
    """Numbers for Prometheus, by Debian's python3-prometheus-client: at a port of their own, or where
    the service gives them."""

    def __init__(self, port: int | None) -> None:
        try:
            import prometheus_client
        except ImportError:
            raise FaultError("--metrics needs prometheus_client (Debian: python3-prometheus-client), which isn't here") from None
        try:
            if port is not None:
                prometheus_client.start_http_server(port, addr="127.0.0.1")
        except OSError as why:
            raise FaultError(f"--metrics {port}: {why.strerror}") from None
        self.done: Any = prometheus_client.Gauge("exchange_done", "How much of a kind of work is done", ["what"])
        self.whole: Any = prometheus_client.Gauge("exchange_whole", "How much of a kind of work there is", ["what"])
        self.paid: Any = prometheus_client.Gauge("exchange_total", "Totals of the day once it is over", ["what"])

    def tell(self, what: str, done: int, whole: int) -> None:
        self.done.labels(what).set(done)
        self.whole.labels(what).set(whole)


class Log:
    """A file of JSON lines: `at` in UTC, `event`, and what belongs to it."""

    def __init__(self, path: str | None) -> None:
        self.file: IO[str] | None = Path(path).open("a", encoding="utf-8") if path else None

    def event(self, event: str, **told: object) -> None:
        if self.file is not None:
            at = datetime.now(timezone.utc).isoformat(timespec="milliseconds").replace("+00:00", "Z")
            self.file.write(json.dumps({"at": at, "event": event, **told}, ensure_ascii=False) + "\n")
            self.file.flush()


class Progress:
    def __init__(self, is_told: bool, log: Log | None = None, metrics: Metrics | None = None) -> None:
        self.is_told, self.log, self.metrics, self.last = is_told, log or Log(None), metrics, time.monotonic()
        self.what, self.first, self.done, self.whole, self.begun = "", 0, 0, 0, self.last

    def begin(self, what: str, done: int, whole: int) -> None:
        """So many are done of the next kind of work."""
        if self.what:
            self.log.event("done", what=self.what, count=self.done, seconds=round(time.monotonic() - self.begun, 3))
        self.what, self.first, self.done, self.whole, self.begun = what, done, done, whole, time.monotonic()
        if what:
            self.log.event("begun", what=what, done=done, whole=whole)
            self.measure()

    def over(self, totals: dict[str, Any]) -> None:
        """The day is over, with these totals."""
        self.begin("", 0, 0)
        numbers = {name: it for name, it in totals.items() if isinstance(it, int)}
        self.log.event("over", **numbers)
        for name, number in numbers.items() if self.metrics else ():
            self.metrics.paid.labels(name).set(number)  # type: ignore[union-attr]

    def measure(self) -> None:
        if self.metrics and self.what:
            self.metrics.tell(self.what, self.done, self.whole)

    def step(self, count: int = 1) -> None:
        """So many more are done."""
        self.done = min(self.done + count, self.whole)
        present = time.monotonic()
        if present - self.last >= 1:
            self.last = present
            self.tell(present)

    def tell(self, present: float) -> None:
        self.measure()
        pace = (self.done - self.first) / max(0.001, present - self.begun)
        left = f", some {(self.whole - self.done) / pace:.0f} s to go" if pace else ""
        self.log.event("progress", what=self.what, done=self.done, whole=self.whole)
        if self.is_told:
            print(f"exchange: progress: {self.done} of {self.whole} {self.what}, {pace:.1f} a second{left}", file=sys.stderr, flush=True)
