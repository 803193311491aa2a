"""What locust has each of many users do: send wishes, and ask for swaps and for their state."""
from __future__ import annotations

import json
import os
import random
import secrets
from pathlib import Path

from locust import HttpUser, constant, task

TOKENS = json.loads(Path(os.environ["TOKENS"]).read_text())


class User(HttpUser):  # type: ignore[misc]
    wait_time = constant(1)

    def on_start(self) -> None:
        self.number = random.randrange(len(TOKENS))
        self.client.headers["Authorization"] = f"Bearer {TOKENS[self.number]}"

    @task(3)  # type: ignore[misc]
    def wish(self) -> None:
        to = f"u{(self.number + random.randrange(1, len(TOKENS))) % len(TOKENS)}"
        told = {"to": to, "units": random.randrange(1, 1000), "asset": "coin", "value": 1, "mark": secrets.token_hex(16)}
        self.client.post("/v1/wishes", json=told)

    @task(6)  # type: ignore[misc]
    def swaps(self) -> None:
        self.client.get("/v1/swaps")

    @task(1)  # type: ignore[misc]
    def state(self) -> None:
        self.client.get("/v1/state")
