"""The clock of a swap's chains: no chain rises by more than delta above the least height at which a
wallet next to it came to rest. That is what being on time asks."""
from __future__ import annotations

import os
import select
import time
from pathlib import Path

from chain import Chain
from swap_party import Header, Transcript

from .living import Living
from .work import FaultError

# How many seconds may pass without any wallet's rest
PATIENCE = 120.0


class Clock:
    """Each line of a wallet tells the heights of its chains at which it rests."""

    def __init__(self, room: Path, deal: Header, wallets: Living) -> None:
        self.room, self.deal, self.wallets = room, deal, wallets
        self.chains = [Chain(str(room), deal, arc) for arc in range(len(deal.arcs))]
        self.rested = dict.fromkeys(wallets.processes, 0)
        self.texts = dict.fromkeys(wallets.processes, b"")

    def run(self) -> None:
        """Lets the chains rise until the swap is over."""
        heard = time.monotonic()
        while not self.is_over():
            for arc in range(len(self.chains)):
                self.tick(arc)
            if self.hear():
                heard = time.monotonic()
            elif time.monotonic() - heard > PATIENCE:
                raise FaultError(f"{self.room}: no wallet came to rest for {PATIENCE:.0f} s")

    def is_over(self) -> bool:
        """Whether every chain stands above the horizon, and every wallet has seen that."""
        return all(it.look().height > self.deal.horizon for it in self.chains) and all(it > self.deal.horizon for it in self.rested.values())

    def tick(self, arc: int) -> None:
        """Lets a chain rise as far as it may."""
        chain = self.chains[arc]
        ends = (self.deal.arcs[arc].party, self.deal.arcs[arc].counterparty)
        least = min((self.rested[it] for it in ends if it in self.rested), default=chain.height)
        by = least + self.deal.delta - chain.look().height
        if by > 0 and chain.height <= self.deal.horizon:
            chain.tick(by)

    def hear(self) -> bool:
        """Takes what wallets told, if any did."""
        outputs = self.wallets.outputs()
        ready = select.select(list(outputs), [], [], 0.05)[0] if outputs else []
        for file in ready:
            self.take(outputs[file], os.read(file, 1 << 16))
        return bool(ready) or not outputs

    def take(self, name: str, told: bytes) -> None:
        """Only a whole line counts. A wallet that tells nothing has ended."""
        if not told:
            self.texts[name] = b""
            self.wallets.again(name)
            return
        *lines, self.texts[name] = (self.texts[name] + told).split(b"\n")
        for line in (it for it in lines if it != b"agreed"):
            self.rested[name] = min(int(it.partition(":")[2]) for it in line.decode().split(" "))

    def transcript(self) -> Transcript:
        return Transcript(self.deal, tuple(tuple(it.look().entries) for it in self.chains))
