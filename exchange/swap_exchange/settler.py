"""The part of a user's wallet that settles. It hears chains alone, whatever an exchange tells or keeps
back."""
from __future__ import annotations

import threading
from collections.abc import Mapping
from pathlib import Path

from swap_party import Party, Seed, Wallet

from .remote import Http, HttpError, RemoteChains
from .tables import clipped
from .wallet_book import Book, Offer

# The pause between two rounds, in seconds
PAUSE = 0.2


def say(line: str) -> None:
    print(line, flush=True)


def warn(line: str) -> None:
    """A warning of the engine. The clock of these chains waits for wallets, so none of them is
    slow."""
    if " slow " not in line:
        say(clipped(f"wallet: {line}"))


def engine(party: Party, book: Book, it: Offer, chains: RemoteChains, allow_unproved: bool) -> Wallet:
    """The engine on a swap's notes, which one process has at a time."""
    return Wallet(party, it.name, Seed(it.seed), book.notes(it.key), chains, allow_unproved=allow_unproved, tell=warn)


class Settling:
    """A swap that is under way."""

    def __init__(self, wallet: Wallet, chains: RemoteChains) -> None:
        self.wallet, self.chains = wallet, chains
        self.rested: Mapping[int, int] | None = None
        self.is_over = False
        chains.begin(wallet.deal, wallet.me, wallet.near)

    def turn(self) -> None:
        """Does what is due, and tells the chains' clock at which heights it came to rest."""
        if self.chains.look() or self.rested is None:
            self.rested = self.obeyed()
        if self.rested is not None:
            self.chains.rest(self.wallet.name, self.rested)

    def obeyed(self) -> Mapping[int, int] | None:
        step = self.wallet.step()
        while not step.rests and (step.has_kept or step.presented):
            step = self.wallet.step()
        self.is_over = step.is_done
        # (one that is over rests at all heights)
        return dict.fromkeys(step.heights, self.wallet.deal.horizon + 1) if step.is_done else step.heights if step.rests else None


class Settler(threading.Thread):
    """Settles the swaps to which all have agreed, side by side."""

    def __init__(self, home: Path, party: Party, chains: Http, allow_unproved: bool) -> None:
        super().__init__(daemon=True)
        self.home, self.party, self.chains, self.allow_unproved = home, party, chains, allow_unproved
        self.under_way: dict[str, Settling] = {}
        self.told: set[str] = set()
        self.is_ending = threading.Event()

    def run(self) -> None:
        book = Book(self.home)
        while not self.is_ending.wait(PAUSE):
            for key in book.settling():
                self.settle(book, key)

    def settle(self, book: Book, key: str) -> None:
        """Goes on with a swap. Where that fails it is tried again from the notes, as after a kill, and
        the other swaps go on."""
        try:
            if key not in self.under_way:
                self.under_way[key] = self.opened(book, key)
            self.under_way[key].turn()
            if self.under_way[key].is_over:
                self.end(book, key)
        except Exception as why:
            self.drop(key)
            if not isinstance(why, HttpError) and (told := f"{key}: {why}") not in self.told:
                self.told.add(told)
                warn(told)

    def opened(self, book: Book, key: str) -> Settling:
        chains = RemoteChains(self.chains)
        wallet = engine(self.party, book, book.offer(key), chains, self.allow_unproved)
        try:
            return Settling(wallet, chains)
        except BaseException:
            wallet.close()
            raise

    def drop(self, key: str) -> None:
        it = self.under_way.pop(key, None)
        if it is not None:
            it.wallet.close()

    def end(self, book: Book, key: str) -> None:
        ends = self.under_way[key].chains.ends()
        self.drop(key)
        book.leave(key)
        say(f"swap {key} is over: {', '.join(f'arc {arc} {end}' for arc, end in ends.items())}")
