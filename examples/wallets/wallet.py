#!/usr/bin/env python3
"""A party's wallet: it makes the deal with the others, agrees to its terms, and settles by the engine
`swap_party.Wallet`, for which the chains are the files of `chain.py`.

usage: wallet.py FOLDER NAME [--twice]

FOLDER is what all can read: the `offer`, the lines of `context`, the chains, and the board, on
which each wallet puts its row and the digest of what it agrees to. FOLDER/NAME is this party's
alone: its `seed`, and its `notes`. Killed at any moment and started again it goes on from there.
Where the file `walk` stands there, it publishes nothing any more.

It asks the program `party`, or the library that the environment's SWAP_PARTY_LIBRARY names. Each
time that it came to rest it tells a line: the heights of its chains, as it had seen them. --twice
presents each publish twice, which no wallet may.
"""
from __future__ import annotations

import os
import sys
import time
from collections.abc import Callable
from functools import lru_cache
from pathlib import Path

sys.dont_write_bytecode = True
HERE = os.path.dirname(os.path.abspath(__file__))
PARTY = os.environ.get("PARTY", os.path.join(HERE, "..", "..", "party"))
sys.path.insert(1, os.path.join(HERE, "..", "..", "python"))
from chain import Chain  # noqa: E402

from swap_party import Header, Landing, Library, Party, Program, Publish, Reading, Seed, Step, Wallet  # noqa: E402
from swap_party.calls import Call  # noqa: E402


@lru_cache(maxsize=1)
def answering() -> Party:
    """What answers: the library where the environment names one, and else the program."""
    if os.environ.get("SWAP_PARTY_LIBRARY"):
        return Library()
    return Program(PARTY)


def put(path: Path, text: str) -> None:
    """Writes a file that others read: it is there whole, or not at all."""
    part = path.with_suffix(".part")
    part.write_text(text)
    part.replace(path)


def awaited(path: Path, most: float = 300) -> str:
    """What stands in a file, once it is there."""
    end = time.monotonic() + most
    while not path.exists():
        if time.monotonic() > end:
            raise TimeoutError(f"{path} isn't there after {most} s")
        time.sleep(0.002)
    return path.read_text()


class Files:
    """The chains of a folder, for the engine. They are final at once."""

    def __init__(self, folder: Path, twice: bool, pause: float) -> None:
        self.folder, self.twice, self.pause = folder, twice, pause
        self.chains: dict[int, Chain] = {}
        self.me = 0

    def open(self, deal: Header, me: int) -> None:
        self.me = me
        self.chains = {arc: Chain(str(self.folder), deal, arc) for arc, ends in enumerate(deal.ends) if me in ends}

    def read(self, arc: int) -> Reading:
        chain = self.chains[arc].look()
        return Reading(tuple(chain.lines), chain.height)

    def present(self, arc: int, call: Call, until: int | None) -> None:
        """A publish stands once, as if it carried a nonce."""
        chain = self.chains[arc]
        chain.call(self.me, call, once=isinstance(call, Publish))
        if self.twice and isinstance(call, Publish):
            chain.call(self.me, call)

    def seen(self) -> list[int]:
        return [len(chain.entries) for chain in self.chains.values()]

    def sleep(self, until: int | None) -> None:
        """Until something stands on one of its chains that it hasn't seen."""
        before = self.seen()
        while before == [len(chain.look().entries) for chain in self.chains.values()]:
            time.sleep(self.pause)


class Settling:
    """A party's way from its seed to the end of the swap."""

    def __init__(self, folder: str, name: str, twice: bool, pause: float) -> None:
        self.folder, self.name = Path(folder), name
        self.files = Files(self.folder, twice, pause)
        own = self.folder / name
        seed = Seed.of_hex((own / "seed").read_text())
        self.wallet = Wallet(answering(), name, seed, own / "notes", self.files, allow_unproved=True, tell=self.tell)
        if self.wallet.notes.agreement is None:
            self.agree()
        self.files.open(self.wallet.deal, self.wallet.me)

    def tell(self, line: str) -> None:
        """A warning. This world's clock waits for its wallets, so none of them is slow."""
        if " slow " not in line:
            print(line, file=sys.stderr)

    def agree(self) -> None:
        """This party's row goes to the board, the deal is made of the rows of all, and all compare
        the digests of their terms before any of them agrees."""
        board, names = self.folder / "board", (self.folder / "names").read_text().split()
        offer, context = (self.folder / "offer").read_text(), (self.folder / "context").read_text().splitlines()
        put(board / f"{self.name}.row", self.wallet.row(offer))
        header = self.wallet.party.deal(offer, [awaited(board / f"{name}.row") for name in names]).rstrip("\n")
        terms = self.wallet.terms(header, context)
        put(board / f"{self.name}.agree", terms.agree)
        for name in names:
            if awaited(board / f"{name}.agree") != terms.agree:
                raise ValueError(f"{self.name} and {name} would agree to different deals")
        self.wallet.agree(header, context)

    def rests(self, step: Step) -> bool:
        """Whether nothing is left to do; a wallet that walks away leaves its publishes."""
        left = [it for it in step.answer.due if not isinstance(it, Landing) and not (hasattr(it, "call") and isinstance(it.call, Publish))]
        return step.rests or self.wallet.walks and not left

    def turn(self) -> dict[int, int]:
        """Asks and obeys until nothing is due, and answers the heights at which it then rests."""
        if (self.folder / self.name / "walk").exists():
            self.wallet.walk_away()
        while not self.rests(step := self.wallet.step()):
            pass
        return dict(step.heights)


def live(folder: str, name: str, twice: bool, tell: Callable[[str], object], pause: float = 0.003) -> None:
    """A wallet's whole life, from the moment of height 0 on. It ends where its process is killed.
    It looks again after each pause."""
    settling = Settling(folder, name, twice, pause)
    tell("agreed")
    awaited(Path(folder) / "start")
    while True:
        tell(" ".join(f"{arc}:{height}" for arc, height in settling.turn().items()))
        settling.files.sleep(None)


if __name__ == "__main__":
    live(sys.argv[1], sys.argv[2], "--twice" in sys.argv[3:], lambda line: print(line, flush=True))
