"""A chain that lies in a file: a line for each entry, in the words of a transcript. Any process may
read it, tick it, and present calls to it."""
from __future__ import annotations

import fcntl
import os
from collections.abc import Iterator
from contextlib import contextmanager
from typing import BinaryIO

from contract import FULL, Contract
from swap_party import Called, Header, Tick
from swap_party.calls import Call, Entry, entry_of


class Chain:
    """The chain of one arc. Whoever opens it knows the contract's state by the entries read so
    far."""

    def __init__(self, folder: str, deal: Header, arc: int) -> None:
        self.path, self.contract = os.path.join(folder, f"chain{arc}"), Contract(deal, arc)
        self.entries: list[Entry] = []
        self.lines: list[str] = []
        self.height, self.at = 0, 0

    def look(self) -> Chain:
        """Reads what is new. A line that isn't ended yet is being written, and is read the next
        time."""
        if os.stat(self.path).st_size == self.at:
            return self
        with open(self.path, "rb") as file:
            file.seek(self.at)
            text = file.read()
        whole = text[: text.rfind(b"\n") + 1]
        self.at += len(whole)
        for line in whole.decode().splitlines():
            self.take(entry_of(line))
        return self

    def take(self, entry: Entry) -> None:
        """Follows an entry, and sees that the chain's reply is the contract's."""
        self.entries.append(entry)
        self.lines.append(str(entry))
        if isinstance(entry, Tick):
            self.height += entry.by
            return
        reply = self.contract.reply(self.height, entry.party, entry.call)
        if reply != entry.reply:
            raise ValueError(f"{self.path}: {entry.reply} is stated, and the contract's reply is {reply}")

    @contextmanager
    def held(self) -> Iterator[BinaryIO]:
        """One call at a time. What a killed process left of a line is no entry, and is cut off."""
        with open(self.path, "r+b") as file:
            fcntl.flock(file, fcntl.LOCK_EX)
            self.look()
            file.truncate(self.at)
            file.seek(self.at)
            yield file

    def write(self, file: BinaryIO, entry: Entry) -> None:
        file.write(f"{entry}\n".encode())
        file.flush()

    def tick(self, by: int) -> None:
        with self.held() as file:
            self.write(file, Tick(by))

    def call(self, party: int, call: Call, once: bool = False) -> None:
        """Presents a call. The reply is read off the chain, as everybody reads it. Where it may stand
        once alone, as one that carries a nonce, a second is dropped."""
        with self.held() as file:
            if once and any(isinstance(it, Called) and (it.party, it.call) == (party, call) for it in self.entries):
                return
            reply = self.contract.copy().reply(self.height, party, call)
            if reply != FULL:
                self.write(file, Called(party, call, reply))
