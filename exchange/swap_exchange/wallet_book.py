"""What a user's wallet keeps beside the notes of its swaps, each of which the engine keeps."""
from __future__ import annotations

import os
import sqlite3
from collections.abc import Sequence
from dataclasses import dataclass
from pathlib import Path
from typing import Any

TABLES = (
    "create table if not exists wish (mark text primary key, to_whom text not null, units integer not null, asset text not null, value integer, swap text)",
    "create table if not exists sent (mark text primary key, wish integer not null)",
    "create table if not exists swap (key text primary key, name text not null, offer text not null, context text not null, seed blob not null,"
    " stage text not null)",
)
OFFERED, SETTLING, LEFT = "offered", "settling", "left"
# What a wish has instead of a swap once its owner took it back, before and after the exchange said so
WITHDRAWING, WITHDRAWN = "withdrawing", "withdrawn"
Change = tuple[str, tuple[object, ...]]


@dataclass(frozen=True)
class Offer:
    """A swap that was offered: its key, the owner's name inside, the offer's line, the lines of
    context, and the seed that was drawn for it."""

    key: str
    name: str
    offer: str
    context: tuple[str, ...]
    seed: bytes


class Book:
    """A file of SQLite in the wallet's own folder: a change is on the disk once it returns."""

    def __init__(self, home: Path) -> None:
        self.home = home
        home.mkdir(mode=0o700, parents=True, exist_ok=True)
        os.close(os.open(home / "wallet.db", os.O_CREAT | os.O_RDWR, 0o600))
        self.database = sqlite3.connect(home / "wallet.db", isolation_level=None, timeout=30)
        for pragma in ("journal_mode = DELETE", "synchronous = EXTRA", "fullfsync = ON", "secure_delete = ON"):
            self.database.execute(f"pragma {pragma}").fetchall()
        for table in TABLES:
            self.database.execute(table)

    def rows(self, ask: str, *words: object) -> list[tuple[Any, ...]]:
        return self.database.execute(ask, words).fetchall()

    def step(self, changes: Sequence[Change]) -> None:
        """All of these changes, or none."""
        self.database.execute("begin immediate")
        try:
            for change, words in changes:
                self.database.execute(change, words)
        except BaseException:
            self.database.execute("rollback")
            raise
        self.database.execute("commit")

    def close(self) -> None:
        self.database.close()

    # ---- swaps

    def notes(self, key: str) -> Path:
        """Where the engine keeps a swap's notes."""
        return self.home / f"notes-{key.replace('/', '-')}"

    def stage(self, key: str) -> str | None:
        found = self.rows("select stage from swap where key = ?", key)
        return str(found[0][0]) if found else None

    def offer(self, key: str) -> Offer:
        name, offer, context, seed = self.rows("select name, offer, context, seed from swap where key = ?", key)[0]
        return Offer(key, name, offer, tuple(context.splitlines()), bytes(seed))

    def take(self, it: Offer, marks: Sequence[str]) -> None:
        """Writes an offer down, with the wishes that it uses up."""
        put = "insert into swap values (?, ?, ?, ?, ?, ?)", (it.key, it.name, it.offer, "\n".join(it.context), it.seed, OFFERED)
        self.step([put, *(("update wish set swap = ? where mark = ? and swap is null", (it.key, mark)) for mark in marks)])

    def settle(self, key: str) -> None:
        self.step([("update swap set stage = ? where key = ?", (SETTLING, key))])

    def leave(self, key: str) -> None:
        """The swap is over, and its seed is struck out."""
        self.step([("update swap set stage = ?, seed = x'' where key = ?", (LEFT, key))])

    def settling(self) -> list[str]:
        return [str(key) for (key,) in self.rows("select key from swap where stage = ? order by rowid", SETTLING)]

    def count_left(self) -> int:
        return int(self.rows("select count(*) from swap where stage = ?", LEFT)[0][0])

    # ---- wishes

    def free_wishes(self) -> list[tuple[str, str, int, str]]:
        """The mark of each wish that no swap uses, with whom it pays how many units of what."""
        ask = "select mark, to_whom, units, asset from wish where swap is null order by rowid"
        return [(str(mark), str(to), int(units), str(asset)) for mark, to, units, asset in self.rows(ask)]
