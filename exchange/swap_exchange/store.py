"""What the service keeps beside its days: people with tokens, wishes that were sent, and what wallets
answered. Each change is one transaction, and is on the disk before it is answered."""
from __future__ import annotations

import secrets
import time
from collections.abc import Iterable, Iterator, Sequence
from contextlib import AbstractContextManager, contextmanager
from dataclasses import dataclass
from hashlib import sha256
from threading import RLock

from .database import Database, Row
from .schema import migrate

OPEN, CLOSED, OVER = "open", "closed", "over"
ROW, AGREE, OFFER, CONTEXT, DEAL = "row", "agree", "offer", "context", "deal"
# The most wishes that one user sends on a day, and the longest mark of one
WISHES, MARK = 1000, 64


class ConflictError(ValueError):
    """What is asked for contradicts what stands."""


class Shared:
    """A database that threads share: a step has it alone."""

    def __init__(self, database: Database) -> None:
        self.database, self.lock, self.depth = database, RLock(), 0

    def rows(self, ask: str, *words: object) -> list[Row]:
        with self.lock:
            return self.database.rows(ask, *words)

    def change(self, ask: str, *words: object) -> int:
        with self.lock:
            return self.database.change(ask, *words)

    def change_each(self, ask: str, words: Iterable[Sequence[object]]) -> None:
        with self.lock:
            self.database.change_each(ask, words)

    def step(self) -> AbstractContextManager[None]:
        return self.alone()

    @contextmanager
    def alone(self) -> Iterator[None]:
        """One step. A step within a step is part of it."""
        with self.lock:
            if self.depth:
                yield
                return
            self.depth = 1
            try:
                with self.database.step():
                    yield
            finally:
                self.depth = 0

    def tables(self) -> set[str]:
        with self.lock:
            return self.database.tables()

    def close(self) -> None:
        with self.lock:
            self.database.close()


@dataclass(frozen=True)
class Person:
    name: str
    is_admin: bool


def hashed(token: str) -> str:
    """How a token is stored. It has 256 random bits, so that nobody finds it by trying."""
    return sha256(b"exchange token " + token.encode()).hexdigest()


class Store:
    def __init__(self, database: Database, length: float | None = None) -> None:
        self.database, self.length = Shared(database), length
        # (the swaps for which an answer came since this was asked last)
        self.touched: set[tuple[str, int]] = set()
        migrate(self.database)
        # (everybody by the hash of the token: no other process has the state)
        self.people = {str(token): Person(str(name), bool(it)) for name, token, it in self.database.rows("select name, token, is_admin from person")}
        with self.database.step():
            if not self.database.rows("select day from served where stage = ?", OPEN):
                self.open()

    # ---- people

    def put_person(self, name: str, is_admin: bool) -> str:
        """A fresh token of somebody, whose earlier one doesn't count any more."""
        token = secrets.token_urlsafe(32)
        with self.database.step():
            self.database.change("delete from person where name = ?", name)
            self.database.change("insert into person values (?, ?, ?)", name, hashed(token), int(is_admin))
        with self.database.lock:
            others = {it: person for it, person in self.people.items() if person.name != name}
            self.people = {**others, hashed(token): Person(name, is_admin)}
        return token

    def person(self, token: str) -> Person | None:
        return self.people.get(hashed(token))

    # ---- days

    def open(self) -> None:
        """A new day, in a step of the caller's."""
        (count,) = self.database.rows("select count(*) from served")[0]
        present = time.time()
        self.database.change("insert into served values (?, ?, ?, ?)", str(count + 1), OPEN, present + self.length if self.length else None, present)

    def days(self) -> list[tuple[str, str]]:
        """Each day and its stage, oldest first."""
        return [(str(day), str(stage)) for day, stage in self.database.rows("select day, stage from served order by opens, day")]

    def open_day(self) -> str:
        return str(self.database.rows("select day from served where stage = ?", OPEN)[0][0])

    def closed_days(self) -> list[str]:
        """The days that are closed and aren't over, oldest first."""
        return [str(day) for (day,) in self.database.rows("select day from served where stage = ? order by opens, day", CLOSED)]

    def stage_of(self, day: str) -> str | None:
        found = self.database.rows("select stage from served where day = ?", day)
        return str(found[0][0]) if found else None

    def close_day(self, is_due: bool = False, which: str | None = None) -> str | None:
        """Closes the open day, and opens the next one. Where it has to be due, only then. A day that
        is named and was closed before stays so."""
        with self.database.step():
            day, closes = self.database.rows("select day, closes from served where stage = ?", OPEN)[0]
            if is_due and (closes is None or closes > time.time()):
                return None
            if which is not None and which != day:
                if self.stage_of(which) is None:
                    raise ConflictError(f"there is no day {which!r}")
                return which
            self.database.change("update served set stage = ? where day = ?", CLOSED, day)
            self.open()
        return str(day)

    def end_day(self, day: str) -> None:
        self.database.change("update served set stage = ? where day = ?", OVER, day)

    # ---- wishes

    def send(self, payer: str, payee: str, units: int, asset: str, value: int, mark: str) -> tuple[int, str]:
        """Takes a wish for the open day, and gives its number and the day. The same mark sent again
        is the same wish."""
        told = payer, payee, units, asset, value
        with self.database.step():
            found = self.database.rows("select id, day, payer, payee, units, asset, value from sent where payer = ? and mark = ?", payer, mark)
            if found:
                if tuple(found[0][2:]) != told:
                    raise ConflictError("another wish has this mark")
                return int(found[0][0]), str(found[0][1])
            day = self.open_day()
            (count,) = self.database.rows("select count(*) from sent where day = ? and payer = ?", day, payer)[0]
            if count >= WISHES:
                raise ConflictError(f"a user sends at most {WISHES} wishes a day")
            (last,) = self.database.rows("select coalesce(max(id), 0) from sent")[0]
            self.database.change("insert into sent values (?, ?, ?, ?, ?, ?, ?, ?, 0)", last + 1, day, *told, mark)
        return int(last) + 1, day

    def withdraw(self, payer: str, wish: int) -> bool:
        """Takes a wish back, as long as its day is open; whether there is such a wish."""
        with self.database.step():
            found = self.database.rows("select day from sent where id = ? and payer = ?", wish, payer)
            if not found:
                return False
            if str(found[0][0]) != self.open_day():
                raise ConflictError("the wish's day is closed")
            self.database.change("update sent set is_withdrawn = 1 where id = ?", wish)
        return True

    def became(self, payer: str, day: str) -> list[Row]:
        """The state, the reason and the swap of each wish of a user on a day that is over, in the order
        of their numbers."""
        ask = "select state, reason, swap from wish where day = (select id from day where name = ?) and payer = ? order by number"
        return self.database.rows(ask, day, payer)

    def sent_by(self, payer: str) -> list[Row]:
        return self.database.rows("select id, day, payee, units, asset, value, is_withdrawn from sent where payer = ? order by id", payer)

    def sent_on(self, day: str) -> list[Row]:
        """The wishes of a day that weren't withdrawn, in the order of their numbers."""
        return self.database.rows("select id, payer, payee, units, asset, value from sent where day = ? and is_withdrawn = 0 order by id", day)

    # ---- what wallets answer

    def answers(self, day: str, swap: int, kind: str) -> dict[str, str]:
        ask = "select name, text from answer where day = ? and swap = ? and kind = ?"
        return {str(name): str(text) for name, text in self.database.rows(ask, day, swap, kind)}

    def put_answer(self, day: str, swap: int, name: str, kind: str, text: str) -> None:
        """Keeps an answer. Another one than the first is refused."""
        with self.database.step():
            found = self.answers(day, swap, kind).get(name)
            if found is None:
                self.database.change("insert into answer values (?, ?, ?, ?, ?)", day, swap, name, kind, text)
            elif found != text:
                raise ConflictError(f"another {kind} was sent before")
        self.touched.add((day, swap))

    def take_touched(self) -> set[tuple[str, int]]:
        touched, self.touched = self.touched, set()
        return touched
