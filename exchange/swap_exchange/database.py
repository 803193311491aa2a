"""The databases in which a state may stand: SQLite in a file, or PostgreSQL by a URL. A step is one
transaction that is on the disk once it has ended."""
from __future__ import annotations

import sqlite3
import time
from collections.abc import Callable, Iterable, Iterator, Sequence
from contextlib import AbstractContextManager, contextmanager
from functools import partial
from itertools import islice
from typing import Any, Protocol

from .work import FaultError

SCHEMES = ("postgresql://", "postgres://")
# The lock that a day or a campaign holds in PostgreSQL, and how long it waits for one that was killed
LOCK, WAIT = 0x73776170, 10.0
Row = tuple[Any, ...]


class StateError(Exception):
    """The state can't be had: another process has it, or it is of something else."""


class Database(Protocol):
    """Statements have `?` for each value."""

    def rows(self, ask: str, *words: object) -> list[Row]:
        """The rows that are asked for."""

    def change(self, ask: str, *words: object) -> int:
        """How many rows were changed."""

    def change_each(self, ask: str, words: Iterable[Sequence[object]]) -> None:
        """The same statement for each of several values."""

    def step(self) -> AbstractContextManager[None]:
        """All that is written in it, or nothing of it."""

    def tables(self) -> set[str]:
        """The names of the tables that are there."""

    def close(self) -> None:
        """Lets go of the state."""


def opened(state: str) -> Database:
    """The database of a path or a URL, which no other process has."""
    if state.startswith(SCHEMES):
        return Postgres(state)
    return Sqlite(state)


@contextmanager
def one_step(execute: Callable[[str], object], begin: str) -> Iterator[None]:
    execute(begin)
    try:
        yield
    except BaseException:
        execute("rollback")
        raise
    execute("commit")


class Sqlite:
    """A file that one process has, synced at the end of each step."""

    def __init__(self, path: str) -> None:
        self.path = path
        with self.told(StateError):
            self.database = sqlite3.connect(path, isolation_level=None, timeout=1, check_same_thread=False)
            for pragma in ("locking_mode = EXCLUSIVE", "journal_mode = DELETE", "synchronous = FULL", "fullfsync = ON"):
                self.database.execute(f"pragma {pragma}").fetchall()
            with one_step(self.database.execute, "begin exclusive"):
                pass

    @contextmanager
    def told(self, kind: type[Exception] = FaultError) -> Iterator[None]:
        try:
            yield
        except sqlite3.Error as why:
            told = "another process has the state" if "locked" in str(why) else why
            raise kind(f"{self.path}: {told}") from None

    def rows(self, ask: str, *words: object) -> list[Row]:
        with self.told():
            return self.database.execute(ask, words).fetchall()

    def change(self, ask: str, *words: object) -> int:
        with self.told():
            return self.database.execute(ask, words).rowcount

    def change_each(self, ask: str, words: Iterable[Sequence[object]]) -> None:
        # (a statement that runs long would keep a signal waiting)
        left = iter(words)
        with self.told():
            while some := list(islice(left, 1000)):
                self.database.executemany(ask, some)

    def step(self) -> AbstractContextManager[None]:
        return one_step(self.change, "begin exclusive")

    def tables(self) -> set[str]:
        return {str(it) for (it,) in self.rows("select name from sqlite_master where type = 'table'")}

    def close(self) -> None:
        self.database.close()


class Postgres:
    """A database of PostgreSQL, of which one process holds an advisory lock."""

    def __init__(self, url: str) -> None:
        try:
            import psycopg2
            import psycopg2.extras
        except ImportError:
            raise StateError("a state in PostgreSQL needs psycopg2 (Debian: python3-psycopg2), which isn't here") from None
        self.error: type[Exception] = psycopg2.Error
        self.execute_batch: Callable[..., None] = psycopg2.extras.execute_batch
        self.connect: Callable[[], Any] = partial(psycopg2.connect, url)
        self.open(StateError)

    def open(self, kind: type[Exception]) -> None:
        with self.told(kind):
            self.database: Any = self.connect()
            self.database.autocommit = True
        self.lock()

    def cursor(self) -> Any:
        """A cursor. Where the connection broke the step under way was rolled back, and another
        connection takes the lock."""
        if self.database.closed:
            self.open(FaultError)
        return self.database.cursor()

    def lock(self) -> None:
        until = time.monotonic() + WAIT
        while self.rows("select pg_try_advisory_lock(?)", LOCK) != [(True,)]:
            if time.monotonic() > until:
                raise StateError("another process has the state: only one day, service or page at a time has a database")
            time.sleep(0.1)

    @contextmanager
    def told(self, kind: type[Exception] = FaultError) -> Iterator[None]:
        try:
            yield
        except self.error as why:
            raise kind((str(why).strip().splitlines() or ["PostgreSQL failed"])[0]) from None

    def rows(self, ask: str, *words: object) -> list[Row]:
        with self.told(), self.cursor() as cursor:
            cursor.execute(ask.replace("?", "%s"), words)
            return [tuple(bytes(it) if isinstance(it, memoryview) else it for it in row) for row in cursor.fetchall()]

    def change(self, ask: str, *words: object) -> int:
        with self.told(), self.cursor() as cursor:
            cursor.execute(ask.replace("?", "%s"), words)
            return int(cursor.rowcount)

    def change_each(self, ask: str, words: Iterable[Sequence[object]]) -> None:
        with self.told(), self.cursor() as cursor:
            self.execute_batch(cursor, ask.replace("?", "%s"), list(words), page_size=1000)

    def step(self) -> AbstractContextManager[None]:
        return one_step(self.change, "begin")

    def tables(self) -> set[str]:
        return {str(it) for (it,) in self.rows("select tablename from pg_tables where schemaname = current_schema()")}

    def close(self) -> None:
        self.database.close()
