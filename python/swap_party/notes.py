"""What a wallet keeps where no crash loses it: what it agreed to, a hashkey before it is shown, an
arc before a publish on it goes out, and how high it saw its ledgers."""
from __future__ import annotations

import fcntl
import os
import sqlite3
import time
from collections.abc import Iterable, Mapping
from types import TracebackType
from typing import NamedTuple

from .answer import Keep, Never, Note, Seen, Sent, agreed_digest, kept_for, note_of

TABLES = (
    "create table if not exists notes (at integer primary key, line text not null, lock integer unique)",
    "create table if not exists heights (arc integer primary key, height integer not null)",
    "create table if not exists agreement (one integer primary key check (one = 1), party text not null, header text not null, context text not null)",
    "create table if not exists choices (name text primary key)",
)
PRAGMAS = ("locking_mode = EXCLUSIVE", "journal_mode = DELETE", "synchronous = EXTRA", "fullfsync = ON", "secure_delete = ON")
OWN_ALONE = 0o600
# How often a lock is asked for that another process has, and the seconds between
TRIES, PAUSE = 40, 0.05


class InUseError(RuntimeError):
    """Another process has these notes open. Two wallets with one seed may sign two hashkeys for a
    lock, and that key can then be forged."""


class DisagreedError(ValueError):
    """Something else was agreed to before. An agreement is never made anew."""


class Agreement(NamedTuple):
    """What the owner agreed to: for which party, the deal's header line, and the lines of
    context."""

    party: str
    header: str
    context: tuple[str, ...]

    @property
    def digest(self) -> str:
        return agreed_digest(self.header, self.context)


class Notes:
    """The notes of one party in one swap, in a database of SQLite that one process has open at a
    time, and its owner alone may read. A note is on the disk once `add` returns.

    SQLite syncs its file and its folder at the end of each transaction (synchronous EXTRA), and its
    journal before the file changes (journal_mode DELETE), so a crash or a power cut at any moment
    leaves a note whole or leaves it out. This asks of the disk that it keeps what a sync said is
    kept. A second hashkey for a lock is refused by the table itself.
    """

    def __init__(self, path: str | os.PathLike[str]) -> None:
        self._lock, self._process = self._locked(os.fspath(path)), os.getpid()
        try:
            self._database = self._opened(os.fspath(path))
            rows = self._database.execute("select line from notes order by at").fetchall()
            self.notes: list[Note] = [note_of(line) for (line,) in rows]
            self._seen: dict[int, int] = dict(self._database.execute("select arc, height from heights").fetchall())
            self._choices = {name for (name,) in self._database.execute("select name from choices").fetchall()}
        except BaseException:
            os.close(self._lock)
            raise

    @staticmethod
    def _locked(path: str) -> int:
        """A lock that ends with the process, in a file beside the notes. One that was just killed
        may hold it for a moment."""
        lock = os.open(f"{path}.lock", os.O_RDWR | os.O_CREAT | os.O_CLOEXEC, OWN_ALONE)
        for _ in range(TRIES):
            try:
                fcntl.flock(lock, fcntl.LOCK_EX | fcntl.LOCK_NB)
                return lock
            except BlockingIOError:
                time.sleep(PAUSE)
        os.close(lock)
        raise InUseError(f"another process has the notes {path} open")

    @staticmethod
    def _opened(path: str) -> sqlite3.Connection:
        """The database, whose files SQLite makes with the mode of the first."""
        os.close(os.open(path, os.O_RDWR | os.O_CREAT | os.O_CLOEXEC, OWN_ALONE))
        os.chmod(path, OWN_ALONE)
        database = sqlite3.connect(path, isolation_level=None)
        try:
            for pragma in PRAGMAS:
                database.execute(f"pragma {pragma}").fetchall()
            # (with the first transaction its lock is taken, and kept: nobody else reads or writes it)
            database.execute("begin exclusive")
            for table in TABLES:
                database.execute(table)
            database.execute("commit")
        except BaseException as why:
            database.close()
            if isinstance(why, sqlite3.OperationalError) and "locked" in str(why):
                raise InUseError(f"another process has the notes {path} open") from None
            raise
        folder = os.open(os.path.dirname(os.path.abspath(path)), os.O_RDONLY)
        try:
            os.fsync(folder)
        finally:
            os.close(folder)
        return database

    # ---- the agreement
    @property
    def agreement(self) -> Agreement | None:
        row = self._database.execute("select party, header, context from agreement").fetchone()
        return Agreement(row[0], row[1], tuple(row[2].split("\n")[:-1])) if row else None

    def _write(self, statement: str, *words: object) -> None:
        """Writes, and syncs. A process that was forked off has the lock too, and may not."""
        if os.getpid() != self._process:
            raise InUseError("the process that opened these notes has them")
        self._database.execute(statement, words)

    def agree(self, agreement: Agreement) -> None:
        """Writes down what was agreed to, once."""
        before = self.agreement
        if before is None:
            context = "".join(f"{line}\n" for line in agreement.context)
            self._write("insert into agreement values (1, ?, ?, ?)", agreement.party, agreement.header, context)
        elif before != agreement:
            raise DisagreedError(f"{before.party} agreed to {before.digest}, which isn't {agreement.digest}")

    # ---- notes
    def add(self, note: Note) -> None:
        """Writes a note down, and syncs it. One that says nothing new is left out: a hashkey that
        is kept, whatever its heights, and an arc on which a publish was sent, unless it was replaced
        since."""
        if isinstance(note, Seen):
            self.see({note.arc: note.height})
        elif isinstance(note, Keep):
            self._keep(note)
        elif isinstance(note, Never) and self.has_sent(note.arc) or isinstance(note, Sent) and not self.has_sent(note.arc):
            self._insert(note)

    def _insert(self, note: Note, lock: int | None = None) -> None:
        self._write("insert into notes (line, lock) values (?, ?)", str(note), lock)
        self.notes.append(note)

    def _keep(self, note: Keep) -> None:
        kept = kept_for(self.notes).get(note.key.lock)
        if kept is None:
            self._insert(note, lock=note.key.lock)
        elif kept != note.key:
            raise ValueError(f"another hashkey is kept for lock {kept.lock}")

    # ---- heights
    def see(self, heights: Mapping[int, int]) -> None:
        """Notes how high ledgers were seen, which only grows, all at once."""
        more = {arc: height for arc, height in heights.items() if height > self._seen.get(arc, 0)}
        if more:
            places = ", ".join(["(?, ?)"] * len(more))
            self._write(f"insert or replace into heights values {places}", *(it for pair in more.items() for it in pair))
            self._seen.update(more)

    def unsee(self, arcs: Iterable[int]) -> None:
        """Strikes how high these ledgers were seen: a chain took back more than was agreed on."""
        for arc in arcs:
            self._write("delete from heights where arc = ?", arc)
            self._seen.pop(arc, None)

    @property
    def seen(self) -> dict[int, int]:
        return dict(self._seen)

    def has_sent(self, arc: int) -> bool:
        """Whether a publish on that arc was sent, and not replaced since."""
        last = [it for it in self.notes if isinstance(it, (Sent, Never)) and it.arc == arc]
        return bool(last) and isinstance(last[-1], Sent)

    def lines(self) -> list[str]:
        return list(map(str, self.notes))

    # ---- choices of the owner
    def choose(self, name: str) -> None:
        if name not in self._choices:
            self._write("insert or ignore into choices values (?)", name)
            self._choices.add(name)

    def has_chosen(self, name: str) -> bool:
        return name in self._choices

    def close(self) -> None:
        self._database.close()
        os.close(self._lock)

    def __enter__(self) -> Notes:
        return self

    def __exit__(self, kind: type[BaseException] | None, why: BaseException | None, trace: TracebackType | None) -> None:
        self.close()
