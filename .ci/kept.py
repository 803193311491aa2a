"""Programs that were built without proofs are kept in the user's cache, so that another clone or
branch of the same sources starts at once: in $XDG_CACHE_HOME/swap, or ~/.cache/swap.

An entry is one file, `PROGRAM-KEY-SUM`: the key is the checksum of all that the build reads (the
sources, what builds them, the kit), and the sum that of the program itself. It is put there by a
rename. One that is torn, that isn't its user's alone, or whose program has another checksum is
passed over. The newest ENTRIES stay.
"""
from __future__ import annotations

import contextlib
import hashlib
import os
import stat
import tempfile
from pathlib import Path
from typing import Iterable, Iterator, Mapping, Optional

ENTRIES = 24
# No program is as large
MOST = 1 << 26


def checksum(files: Mapping[str, Path], words: Iterable[str]) -> str:
    """The checksum of files, each under a name that is the same in every clone, and of words."""
    whole, known = hashlib.sha256(), dict[Path, str]()
    for name, file in sorted(files.items()):
        real = file.resolve()
        if real not in known:
            with open(real, "rb") as opened:
                known[real] = hashlib.sha256(opened.read()).hexdigest()
        whole.update(f"{name}\0{known[real]}\n".encode())
    whole.update("\0".join(words).encode())
    return whole.hexdigest()[:40]


def folder() -> Optional[Path]:
    """The folder of the entries, which is made where it is missing; none where it isn't its user's
    alone."""
    given = os.environ.get("XDG_CACHE_HOME", "")
    base = Path(given) if os.path.isabs(given) else Path(os.path.expanduser("~")) / ".cache"
    found = base / "swap"
    try:
        found.mkdir(mode=0o700, parents=True, exist_ok=True)
        return found if found.is_absolute() and is_own(os.stat(found)) else None
    except OSError:
        return None


def is_own(it: os.stat_result) -> bool:
    """Whether this user alone may write it."""
    return it.st_uid == os.geteuid() and not it.st_mode & 0o022


def read(entry: Path) -> bytes:
    """What is in an entry, if that is a file of this user alone."""
    opened = os.open(entry, os.O_RDONLY | os.O_NOFOLLOW | os.O_NONBLOCK | os.O_CLOEXEC)
    with open(opened, "rb") as file:
        it = os.fstat(opened)
        return file.read() if stat.S_ISREG(it.st_mode) and is_own(it) and it.st_size <= MOST else b""


def entries(room: Path, begun: str) -> Iterator[Path]:
    with contextlib.suppress(OSError):
        yield from sorted(it for it in room.iterdir() if it.name.startswith(begun))


def name_of(program: str, key: str, made: bytes) -> str:
    return f"{program}-{key}-{hashlib.sha256(made).hexdigest()}"


def taken(program: str, key: str) -> Optional[bytes]:
    """The program that is kept under a key."""
    room = folder()
    for entry in entries(room, f"{program}-{key}-") if room else ():
        with contextlib.suppress(OSError):
            made = read(entry)
            if made and entry.name == name_of(program, key, made):
                os.utime(entry)
                return made
    return None


def keep(program: str, key: str, made: bytes) -> None:
    """Keeps a program under a key, where that can be, and removes the entries that were taken least
    lately."""
    room = folder()
    if room is None:
        return
    with contextlib.suppress(OSError):
        part, name = tempfile.mkstemp(prefix=".part-", dir=room)
        with open(part, "wb") as file:
            file.write(made)
        os.replace(name, room / name_of(program, key, made))
        for entry in sorted(room.iterdir(), key=age, reverse=True)[ENTRIES:]:
            entry.unlink()


def age(entry: Path) -> int:
    """When an entry was taken last, or one that was cut off was begun."""
    return entry.lstat().st_mtime_ns
