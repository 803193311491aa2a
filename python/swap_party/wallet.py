"""What a wallet asks: its party's row for a deal, the deal of all rows, what its party agrees to,
what is due for it, and whether a header's deal is accepted. By the library or by the programs,
behind one interface."""
from __future__ import annotations

import ctypes
import functools
import os
import re
import shutil
import subprocess
import threading
from collections.abc import Callable, Iterable
from enum import Enum
from pathlib import Path
from typing import Any, Protocol

from .header import Header
from .lines import WordError

DONE, SHORT, WARNED, REFUSED, NO_MEMORY, TOO_LONG, WRONG_WORDS = 0, 1, 2, 3, 6, 7, 8
TEXT_LIMIT, CASE_LIMIT, SHORT_LIMIT, NAME_LIMIT, SEED_SIZE, ID_SIZE = 566_231_040, 150_994_944, 1_048_576, 16, 32, 32
BEFORE = b"swap: refused: "
# The longest buffer that a thread keeps between calls
MOST_KEPT = 1 << 24
# The reasons whose first word is a line's number
OF_A_LINE = re.compile(rb"(NotJson|Missing|WrongKind|UnknownField|BadName|Duplicate|Unknown|OverLimit|WrongHex|BadLine) ([0-9]+)(?= |$)")


class RefusedError(ValueError):
    """What was handed over is refused. `reason` is the first reason, as docs/FORMATS.md tells it.
    Where a seed stands apart, its line counts as the first."""

    def __init__(self, reason: str) -> None:
        super().__init__(reason)
        self.reason = reason


class TooLongError(ValueError):
    """The text has more bytes than its limit."""


class NoAnswerError(RuntimeError):
    """The library or the program has no answer: its status, and what it told."""

    def __init__(self, status: int, told: str) -> None:
        super().__init__(f"status {status}: {told}")
        self.status = status


class Build(Enum):
    """What is known of what answers: that it is the program that the gate proves, that it is built
    of the same sources without their proofs, or that it is the model."""

    PROVED = "proved"
    UNPROVED = "not proved"
    MODEL = "a model"


class Party(Protocol):
    """What answers a wallet. Each call is a function of its arguments."""

    def build(self) -> Build:
        """Which build it is."""

    def keys(self, name: str, seed: bytes, offer: str) -> str:
        """The row of a party for the deal of an offer's line. A seed is for one swap."""

    def deal(self, offer: str, rows: Iterable[str]) -> str:
        """The header line of the deal of an offer's line and everybody's rows, in any order."""

    def terms(self, name: str, agreed: str) -> str:
        """What a party agrees to by a deal's header line and lines of context."""

    def next(self, name: str, seed: bytes, text: str) -> str:
        """The lines that answer `text`, which is the wallet's notes and a transcript of each ledger
        as far as it is known."""

    def judge(self, text: bytes) -> str:
        """What is found of what wallets agreed on and of all ledgers (`swap_party.judgement`)."""

    def check(self, header: str) -> bytes:
        """The id of the deal of a header line, where it is accepted."""


def answered(status: int, text: bytes) -> bytes:
    """The text of a call that ended well."""
    if status in (DONE, WARNED):
        return text
    if status == REFUSED:
        raise RefusedError(text.removeprefix(BEFORE).rstrip(b"\n").decode("utf-8", "backslashreplace"))
    if status == TOO_LONG:
        raise TooLongError("the text has more bytes than its limit")
    if status == NO_MEMORY:
        raise MemoryError
    raise NoAnswerError(status, text.decode("utf-8", "backslashreplace"))


def whole_seed(seed: bytes) -> bytes:
    if len(seed) != SEED_SIZE:
        raise ValueError(f"a seed has {SEED_SIZE} bytes")
    return seed


def ended(line: str) -> str:
    """The text with a line feed at its end."""
    return line if line.endswith("\n") else line + "\n"


# ---- the library


class Said(ctypes.Structure):
    """What a call of the library answers."""

    _fields_ = [("status", ctypes.c_uint32), ("length", ctypes.c_size_t)]


# What a processor of x86-64-v3 has, as Linux names it
V3 = {"avx", "avx2", "bmi1", "bmi2", "f16c", "fma", "abm", "movbe", "xsave"}


@functools.lru_cache(maxsize=None)
def has_v3() -> bool:
    """Whether this machine's processor has AVX2 and what came with it."""
    try:
        told = Path("/proc/cpuinfo").read_text(encoding="utf-8", errors="replace")
    except OSError:
        return False
    return any(V3 <= set(line.split()) for line in told.splitlines() if line.startswith("flags"))


def for_this_machine(path: str) -> str:
    """The shared object of that path, or the one for processors with AVX2 that tools/install laid
    below it; under SWAP_CPU=plain that path. (Of a name without a folder the system's loader makes
    the same choice.)"""
    folder, name = os.path.split(path)
    fast = os.path.join(folder, "glibc-hwcaps", "x86-64-v3", name)
    return fast if folder and os.environ.get("SWAP_CPU") != "plain" and os.path.isfile(fast) and has_v3() else path


class Library:
    """The shared object libswap_party.so.1, by the path given, by the environment's
    SWAP_PARTY_LIBRARY, or where the system finds it."""

    def __init__(self, path: str | os.PathLike[str] | None = None) -> None:
        it = ctypes.CDLL(for_this_machine(os.fspath(path or os.environ.get("SWAP_PARTY_LIBRARY") or "libswap_party.so.1")))
        text, out = [ctypes.c_char_p, ctypes.c_size_t], [ctypes.c_void_p, ctypes.c_size_t]
        self._keys = self._call(it.swap_party_keys, Said, [*text, *text, ctypes.c_char_p, *out])
        self._deal = self._call(it.swap_party_deal, Said, [*text, *out])
        self._terms = self._call(it.swap_party_terms, Said, [*text, *text, *out])
        self._next = self._call(it.swap_party_next, Said, [*text, *text, ctypes.c_char_p, *out])
        self._judge = self._call(it.swap_party_judge, Said, [*text, *out])
        self._check = self._call(it.swap_party_check, Said, [*text, *out])
        self._answer = self._call(it.swap_party_answer, Said, [*text, *text, *out])
        self.version = self._call(it.swap_party_version, ctypes.c_char_p, [])().decode()
        self._limit = self._call(it.swap_party_limit, ctypes.c_size_t, [ctypes.c_uint32])
        self._room = threading.local()
        self._status_text = self._call(it.swap_party_status_text, ctypes.c_char_p, [ctypes.c_uint32])

    @staticmethod
    def _call(function: Any, answer: Any, words: list[Any]) -> Callable[..., Any]:
        function.restype, function.argtypes = answer, words
        return function  # type: ignore[no-any-return]

    @property
    def is_proved(self) -> bool:
        """Whether it is the build that the gate proves."""
        return bool(self.version.endswith(" proved"))

    def build(self) -> Build:
        return Build.PROVED if self.is_proved else Build.UNPROVED

    def limit(self, which: int) -> int:
        return int(self._limit(which))

    def status_text(self, status: int) -> str:
        return bytes(self._status_text(status)).decode()

    def said(self, call: Callable[..., Any], *words: object) -> tuple[int, bytes]:
        """The status and the text of a call, which is made again where the buffer was too short.
        Each thread has a buffer, which grows."""
        out = getattr(self._room, "buffer", None) or ctypes.create_string_buffer(1 << 16)
        said = call(*words, out, len(out))
        if said.status == SHORT:
            out = ctypes.create_string_buffer(max(said.length, 2 * len(out)))
            said = call(*words, out, len(out))
        self._room.buffer = out if len(out) <= MOST_KEPT else None
        return said.status, ctypes.string_at(out, said.length)

    def keys_said(self, name: bytes, seed: bytes, text: bytes) -> tuple[int, bytes]:
        """What the library answers, as it stands."""
        return self.said(self._keys, text, len(text), name, len(name), whole_seed(seed))

    def deal_said(self, text: bytes) -> tuple[int, bytes]:
        return self.said(self._deal, text, len(text))

    def terms_said(self, name: bytes, text: bytes) -> tuple[int, bytes]:
        return self.said(self._terms, text, len(text), name, len(name))

    def next_said(self, name: bytes, seed: bytes, text: bytes) -> tuple[int, bytes]:
        return self.said(self._next, text, len(text), name, len(name), whole_seed(seed))

    def judge_said(self, text: bytes) -> tuple[int, bytes]:
        return self.said(self._judge, text, len(text))

    def check_said(self, header: bytes) -> tuple[int, bytes]:
        return self.said(self._check, header, len(header))

    def answer_said(self, words: bytes, text: bytes) -> tuple[int, bytes]:
        """What the library answers for the program `swap` (`swap_party.program`)."""
        return self.said(self._answer, words, len(words), text, len(text))

    def keys(self, name: str, seed: bytes, offer: str) -> str:
        return answered(*self.keys_said(name.encode(), seed, ended(offer).encode())).decode()

    def deal(self, offer: str, rows: Iterable[str]) -> str:
        return answered(*self.deal_said("".join(map(ended, (offer, *rows))).encode())).decode()

    def terms(self, name: str, agreed: str) -> str:
        return answered(*self.terms_said(name.encode(), ended(agreed).encode())).decode()

    def next(self, name: str, seed: bytes, text: str) -> str:
        return answered(*self.next_said(name.encode(), seed, text.encode())).decode()

    def judge(self, text: bytes) -> str:
        return answered(*self.judge_said(text)).decode()

    def check(self, header: str) -> bytes:
        return answered(*self.check_said(header.encode()))


# ---- the programs


class Program:
    """The programs `party` and `swap`, by their paths, by the environment's PARTY and SWAP, or
    where the system finds them."""

    def __init__(self, party: str | os.PathLike[str] | None = None, swap: str | os.PathLike[str] | None = None) -> None:
        self.party = os.fspath(party or os.environ.get("PARTY") or "party")
        self.swap = os.fspath(swap or os.environ.get("SWAP") or "swap")

    def build(self) -> Build:
        """What the launcher tells of it, or else where it lies: a script that isn't the launcher is
        the model."""
        told = subprocess.run([self.party], stdin=subprocess.DEVNULL, capture_output=True, check=False, env={**os.environ, "SWAP_TELL": "1"}).stderr
        path = Path(shutil.which(self.party) or self.party).resolve()
        if b"by the model" in told or path.parent.name == "model":
            return Build.MODEL
        return Build.UNPROVED if b"isn't proved" in told or path.parent.name == "unproved" else Build.PROVED

    @staticmethod
    def _run(words: list[str], text: bytes) -> tuple[int, bytes]:
        """The status, and what was written, or else told in the last line."""
        # (a launcher of the repository says nothing of its own then)
        ended = subprocess.run(words, input=text, capture_output=True, check=False, env={**os.environ, "SWAP_PLAIN": "1"})
        return ended.returncode, ended.stdout if ended.returncode in (0, 1) else ended.stderr.splitlines(True)[-1] if ended.stderr else b""

    def _run_seeded(self, words: list[str], seed: bytes, text: str) -> str:
        """What `party` writes of a text behind the line that tells a seed."""
        status, said = self._run([self.party, *words], b"seed %s\n%s" % (whole_seed(seed).hex().encode(), text.encode()))
        return answered(WARNED if status == 1 else status, said).decode()

    def keys(self, name: str, seed: bytes, offer: str) -> str:
        return self._run_seeded(["keys", name], seed, ended(offer))

    def deal(self, offer: str, rows: Iterable[str]) -> str:
        return answered(*self._run([self.party, "deal"], "".join(map(ended, (offer, *rows))).encode())).decode()

    def terms(self, name: str, agreed: str) -> str:
        return answered(*self._run([self.party, "terms", name], ended(agreed).encode())).decode()

    def next(self, name: str, seed: bytes, text: str) -> str:
        return self._run_seeded(["next", name], seed, text)

    def judge(self, text: bytes) -> str:
        status, said = self._run([self.party, "judge"], text)
        return answered(WARNED if status == 1 else status, said).decode()

    def check(self, header: str) -> bytes:
        """Has a transcript without entries audited, which says whether the deal is accepted. The id
        is worked out here."""
        told = ["swap transcript 1", header, *(f"ledger {arc} 0" for arc in range(arcs_in(header))), "end", ""]
        status, said = self._run([self.swap, "audit"], "\n".join(told).encode())
        answered(DONE if status == 1 else status, less_one_line(said) if status == REFUSED else said)
        return Header.of(header).deal_id()


def arcs_in(header: str) -> int:
    """How many arcs a header has. One that isn't of the form is refused before its ledgers are
    read."""
    try:
        return len(Header.of(header).arcs)
    except WordError:
        return 0


def less_one_line(said: bytes) -> bytes:
    """A refusal whose line is counted from the second line."""
    return BEFORE + OF_A_LINE.sub(lambda found: b"%s %d" % (found[1], int(found[2]) - 1), said.removeprefix(BEFORE), count=1)


def found(prefix: str | os.PathLike[str]) -> Party:
    """What stands in a prefix that tools/install made: the library, or else the programs."""
    shared = Path(prefix) / "lib" / "libswap_party.so.1"
    if shared.is_file():
        return Library(shared)
    return Program(Path(prefix) / "bin" / "party", Path(prefix) / "bin" / "swap")
