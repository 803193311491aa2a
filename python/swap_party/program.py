"""The program `swap` as a function of its words and its input, by the library: no process is
started. Any number of threads may call at once, and they run side by side."""
from __future__ import annotations

import functools
from collections.abc import Sequence
from dataclasses import dataclass

from .wallet import DONE, REFUSED, WARNED, WRONG_WORDS, Library, NoAnswerError

# The status of the program, by that of the library
STATUS = {DONE: 0, WARNED: 1, WRONG_WORDS: 2, REFUSED: 3, 6: 6, 7: 7}
TOLD = {2: b"swap: wrong words\n", 6: b"swap: no memory\n", 7: b"swap: too long\n"}


@dataclass(frozen=True)
class Ended:
    """How the program ended: its status, what it wrote, and what it told on standard error. Of
    wrong words the line of the usage isn't told."""

    status: int
    output: bytes
    told: bytes


@functools.lru_cache(maxsize=None)
def linked() -> Library:
    """The library of this process: by the environment's SWAP_PARTY_LIBRARY, or where the system
    finds it."""
    return Library()


def answer(words: Sequence[str], text: bytes | str = b"", library: Library | None = None) -> Ended:
    """What `swap WORDS ..` answers to this input. Words that ask for a race are wrong words, since
    no thread is started. The same words and input have the same answer."""
    if any("\n" in word for word in words):
        return Ended(2, b"", TOLD[2])
    given = text.encode() if isinstance(text, str) else text
    code, said = (library or linked()).answer_said("".join(f"{word}\n" for word in words).encode("utf-8", "surrogateescape"), given)
    if code not in STATUS:
        raise NoAnswerError(code, said.decode("utf-8", "backslashreplace"))
    status = STATUS[code]
    return Ended(status, said, b"") if status < 2 else Ended(status, b"", said if status == 3 else TOLD[status])
