"""The model as a process: its words, its whole input, its answer, and faults of either.
docs/FORMATS.md, 'Status and standard error'."""
import os
import signal
import sys
from typing import Callable, List, Optional

from .commands import NO_MEMORY, READ_FAULT, WRITE_FAULT, Answer
from .transcripts import MOST_BYTES

PIECE = 1 << 20


def words() -> List[str]:
    """The words behind the program's name. Where one of them is no text there are none, which are
    wrong words to every program."""
    try:
        return [os.fsencode(word).decode() for word in sys.argv[1:]]
    except UnicodeDecodeError:
        return []


def whole_input(most: int) -> bytes:
    """Standard input up to its end, or up to one byte more than the most."""
    if sys.stdin is None:
        raise OSError("standard input is closed")
    pieces, left = [], most + 1
    while left and (piece := os.read(0, min(PIECE, left))):
        pieces.append(piece)
        left -= len(piece)
    return b"".join(pieces)


def write(out: bytes) -> None:
    """Writes all bytes, or as many as there is room for."""
    if out and sys.stdout is None:
        raise OSError("standard output is closed")
    left = memoryview(out)
    while left:
        left = left[os.write(1, left) :]


def tell(line: bytes) -> None:
    """Tells a line on standard error; where that can't be written, the status stays what it is."""
    try:
        if sys.stderr is not None:
            os.write(2, line)
    except OSError:
        pass


def answered(answer: Callable[[List[str], bytes], Answer], takes_input: Callable[[List[str]], bool], most: int) -> Answer:
    """The answer to the process's words and input."""
    said = words()
    try:
        text = whole_input(most) if takes_input(said) else b""
    except OSError:
        return Answer(READ_FAULT, b"", b"swap: read fault\n")
    return answer(said, text)


def run(answer: Callable[[List[str], bytes], Answer], takes_input: Callable[[List[str]], bool], most: int = MOST_BYTES) -> int:
    """Answers as the program does, and gives the status."""
    signal.signal(signal.SIGINT, signal.SIG_DFL)
    found: Optional[Answer] = None
    try:
        found = answered(answer, takes_input, most)
        write(found.out)
    except MemoryError:
        found = Answer(NO_MEMORY, b"", b"swap: no memory\n")
    except OSError:
        found = Answer(WRITE_FAULT, b"", b"swap: write fault\n")
    tell(found.err)
    return found.status
