"""The built program as the scripts run it: its answers, and reads and writes that fail at a place
that is chosen."""
from __future__ import annotations

import os
import resource
import signal
import socket
import sys
from typing import Callable, Iterator, NamedTuple, NoReturn, Optional, Tuple

sys.dont_write_bytecode = True

HERE = os.path.dirname(os.path.abspath(__file__))
TOP = os.path.dirname(HERE)
BUILT = os.path.join(TOP, "out", "proved", "swap")
UNPROVED = os.path.join(TOP, "out", "unproved", "swap")
MOST = 1 << 24
# (more a socket may not take before anybody reads it)
MOST_UNREAD = 50_000


class Failed(Exception):
    pass


def must(holds: object, what: str) -> None:
    if not holds:
        raise Failed(what)


class Answer(NamedTuple):
    status: int
    out: bytes
    err: bytes


def late(*_: object) -> NoReturn:
    raise TimeoutError


def status_of(pid: int) -> int:
    """The status of a process, which has a minute."""
    signal.alarm(60)
    try:
        _, status = os.waitpid(pid, 0)
    except TimeoutError:
        os.kill(pid, signal.SIGKILL)
        os.waitpid(pid, 0)
        raise Failed("no end within a minute") from None
    finally:
        signal.alarm(0)
    return os.waitstatus_to_exitcode(status)


class Program:
    """The program with files in memory for its input and its answer, which are cheaper than
    pipes."""

    def __init__(self, path: str) -> None:
        signal.signal(signal.SIGALRM, late)
        self.path = path
        self.asked_last: tuple[list[str], bytes] = ([], b"")
        self.files = [os.memfd_create(name) for name in ("input", "output", "error")]

    def give(self, text: bytes) -> None:
        """Empties the answer's files, and fills that of the input."""
        for file in self.files:
            os.ftruncate(file, 0)
            os.lseek(file, 0, os.SEEK_SET)
        os.pwrite(self.files[0], text, 0)

    def start(self, words: list[str], **other: int) -> int:
        """Starts the program with these files but for other ones that are named."""
        files = [other.get(name, file) for name, file in zip(("input", "output", "error"), self.files)]
        moves = [(os.POSIX_SPAWN_DUP2, file, number) for number, file in enumerate(files)]
        nothing: dict[str, str] = {}
        return os.posix_spawn(self.path, [self.path, *words], nothing, file_actions=moves, setsigdef=[signal.SIGPIPE])

    def end(self, pid: int) -> Answer:
        status = status_of(pid)
        return Answer(status, *(os.pread(file, os.fstat(file).st_size, 0) for file in self.files[1:]))

    def run(self, words: list[str], text: bytes) -> Answer:
        self.asked_last = words, text
        self.give(text)
        return self.end(self.start(words))

    def run_unread(self, words: list[str], text: bytes, length: Optional[int] = None) -> Answer:
        """The answer where a read fails behind that text: a socket gives it, and then its other end
        is gone with something unread. With a length each read gives so many bytes: pieces that
        carry a file each aren't joined."""
        ours, theirs = socket.socketpair()
        theirs.send(b"unread")
        if length is None:
            ours.sendall(text)
        else:
            for at in range(0, len(text), length):
                socket.send_fds(ours, [text[at : at + length]], self.files[2:])
        ours.close()
        self.give(b"")
        answer = self.end(self.start(words, input=theirs.fileno()))
        theirs.close()
        return answer

    def run_unwritten(self, words: list[str], text: bytes, room: int) -> Answer:
        """The answer where its file takes so many bytes and no more; the line goes through a pipe,
        which has no limit."""
        theirs, ours = os.pipe()
        self.give(text)
        usual = resource.getrlimit(resource.RLIMIT_FSIZE)
        resource.setrlimit(resource.RLIMIT_FSIZE, (room, usual[1]))
        try:
            pid = self.start(words, error=ours)
        finally:
            resource.setrlimit(resource.RLIMIT_FSIZE, usual)
        os.close(ours)
        status, out, _ = self.end(pid)
        line = os.read(theirs, 4096)
        os.close(theirs)
        return Answer(status, out, line)


# A test asks the program, and fails by `must`. Each has a name.
Test = Callable[[Program], None]
Tests = Iterator[Tuple[str, Test]]
