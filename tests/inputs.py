"""Tests of inputs as bytes: the words beside them, their limits, how they come, and faults of
reading behind a reason."""
from __future__ import annotations

import os
import socket
import sys
import threading
from functools import partial
from typing import Iterator, NamedTuple, Union

sys.dont_write_bytecode = True
from program import Program, Tests, must
from texts import asked, deal, edited, is_wanted, read, stored, told

MOST = 16_777_216
NO_JSON = "swap: refused: NotJson 1\n"
TOO_LONG = "swap: too long\n"
ACCEPTED = "done\nswap accepted\nneed 2\nopen by 30\nexpiry 60\nhorizon 70\n"
READ_FAULT = "swap: read fault\n"
WRONG_WORDS = [[], [""], ["nope"], ["walk"], ["Run"], ["run "], ["run", "run"], ["check", ""], ["run", "check"]]
# an arc of the deal, and where its arcs begin
ARC = '{"from":"alice","to":"bob","amount":1,"timelock":60},'
ARCS = '"arcs":['


def answers(words: list[str], text: Union[str, bytes], wanted: str, program: Program) -> None:
    is_wanted(asked(program, words, text), wanted)


def words_are_wrong(words: list[str], program: Program) -> None:
    answered = asked(program, words, deal("by_hand"))
    must(answered.startswith("swap: wrong words\n"), f"it answered:\n{answered}")


def is_no_text(program: Program) -> None:
    answers(["run"], deal("timelocks").encode() + b'{"act":"\xff"}\n', "swap: refused: NotJson 2\n", program)


# ---- limits


class Filled(NamedTuple):
    """A text that is filled up to the most bytes, and some more, between its head and its tail."""

    head: str
    filler: str
    tail: str = ""
    more: int = 0

    def text(self) -> str:
        return self.head + (MOST - len(self.head) - len(self.tail) + self.more) * self.filler + self.tail


def limits() -> Iterator[tuple[str, str, Filled, str]]:
    """Inputs of the most bytes, and of one more, each with its command and answer."""
    job, answer, transcript = deal("by_hand"), stored("by_hand.answer"), stored("by_hand.transcript")
    for of, command, filled, wanted in (
        ("blanks alone", "run", Filled("", " "), NO_JSON),
        ("blanks and a line feed", "run", Filled("", " ", "\n"), NO_JSON),
        ("blanks before a job", "run", Filled("", " ", job), answer),
        ("feeds behind an offer", "check", Filled(job, "\n"), ACCEPTED),
        ("feeds behind a refused line", "check", Filled("x", "\n"), NO_JSON),
        ("feeds behind wishes", "clear", Filled(deal("wishes.clear"), "\n"), stored("wishes.cleared")),
        ("blanks alone, for wishes", "clear", Filled("", " "), NO_JSON),
        ("feeds behind a transcript", "audit", Filled(transcript, "\n"), "swap: refused: BadLine 20\n"),
        ("blanks behind a transcript's first line", "audit", Filled("swap transcript 1\n", " "), "swap: refused: CutShort\n"),
    ):
        yield f"the most bytes: {of}", command, filled, wanted
        yield f"one byte more: {of}", command, filled._replace(more=1), TOO_LONG


def is_at_limit(command: str, filled: Filled, wanted: str, program: Program) -> None:
    answers([command], filled.text(), wanted, program)


def nests_deep(part: str, program: Program) -> None:
    answers(["run"], 1_000_000 * part, NO_JSON, program)


def ticks(ending: str, wanted: str, program: Program) -> None:
    answers(["run"], deal("timelocks") + 200_000 * '{"tick":0}\n' + ending, wanted, program)


def has_arcs_more(more: int, wanted: str, program: Program) -> None:
    answers(["run"], edited(deal("timelocks"), f"{ARCS} => {ARCS}{more * ARC}"), wanted, program)


# ---- pieces


def widened(job: str) -> bytes:
    """The job with 20,000 blanks before its first line feed, and as many blank lines behind it."""
    header, feed, events = job.partition("\n")
    return (header + 20_000 * " " + feed + events + 20_000 * "\n").encode()


def give_records(ours: socket.socket, text: bytes, length: int) -> None:
    for at in range(0, len(text), length):
        ours.send(text[at : at + length])
    ours.close()


def answers_records(command: str, text: bytes, wanted: str, length: int, program: Program) -> None:
    """The input comes in records, of which each read gives one."""
    ours, theirs = socket.socketpair(socket.AF_UNIX, socket.SOCK_SEQPACKET)
    program.give(b"")
    with theirs:
        pid = program.start([command], input=theirs.fileno())
    threading.Thread(target=give_records, args=(ours, text, length)).start()
    is_wanted(told(program.end(pid)), wanted)


def give_writes(file: int, text: bytes, length: int) -> None:
    for at in range(0, len(text), length):
        os.write(file, text[at : at + length])
    os.close(file)


def answers_writes(command: str, text: bytes, wanted: str, length: int, program: Program) -> None:
    """The input comes through a pipe, written so many bytes at once."""
    theirs, ours = os.pipe()
    program.give(b"")
    pid = program.start([command], input=theirs)
    os.close(theirs)
    threading.Thread(target=give_writes, args=(ours, text, length)).start()
    is_wanted(told(program.end(pid)), wanted)


# ---- faults of reading behind a reason


def is_unread(command: str, text: str, program: Program) -> None:
    """A read that fails behind any part of a text with a reason in it is what is told."""
    for count in range(0, len(text), 1 + len(text) // 5):
        is_wanted(told(program.run_unread([command], text[:count].encode())), READ_FAULT)


def tests() -> Tests:
    for words in WRONG_WORDS:
        yield f"words {words}", partial(words_are_wrong, words)
    yield "an input that is no text", is_no_text
    for name, *limit in limits():
        yield name, partial(is_at_limit, *limit)
    for part in ("[", '{"a":'):
        yield f"a million times {part}", partial(nests_deep, part)
    yield "200,000 events", partial(ticks, "\n \n", stored("ticked.answer"))
    yield "an event more", partial(ticks, "{", "swap: refused: OverLimit 200002 events 200001\n")
    yield "96 arcs", partial(has_arcs_more, 93, "swap: refused: Parallel 0 1\n")
    yield "97 arcs", partial(has_arcs_more, 94, "swap: refused: OverLimit 1 arcs 97\n")
    run = "run", widened(deal("by_hand")), stored("by_hand.answer")
    told_of = partial(read, "..", "examples")
    audit = "audit", told_of("three_way_timelocks.transcript").encode(), "done\n" + told_of("three_way_timelocks.report")
    for command, text, wanted in (run, audit):
        for length in (1, 2, 7):
            yield f"{command} of records of {length} bytes", partial(answers_records, command, text, wanted, length)
        for length in (8_191, 8_192, 8_193, 100_000):
            yield f"{command} of writes of {length} bytes", partial(answers_writes, command, text, wanted, length)
    yield "a refused line that isn't read to its end", partial(is_unread, "check", "x" + 2_000 * "\n")
    yield "a bad line that isn't read to its end", partial(is_unread, "audit", stored("by_hand.transcript") + 16_000 * "\n")
