"""Leaves out each field of a job, gives it a value of another kind, and tests that the program
refuses both.

A table of tables/fields (but `job`, a job with a place for an actor and one for an event) has
pieces: each stands behind `== `, and its fields stand below it, a line each. The program reads the
piece at the mark <here> of a place. A field that is left out is Missing; one with a `? ` before it
may be absent. A list of a list for its value is of the WrongKind. The mark <zeros> stands for 64
zeros.
"""
from __future__ import annotations

import sys
from functools import partial
from typing import Iterator

sys.dont_write_bytecode = True
from program import Program, Tests, must
from texts import table

MARK = "<here>"


def in_job(actor: str, event: str) -> str:
    """A place in a job: in that actor of its first party, or in that event."""
    return table("fields/job").strip().replace("<actor>", actor).replace("<event>", event)


def tables() -> Iterator[tuple[str, str, tuple[str, ...], str]]:
    """What has the fields, in which table, the words that read it, and its place."""
    yield "headers", "headers", ("check", "run", "run --transcript", "race"), MARK + "\n"
    yield "plain headers", "plain_headers", ("make",), "\n" + MARK
    yield "wishes", "wishes", ("clear",), "\n" + MARK
    yield "events", "events", ("check", "run", "race"), in_job('"manual"', MARK + "\n")
    yield "moves of calls", "moves", ("run",), in_job('"manual"', '{"call":"ann","move":%s}' % MARK)
    yield "actors", "actors", ("check", "run", "race"), in_job(MARK, "")
    yield "moves of scripts", "moves", ("race",), in_job('{"script":[%s]}' % MARK, "")


def pieces(name: str) -> Iterator[tuple[str, list[str]]]:
    """The pieces of a table, each with the lines of its fields."""
    for case in table("fields/" + name).split("== ")[1:]:
        piece, *lines = case.splitlines()
        yield piece, lines


def name_of(field: str) -> str:
    return field.split('"')[1]


def with_lists(field: str) -> str:
    """The field with a list of a list for its value."""
    return '%s"%s":[[]]%s' % ("," if field.startswith(",") else "", name_of(field), "," if field.endswith(",") else "")


def changes(line: str) -> Iterator[tuple[str, str, str]]:
    """A field, what stands in its place, and why that is refused."""
    field = line.removeprefix("? ")
    if field == line:
        yield field, "", "Missing"
    yield field, with_lists(field), "WrongKind"


def is_refused(program: Program, words: str, text: str, reason: str) -> None:
    found = program.run(words.split(), text.encode())
    must(found == (3, b"", f"swap: refused: {reason}\n".encode()), f"wanted {reason}, and got {found}")


def test_piece(words: str, place: str, piece: str, lines: list[str], program: Program) -> None:
    line = place.split(MARK)[0].count("\n") + 1
    for field, instead, reason in (change for row in lines for change in changes(row)):
        must(field in piece, "found nowhere: " + field)
        text = place.replace(MARK, piece.replace(field, instead, 1)).replace("<zeros>", 64 * "0")
        is_refused(program, words, text, f"{reason} {line} {name_of(field)}")


def tests() -> Tests:
    for what, name, commands, place in tables():
        for words in commands:
            for number, (piece, lines) in enumerate(pieces(name), 1):
                yield f"the fields of {what}, piece {number}, by {words}", partial(test_piece, words, place, piece, lines)
