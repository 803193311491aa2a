"""Tables of CSV or of JSON lines, read row by row. What is bad is told with its file, its line and the
rule that it breaks."""
from __future__ import annotations

import codecs
import csv
import json
import unicodedata
from collections.abc import Callable, Iterator, Sequence
from dataclasses import dataclass, field
from decimal import Decimal, InvalidOperation
from typing import Any, TypeVar

Read = TypeVar("Read")
Words = dict[str, str]
# The longest name, the most bytes of a message, and of a word in it
NAME, MESSAGE, WORD = 64, 200, 40


class RuleError(ValueError):
    """A row breaks this rule."""


def rule(holds: object, told: str) -> None:
    if not holds:
        raise RuleError(told)


def clipped(text: str, most: int = MESSAGE) -> str:
    """The text in at most so many bytes, in one line."""
    line = "".join(it if it.isprintable() else f"\\u{{{ord(it):x}}}" for it in text)
    told = line.encode("utf-8", "replace")
    return line if len(told) <= most else told[: most - 3].decode("utf-8", "ignore") + "..."


def quoted(word: object) -> str:
    return clipped(repr(word), WORD)


def id_of(word: str, what: str) -> str:
    """A customer's id or an asset's, in its one normal form."""
    name = unicodedata.normalize("NFC", word)
    if not 1 <= len(name) <= NAME:
        raise RuleError(f"{what} {quoted(word)} hasn't 1 to {NAME} characters")
    if not name.isprintable() or name != name.strip():
        raise RuleError(f"{what} {quoted(word)} has a control character, or blanks at an end")
    return name


def whole(word: str, what: str, least: int, most: int) -> int:
    good = word.isascii() and word.isdigit() and len(word) <= len(str(most)) + 1
    if not good or not least <= int(word) <= most:
        raise RuleError(f"{what} {quoted(word)} is no whole number from {least} to {most}")
    return int(word)


def decimal(word: str, what: str, digits: int) -> Decimal:
    """A number without sign or exponent, with at most so many digits behind the point."""
    before, point, behind = word.partition(".")
    good = word.isascii() and before.isdigit() and len(word) <= 40 and (behind.isdigit() if point else True)
    rule(good, f"{what} {quoted(word)} is no number such as 12{'.5' * bool(digits)}")
    rule(len(behind) <= digits, f"{what} {quoted(word)} has more than {digits} digits behind the point")
    try:
        return Decimal(word)
    except InvalidOperation:
        raise RuleError(f"{what} {quoted(word)} is no number") from None


@dataclass
class Table:
    """A file, its fields with those that may be left out, and the rows of it that are bad."""

    file: str
    text: bytes
    fields: Sequence[str]
    optional: Sequence[str] = ()
    bad: list[str] = field(default_factory=list)

    def blame(self, line: int, why: object) -> None:
        self.bad.append(clipped(f"{clipped(self.file, 60)}: line {line}: {why}"))

    def each(self, read: Callable[[Words], Read]) -> Iterator[Read]:
        """What each good row is read as."""
        for line, told in self.lines():
            try:
                yield read(self.checked(told()))
            except UnicodeDecodeError:
                self.blame(line, "the line isn't UTF-8")
            except RuleError as why:
                self.blame(line, why)
            except (csv.Error, json.JSONDecodeError, RecursionError, ValueError) as why:
                self.blame(line, f"neither CSV nor a JSON object: {why}")

    def lines(self) -> Iterator[tuple[int, Callable[[], Words]]]:
        """Each line with a row, by its number, and what gives the row's words."""
        header: list[str] | None = None
        for line, told in enumerate(self.text.removeprefix(codecs.BOM_UTF8).split(b"\n"), 1):
            if not told.strip():
                continue
            if header is None and told.lstrip().startswith(b"{"):
                yield line, lambda told=told: object_of(told.decode())  # type: ignore[misc]
            elif header is None:
                header = [it.strip() for it in told.decode("utf-8", "replace").split(",")]
                if not set(header) <= set(self.fields) or len(set(header)) != len(header):
                    self.blame(line, f"the header is {quoted(','.join(header))}, and the fields are {','.join(self.fields)}")
                    return
            else:
                yield line, lambda told=told, header=header: zipped(header, told.decode())  # type: ignore[misc]

    def checked(self, row: Words) -> Words:
        unknown = [name for name in row if name not in self.fields]
        missing = [name for name in self.fields if name not in row and name not in self.optional]
        if unknown or missing:
            told = f"{quoted(unknown[0])} is no field" if unknown else f"{quoted(missing[0])} is missing"
            raise RuleError(f"{told}; the fields are {','.join(self.fields)}")
        return row


def zipped(header: list[str], line: str) -> Words:
    words = [it.strip() for it in next(csv.reader([line.strip()], strict=True))]
    rule(len(words) == len(header), f"the line has {len(words)} fields, not {len(header)}")
    return dict(zip(header, words))


def members_of(pairs: list[tuple[str, Any]]) -> dict[str, Any]:
    found = dict(pairs)
    rule(len(found) == len(pairs), "the object has a member twice")
    return found


def object_of(line: str) -> Words:
    rule(len(line) <= 4096, "the line has more than 4096 characters")
    found = json.loads(line, object_pairs_hook=members_of, parse_float=Decimal)
    rule(isinstance(found, dict), "the line is no JSON object")
    rule(all(type(it) in (str, int, Decimal) for it in found.values()), "a field is neither a text nor a number")
    return {str(name): str(value) for name, value in found.items()}
