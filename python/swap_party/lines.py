"""Lines of a text and their words, each of which has one spelling (docs/FORMATS.md)."""
from __future__ import annotations

import re
from collections.abc import Callable, Iterable
from typing import TypeVar

T = TypeVar("T")

NUMBER = re.compile("0|[1-9][0-9]{0,19}")
NAME = re.compile("[A-Za-z0-9_-]{1,16}")
MOST = (1 << 64) - 1
DIGEST, SIGNATURE = 64, 4288


class NotOfTheFormatError(ValueError):
    """A text isn't of the format. `line` counts from 1."""

    def __init__(self, line: int, why: str) -> None:
        super().__init__(f"line {line}: {why}")
        self.line, self.why = line, why


class WordError(ValueError):
    """A word isn't what stands there."""


def demand(holds: object, why: str) -> None:
    if not holds:
        raise WordError(why)


def number(word: str, most: int = MOST) -> int:
    """A number without leading zeros, at most the most."""
    demand(NUMBER.fullmatch(word), f"{word!r} is no number")
    demand(int(word) <= most, f"{word} is more than {most}")
    return int(word)


def name(word: str) -> str:
    demand(NAME.fullmatch(word), f"{word!r} is no name")
    return word


def hexadecimal(word: str, length: int = DIGEST) -> str:
    """That many hexadecimal digits in lower case."""
    demand(len(word) == length and re.fullmatch("[0-9a-f]*", word), f"no text of {length} hexadecimal digits in lower case")
    return word


def members(word: str) -> list[str]:
    """A list with commas between its members, or `-` where it is empty."""
    return [] if word == "-" else word.split(",")


def list_word(words: Iterable[object]) -> str:
    return ",".join(map(str, words)) or "-"


def fixed(words: list[str], *form: str | None) -> list[str]:
    """The words that stand where the form has None. The others are the form's."""
    demand(len(words) == len(form), f"{len(form)} words are wanted")
    for word, wanted in zip(words, form):
        demand(wanted is None or word == wanted, f"{wanted!r} is wanted, and {word!r} stands there")
    return [word for word, wanted in zip(words, form) if wanted is None]


def decoded(text: str | bytes) -> str:
    """The text, which is UTF-8. Where it isn't, the line of the first such byte is told."""
    if isinstance(text, str):
        return text
    try:
        return text.decode()
    except UnicodeDecodeError as why:
        raise NotOfTheFormatError(text[: why.start].count(b"\n") + 1, "the line isn't UTF-8") from None


class Lines:
    """The lines of a text, each of which ends with a line feed, by what stands next."""

    def __init__(self, text: str | bytes, first: int = 1) -> None:
        self._lines = decoded(text).split("\n")
        self._rest = self._lines.pop()
        self._at, self._first = 0, first

    @property
    def number(self) -> int:
        """The number of the next line."""
        return self._first + self._at

    def refuse(self, why: str) -> NotOfTheFormatError:
        """What to raise at the line that was read last."""
        return NotOfTheFormatError(max(self._first, self.number - 1), why)

    def peek(self) -> str | None:
        """The next line, if there is one."""
        return self._lines[self._at] if self._at < len(self._lines) else None

    def begins(self, *words: str) -> bool:
        """Whether the next line begins with one of these words."""
        line = self.peek()
        return line is not None and line.split(" ")[0] in words

    def next(self) -> str:
        line = self.peek()
        if line is None:
            raise NotOfTheFormatError(self.number, "the last line lacks its line feed" if self._rest else "the text ends here")
        self._at += 1
        return line

    def read(self, form: Callable[[str], T]) -> T:
        """The next line by its form."""
        line = self.next()
        try:
            return form(line)
        except WordError as why:
            raise self.refuse(str(why)) from None

    def exactly(self, wanted: str) -> None:
        if self.next() != wanted:
            raise self.refuse(f"{wanted!r} is wanted")

    def end(self) -> None:
        """No line follows."""
        if self._at < len(self._lines) or self._rest:
            raise NotOfTheFormatError(self.number, "the text should have ended before")


def joined(lines: Iterable[str]) -> str:
    """The lines, each with a line feed."""
    return "".join(f"{line}\n" for line in lines)
