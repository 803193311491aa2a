"""Which text is which: each begins with a line of its own, or a word of its own."""
from __future__ import annotations

from typing import Union

from .answer import Answer, Asked
from .cleared import Cleared
from .judgement import Judgement
from .lines import NotOfTheFormatError, decoded
from .many import Many, Reports
from .report import Report
from .summary import Summary, Times
from .terms import Row, Terms
from .transcript import Transcript

Text = Union[Report, Transcript, Cleared, Many, Reports, Times, Summary, Row, Terms, Asked, Answer, Judgement]
FIRST_LINES: dict[str, type[Text]] = {
    "swap report 1": Report,
    "swap transcript 1": Transcript,
    "swap cleared 1": Cleared,
    "swap many 1": Many,
    "swap 0": Reports,
    "swap accepted": Times,
    "swap summary 1": Summary,
}


# And of texts whose first line isn't always the same, the first word
FIRST_WORDS: dict[str, type[Text]] = {
    "row": Row,
    "terms": Terms,
    "deal": Judgement,
    "seed": Asked,
    "agreed": Asked,
    **dict.fromkeys(("stale", "bad", "unkept", "call", "keep", "landing", "wait", "done"), Answer),
}


def kind_of(text: str) -> type[Text]:
    """What a text is, by its first line."""
    line = text.split("\n", 1)[0]
    kind = FIRST_LINES.get(line) or FIRST_WORDS.get(line.split(" ")[0])
    if kind is None:
        raise NotOfTheFormatError(1, "the line begins no text of swap or party")
    return kind


def parse(text: str | bytes) -> Text:
    """The text as what it is. `str` of it is the same text."""
    return kind_of(decoded(text)).parse(text)
