"""The two short texts: a deal's times, which `check` writes, and the summary of a number's run."""
from __future__ import annotations

from collections.abc import Iterator
from dataclasses import astuple, dataclass
from functools import partial

from .lines import Lines, demand, fixed, joined, number

OUTCOMES = ["Deal", "NoDeal", "FreeRide", "Discount", "Underwater"]


@dataclass(frozen=True)
class Times:
    """The times of an accepted deal."""

    need: int
    open_by: int
    expiry: int
    horizon: int

    @classmethod
    def parse(cls, text: str | bytes) -> Times:
        lines = Lines(text)
        lines.exactly("swap accepted")
        times = cls(*(lines.read(partial(number_behind, words)) for words in (["need"], ["open", "by"], ["expiry"], ["horizon"])))
        lines.end()
        return times

    def lines(self) -> Iterator[str]:
        yield from ("swap accepted", f"need {self.need}", f"open by {self.open_by}", f"expiry {self.expiry}", f"horizon {self.horizon}")

    def __str__(self) -> str:
        return joined(self.lines())


def number_behind(words: list[str], line: str) -> int:
    return number(fixed(line.split(" "), *words, None)[0])


@dataclass(frozen=True)
class Summary:
    """What came of the run of a number's job; `outcomes` are counts in the order of OUTCOMES."""

    parties: int
    arcs: int
    leaders: int
    events: int
    entries: int
    refused: int
    outcomes: tuple[int, int, int, int, int]
    findings: int

    @classmethod
    def parse(cls, text: str | bytes) -> Summary:
        lines = Lines(text)
        lines.exactly("swap summary 1")
        forms = (["parties", "arcs", "leaders"], ["events", "entries", "refused"], OUTCOMES, ["findings"])
        (parties, arcs, leaders), (events, entries, refused), (a, b, c, d, e), (findings,) = [lines.read(partial(numbers_of, form)) for form in forms]
        lines.end()
        return cls(parties, arcs, leaders, events, entries, refused, (a, b, c, d, e), findings)

    def lines(self) -> Iterator[str]:
        numbers = astuple(self)
        yield "swap summary 1"
        yield "parties {} arcs {} leaders {}".format(*numbers[:3])
        yield "events {} entries {} refused {}".format(*numbers[3:6])
        yield " ".join(f"{outcome} {count}" for outcome, count in zip(OUTCOMES, self.outcomes))
        yield f"findings {self.findings}"

    def __str__(self) -> str:
        return joined(self.lines())


def numbers_of(names: list[str], line: str) -> list[int]:
    """The numbers behind these names."""
    words = line.split(" ")
    demand(words[::2] == names, f"numbers of {', '.join(names)} are wanted")
    return [number(word) for word in fixed(words, *(it for name in names for it in (name, None)))]
