"""What docs/FORMATS.md says of each reason and of each field, read from its tables."""
from __future__ import annotations

import re
from pathlib import Path
from typing import Iterator, NamedTuple, Optional

FORMATS = Path(__file__).resolve().parent.parent / "docs" / "FORMATS.md"
# Under which heading a command's reasons stand; a job's follow for all
JOB = "Why a job is refused"
HEADINGS = {
    "swap audit": "A transcript", "swap clear": "Wishes", "swap many": "Many swaps", "party keys": "A row", "party deal": "A deal of rows",
    "party terms": "Terms", "party next": "A wallet's lines", "party judge": "A judgement",
}  # fmt: skip


class Reason(NamedTuple):
    """A row of a table of reasons: under which heading, the reason as it is written there, and what
    is refused."""

    heading: str
    pattern: str
    meaning: str


class Told(NamedTuple):
    """What the tables say of one reason: what it means, and what each of its words is."""

    meaning: str
    words: dict[str, str]


def bare(text: str) -> str:
    """A cell without the marks of code type, of links and of strong type."""
    return re.sub(r"\[([^]]*)\]\([^)]*\)", r"\1", text).replace("`", "").replace("**", "").strip()


def rows_of(text: str) -> Iterator[tuple[str, list[str], list[str]]]:
    """Each row of each table: the heading above it, the heads of its columns, and its cells."""
    heading, heads = "", list[str]()
    for line in text.splitlines():
        found = re.match(r"#+ (.*)|\*\*([^*]*?)\.?\*\*", line)
        if found:
            heading = found[1] or found[2]
        cells = [it.strip() for it in re.split(r"(?<!\\)\|", line)[1:-1]] if line.startswith("|") else []
        if not cells:
            heads = []
        elif not heads:
            heads = [bare(it) for it in cells]
        elif not line.startswith("|--"):
            yield heading, heads, cells


def reasons_of(text: str) -> Iterator[Reason]:
    """Each reason of the tables."""
    for heading, heads, cells in rows_of(text):
        if "refused is" in heads and "reason" in heads:
            for pattern in re.findall(r"`([^`]*)`", cells[heads.index("reason")]):
                yield Reason(heading, pattern, bare(cells[heads.index("refused is")]))


def fields_of(text: str) -> dict[str, str]:
    """What each field may be: by its own row, or else in brackets behind its name."""
    own: dict[str, str] = {}
    beside: dict[str, str] = {}
    for _, heads, cells in rows_of(text):
        if heads[:2] == ["field", "kind"]:
            own |= {it: bare(cells[1]) for it in re.findall(r"`(\w+)`", cells[0]) if it not in own}
        for names, kind in re.findall(r"((?:`\w+`(?:, | and )?)+) \(([^)]*)\)", " ".join(cells)):
            beside |= {it: bare(kind) for it in re.findall(r"`(\w+)`", names) if it not in beside}
    return beside | own


def words_of(pattern: str, reason: str) -> Optional[dict[str, str]]:
    """What each of a pattern's words in capitals is in a reason, if that has its form."""
    names, words = pattern.split(" "), reason.split(" ", pattern.count(" "))
    if len(names) != len(words):
        return None
    is_open = [it.isupper() and not it.isdigit() for it in names]
    return None if any(not it and name != word for it, name, word in zip(is_open, names, words)) else dict(zip(names, words))


def told_of(text: str, command: str, reason: str, begins: str = "") -> Optional[Told]:
    """What the tables say of a reason against the input of a command; of several rows those that
    name the word with which the line begins, if any do."""
    all_of, own = list(reasons_of(text)), HEADINGS.get(command, JOB)
    for heading in dict.fromkeys([own, JOB, *HEADINGS.values()]):
        fits = [(it, found) for it in all_of if it.heading == heading and (found := words_of(it.pattern, reason)) is not None]
        if fits:
            # (the row that says most of it first)
            fixed = max(sum(it == name for name, it in found.items()) for _, found in fits)
            best = [(it, found) for it, found in fits if sum(word == name for name, word in found.items()) == fixed]
            best = [(it, found) for it, found in best if begins and re.search(rf"\b{re.escape(begins)}\b", it.meaning)] or best
            return Told(", or ".join(dict.fromkeys(it.meaning.split(";")[0] for it, _ in best)), best[0][1])
    return None
