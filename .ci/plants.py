"""The bugs that were planted by hand, in files beside the page that counts them."""
import re
from pathlib import Path
from typing import Dict, Iterable, Iterator, Tuple

from pages import MAINTAINERS, TOP, Line, code_in
from tree import CRATES, WORD, functions_of, words_of

KEYS = {"functions", "bugs", "refused by", "also refused", "let through", "rt plant"}


def planted_in(file: Path) -> Iterator[Tuple[int, Dict[str, str]]]:
    """The blocks of a file of planted bugs: what each says by its keys, with the number of its
    first line.
    """
    number = 1
    for block in file.read_text().split("\n\n"):
        joined = re.sub(r"\n  ", " ", block.strip())
        yield number, dict(line.partition(": ")[::2] for line in joined.split("\n") if line)
        number += block.count("\n") + 2


def planted() -> Dict[str, Path]:
    """The files of planted bugs, by crate."""
    return {it.stem: it for it in sorted((TOP / MAINTAINERS / "plants").glob("*.txt"))}


def misnamed() -> Iterator[Line]:
    """What the files of planted bugs name that isn't there."""
    for crate, file in planted().items():
        for number, told in planted_in(file):
            at = f"{file.relative_to(TOP)}, line {number}"
            if crate not in CRATES or not set(told) <= KEYS:
                yield 0, f"{at}: no crate, or no key of such a file"
                continue
            for code in code_in(told.get("functions", "")):
                for word in WORD.findall(code):
                    if word not in (functions_of(crate) if word[0].islower() and "::" not in code else words_of(crate)):
                        yield 0, f"{at}: `{crate}` has no function `{word}`"


def counted(crate: str, file: Path) -> Tuple[int, int, int]:
    """How many functions of a crate were tried, by how many bugs, and how many were let through."""
    functions = bugs = through = 0
    for _, told in planted_in(file):
        is_again = "each of these" in told.get("functions", "")
        functions += 0 if is_again else sum(code.split("::")[-1] in functions_of(crate) for code in code_in(told.get("functions", "")))
        bugs += 0 if is_again else sum(told[it].count(";") + 1 for it in ("bugs", "also refused") if it in told)
        through += "let through" in told
    return functions, bugs, through


def planted_lines() -> Iterator[str]:
    """The table of PLANTS: the crates of which something was let through, and the others together."""
    counts = {crate: counted(crate, file) for crate, file in planted().items()}
    told = {crate: row for crate, row in counts.items() if row[2]}
    others = [row for crate, row in counts.items() if crate not in told]
    rows = [*sorted(told.items(), key=lambda it: (-it[1][1], it[0])), (f"{len(others)} others", added(others)), ("all", added(counts.values()))]
    yield "```"
    yield f"{'crate':<20}functions  bugs  through"
    for crate, row in rows:
        yield f"{crate:<20}{row[0]:9}{row[1]:6}{row[2]:9}"
    yield "```"


def added(rows: Iterable[Tuple[int, int, int]]) -> Tuple[int, int, int]:
    """The sums of each column."""
    functions, bugs, through = map(sum, zip(*rows))
    return functions, bugs, through
