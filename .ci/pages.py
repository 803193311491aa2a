"""The pages: which there are, how long each may be, and their lines and paragraphs."""
import re
from functools import lru_cache
from pathlib import Path
from typing import Dict, Iterator, List, Tuple

TOP = Path(__file__).resolve().parent.parent
MAINTAINERS = "docs/maintainers"
ARCHITECTURE, PROVED, PLANTS = [f"{MAINTAINERS}/{it}.md" for it in ("ARCHITECTURE", "PROVED", "PLANTS")]
NAMED = ["README.md", "docs/THEOREM.md", "docs/DEFINITIONS.md", "docs/READING.md", "docs/USING.md", ARCHITECTURE, PROVED, PLANTS]
NAMED += sorted(str(it.relative_to(TOP)) for it in (TOP / "docs/using").glob("*.md"))
LEFT_OUT = {"out", ".git", "unlanded", "crates"}


def pages_in(folder: Path) -> Iterator[str]:
    """The pages in a folder and below it."""
    for it in sorted(folder.iterdir()):
        if it.is_dir() and it.name not in LEFT_OUT:
            yield from pages_in(it)
        elif it.suffix == ".md":
            yield str(it.relative_to(TOP))


DOCUMENTS = sorted(pages_in(TOP))
# how many words a page may have; one that isn't named here may have FEW
BUDGETS: Dict[str, int] = {
    "README.md": 900,
    "docs/THEOREM.md": 1500,
    "docs/DEFINITIONS.md": 5700,
    "docs/FORMATS.md": 6650,
    "docs/GLOSSARY.md": 900,
    "docs/READING.md": 1050,
    "docs/USING.md": 490,
    "docs/using/exchange.md": 650,
    "docs/using/day.md": 850,
    "docs/using/auditor.md": 950,
    "docs/using/contract.md": 2050,
    "docs/using/wallet.md": 2050,
    ARCHITECTURE: 1950,
    f"{MAINTAINERS}/DECISIONS.md": 1750,
    f"{MAINTAINERS}/PROOFS.md": 1550,
    PROVED: 2850,
    f"{MAINTAINERS}/GATE.md": 400,
    PLANTS: 600,
    "examples/README.md": 1250,
    "examples/GALLERY.md": 1050,
    "bench/README.md": 750,
    "tests/README.md": 400,
    "examples/vectors/README.md": 600,
    "CHANGELOG.md": 600,
    "CONTRIBUTING.md": 650,
}
FEW, TOTAL = 550, 38000
WIDTH, ROW = 100, 250
BEGIN, END = "<!-- written by .ci/documents --write -->", "<!-- up to here -->"
DEFINITIONS, STATED_OVER = "docs/DEFINITIONS.md", "docs/STATED_OVER.txt"
# what begins a paragraph of its own: an item of a list, a row of a table, a heading
BEGINS = re.compile(r"\s*(?:[-*] |\d+\. |\||#|```|<!--)")
# a line, or what is wrong with it, behind its number
Line = Tuple[int, str]


@lru_cache(maxsize=None)
def text_of(path: str) -> str:
    return (TOP / path).read_text()


def plain_lines_of(document: str) -> Iterator[Tuple[int, str, bool]]:
    """The lines of a document with their numbers, and whether they stand within a fence; without
    the tables that this script writes.
    """
    is_ours = is_fenced = False
    for number, line in enumerate(text_of(document).split("\n"), 1):
        is_ours = (is_ours or line == BEGIN) and line != END
        is_fence = line.lstrip().startswith("```")
        is_fenced ^= is_fence
        if not is_ours:
            yield number, line, is_fenced or is_fence


def lines_of(document: str) -> Iterator[Line]:
    """The paragraphs, items and rows of a document, each as one line, with the number of its first;
    lines within a fence as they are.
    """
    first = 0
    joined: List[str] = []
    for number, line, is_fenced in plain_lines_of(document):
        if joined and (is_fenced or not line.strip() or BEGINS.match(line)):
            yield first, " ".join(joined)
            joined = []
        if is_fenced or not line.strip():
            yield number, line
        else:
            first = number if not joined else first
            joined.append(line.strip() if joined else line)
    if joined:
        yield first, " ".join(joined)


def code_in(line: str) -> List[str]:
    """What stands in code type in a line."""
    return re.findall(r"`([^`]+)`", line)


def words_in(document: str) -> int:
    """As many words as `wc -w` counts."""
    return len(text_of(document).split())


def budget_of(document: str) -> int:
    return BUDGETS.get(document, FEW)


def too_long(document: str) -> Iterator[Line]:
    if words_in(document) > budget_of(document):
        yield 0, f"{words_in(document)} words, and it may have {budget_of(document)}"


def too_wide(document: str) -> Iterator[Line]:
    for number, line, is_fenced in plain_lines_of(document):
        most = ROW if line.lstrip().startswith("|") or is_fenced else WIDTH
        if len(line) > most and "](" not in line.split()[-1]:
            yield number, f"{len(line)} columns, and a line has at most {most}"


def too_many() -> Iterator[str]:
    words = sum(map(words_in, DOCUMENTS))
    if words > TOTAL:
        yield f"all documents: {words} words, and they may have {TOTAL}"
