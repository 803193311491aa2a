"""The deals that tests edit, the signatures that names in them stand for, and what the program
answers as one text."""
from __future__ import annotations

import os
import re
import sys
from functools import cache
from typing import Union

sys.dont_write_bytecode = True
from program import HERE, Answer, Program, must

# the statuses by which the program tells that it is done, or that it names findings
WORDS = {0: "done\n", 1: "named\n"}
# the other ones, by what its line on standard error begins with
LINES = {2: "swap: wrong words", 3: "swap: refused: ", 4: "swap: read fault", 5: "swap: write fault"}
LINES |= {6: "swap: no memory", 7: "swap: too long"}


@cache
def read(*path: str) -> str:
    """What stands in that file of tests/."""
    with open(os.path.join(HERE, *path), encoding="utf-8", newline="") as file:
        return file.read()


def stored(name: str) -> str:
    return read("deals", name)


def deal(name: str) -> str:
    """The job of that name, or the file where the name has an ending; `nothing` is no text."""
    return "" if name == "nothing" else stored(name if "." in name else name + ".job")


def table(path: str) -> str:
    return read("tables", path + ".txt")


@cache
def signatures() -> dict[str, str]:
    rows = [row.split(" => ") for row in stored("signatures").split("\n") if row and not row.startswith("#")]
    return {name: digits for name, digits in rows}


def signed(text: str) -> str:
    """The text with the signatures that names in angle brackets stand for."""
    return re.sub(r"<[a-z][a-z0-9 ]*>", lambda found: signatures()[found[0]], text)


def edited(text: str, edits: str) -> str:
    """The text with each edit made in it, if any: `FROM => TO`, parted by ` && `. FROM stands in
    the text, and its first place is changed."""
    for edit in filter(None, edits.split(" && ")):
        old, arrow, new = edit.partition(" => ")
        must(arrow and old in text, f"an edit of what stands nowhere: {edit}")
        text = text.replace(old, new, 1)
    return text


def told(answer: Answer) -> str:
    """An answer as one text: a line for the status, or what was told on standard error, and then
    what was written."""
    out, line = answer.out.decode(), answer.err.decode()
    if answer.status in WORDS:
        must(not line, f"a line on standard error beside status {answer.status}: {line}")
        return WORDS[answer.status] + out
    must(line.startswith(LINES.get(answer.status, "?")), f"status {answer.status} with the line {line!r}")
    must(answer.status == 2 or line.count("\n") == 1 and line.endswith("\n"), f"more than a line: {line!r}")
    return line + out


def asked(program: Program, words: list[str], text: Union[str, bytes]) -> str:
    """What the program answers to such words and an input, as one text."""
    return told(program.run(words, text if isinstance(text, bytes) else text.encode()))


def is_wanted(answered: str, wanted: str) -> None:
    must(answered == wanted, f"it answered:\n{answered}and this was wanted:\n{wanted}")
