"""The manual pages in man/ as plain text: all of one, or what it says of a command."""
from __future__ import annotations

import re
import textwrap
from pathlib import Path
from typing import Iterator, NamedTuple, Optional

TOP = Path(__file__).resolve().parent.parent
WIDTH = 92
ALTERNATING = {"BR": True, "RB": True, "B": False, "I": False}


class Part(NamedTuple):
    """A section of a page: its heading, the heading of the section that it stands in, and its
    lines of roff."""

    name: str
    above: str
    lines: list[str]


def page_of(program: str) -> str:
    """The manual page of a program, as it is written."""
    return (TOP / "man" / f"{program}.1").read_text(encoding="utf-8")


def parts_of(page: str) -> list[Part]:
    """The sections of a page in order, those within a section too."""
    parts: list[Part] = []
    above = ""
    for line in page.splitlines():
        kind, _, name = line.partition(" ")
        if kind in (".SH", ".SS"):
            above = name if kind == ".SH" else above
            parts.append(Part(name, above, []))
        elif parts:
            parts[-1].lines.append(line)
    return parts


def part(program: str, name: str) -> Optional[Part]:
    """The section of that name, if the page has one."""
    return next((it for it in parts_of(page_of(program)) if it.name == name), None)


# ---- text


def bare(text: str) -> str:
    """A line of roff without its marks."""
    return re.sub(r"\\f[BIR]|\\&", "", text).replace("\\-", "-")


def words_of(line: str) -> str:
    """What a line says: a line of words, or a macro with words."""
    macro = re.match(r"\.(BR|RB|B|I) (.*)", line)
    if not macro:
        return bare(line)
    said = re.findall(r'"[^"]*"|\S+', macro[2]) if ALTERNATING[macro[1]] else [macro[2]]
    return bare("".join(it.strip('"') for it in said))


def filled(words: list[str], indent: int) -> list[str]:
    """Words as lines of a paragraph."""
    room = " " * indent
    return textwrap.wrap(re.sub(r" ([.,;:])(?= |$)", r"\1", " ".join(words)), WIDTH, initial_indent=room, subsequent_indent=room, break_on_hyphens=False)


def text_of(lines: list[str], indent: int = 0) -> list[str]:
    """Lines of roff as lines of plain text."""
    text: list[str] = []
    for kind, words in paragraphs(lines):
        if kind == "example":
            text += ["", *(f"{' ' * (indent + 4)}{it}" for it in words), ""]
        elif kind == "item":
            head, *said = [*filled(words[:1], indent + 2), *filled(words[1:], indent + 8)]
            is_short = len(head) < indent + 8
            text += [f"{head:{indent + 8}}{said[0].strip()}", *said[1:]] if is_short and said else [head, *said]
        elif words:
            text += [*([""] if text and text[-1] else []), *filled(words, indent)]
    return text


def paragraphs(lines: list[str]) -> Iterator[tuple[str, list[str]]]:
    """The paragraphs of a section: text, an item behind its head, or an example, line by line."""
    kind: str = "text"
    words: list[str] = []
    for line in lines:
        macro = line.partition(" ")[0]
        if macro in (".PP", ".TP", ".nf", ".fi", ".br"):
            yield kind, words
            kind = {".TP": "item", ".nf": "example"}.get(macro, "text")
            words = []
        else:
            words.append(words_of(line))
    yield kind, words


# ---- what is told


def synopsis(program: str) -> list[str]:
    """The lines of usage."""
    found = part(program, "SYNOPSIS")
    return [line for it in paragraphs(found.lines if found else []) if (line := " ".join(it[1]))]


def commands(program: str) -> list[Part]:
    """The commands of a program, the launcher's own too."""
    return [it for it in parts_of(page_of(program)) if it.above in ("COMMANDS", "LAUNCHER") and it.name != it.above]


def first_sentence(found: Part) -> str:
    """What a command does."""
    return re.split(r"(?<=[.:]) ", " ".join(next(paragraphs(found.lines))[1]))[0].rstrip(":.") + "."


def statuses(program: str) -> list[str]:
    found = part(program, "EXIT STATUS")
    return ["", "Statuses:", *text_of(found.lines if found else [])]


def usage_of(program: str, command: str) -> str:
    """How a command is typed, by the page's synopsis, with the file that the launcher takes."""
    if command == "try":
        return f"./{program} try FILE"
    lines = [it for it in synopsis(program) if re.search(rf"\b{command}\b", it)]
    words = lines[0].removeprefix(program).strip() if lines else command
    said = command if "|" in words else words
    return f"./{program} {said}{'' if command == 'gen' else ' [FILE]'}"


def help_of_command(program: str, found: Part) -> list[str]:
    """What a command does, its input, an example, its statuses."""
    more = [it for it in parts_of(page_of(program)) if it.name.endswith(f" OF {found.name.upper()}")]
    told = [line for it in more for line in ["", f"{it.name.capitalize()}:", *text_of(it.lines)]]
    said = "\n".join([*text_of(found.lines), *told]).rstrip("\n").split("\n")
    return [f"usage: {usage_of(program, found.name)}", "", *said, *statuses(program)]


def help_of_program(program: str) -> list[str]:
    """What a program's commands are, and where more stands."""
    name, see = part(program, "NAME"), part(program, "SEE ALSO")
    wide = max(len(it.name) for it in commands(program)) + 2
    listed = [f"  {it.name:{wide}}{first_sentence(it)}" for it in commands(program)]
    usage = [f"{'usage:' if number == 0 else '      '} ./{line}" for number, line in enumerate(synopsis(program))]
    said = part(program, "LAUNCHER")
    return [*text_of(name.lines if name else []), "", *usage, "", "Commands:", *listed, "",
            f"./{program} COMMAND --help tells a command's input, an example and the statuses.", "",
            *text_of(said.lines if said else []), *statuses(program), "", *text_of(see.lines if see else [])]  # fmt: skip


def helped(program: str, command: str) -> Optional[list[str]]:
    """The lines that tell of a command, or of the program where it is empty; none where there is no
    such command."""
    if not command:
        return help_of_program(program)
    found = next((it for it in commands(program) if it.name == command), None)
    return help_of_command(program, found) if found else None


def examples(program: str) -> Iterator[tuple[str, str]]:
    """Each example by its command, as it is pasted."""
    for it in commands(program):
        shown = [words for kind, words in paragraphs(it.lines) if kind == "example"]
        yield from ((it.name, "\n".join(words)) for words in shown)
