"""A finished swap in sentences: what was found, with the lines that show it, or what is wrong with
the text.

usage: python -m swap_party.explain [--party PROGRAM | --library FILE] [FILE]

FILE is what an arbiter hands over to `party judge` (standard input if left out). The library judges
it where it is found, or else the program `party`. The status is that of `party judge`.
"""
from __future__ import annotations

import argparse
import sys
from collections.abc import Iterator

from .calls import Called, Entry
from .header import Header
from .judgement import Case, Judgement, Mark
from .lines import NotOfTheFormatError, WordError
from .report import Broke, Finding, Forged, Late, Unfinished
from .wallet import Library, NoAnswerError, Party, Program, RefusedError, TooLongError

MARK_OF_BYTES = b"\xef\xbb\xbf"
RULES = {"publish": "publish", "unlock": "open lock", "claim": "claim", "refund": "take its refund"}


# ---- findings


def first_line(case: Case, arc: int) -> int:
    """The number of the line that begins a ledger."""
    before = 1 + len(case.context) + len(case.agreements)
    return before + sum(1 + len(entries) for entries in case.ledgers[:arc]) + 1


def line_of(case: Case, arc: int, entry: int) -> int:
    return first_line(case, arc) + 1 + entry


def shown(case: Case, arc: int, entry: int) -> str:
    """The line of an entry, with its number; a long one is cut."""
    text = str(case.ledgers[arc][entry])
    return f"line {line_of(case, arc, entry)}: {text if len(text) <= 100 else text[:97] + '..'}"


def height_before(entries: tuple[Entry, ...], count: int) -> int:
    return sum(0 if isinstance(it, Called) else it.by for it in entries[:count])


def action(found: Late) -> str:
    words = RULES[found.rule]
    return words if found.lock is None else f"{words} {found.lock}"


def sentences(case: Case, found: Finding, mark: Mark) -> Iterator[str]:
    """A finding in sentences, and the lines that show it."""
    if isinstance(found, Broke):
        yield f"{found.name} broke the rules of conduct on ledger {found.arc} with its entry {found.entry}."
        yield shown(case, found.arc, found.entry)
    elif isinstance(found, Forged):
        yield (f"On ledger {found.arc}, entry {found.entry} was accepted with a signature or a secret of {found.name} that {found.name} never"
               " presented on any ledger that is told.")
        yield shown(case, found.arc, found.entry)
    elif isinstance(found, Unfinished):
        yield f"Ledger {found.arc} is told up to height {found.height}, which isn't above the swap's last height: it is too early to judge."
        yield f"line {first_line(case, found.arc)}: ledger {found.arc} {len(case.ledgers[found.arc])}"
    else:
        yield f"{found.name} was to {action(found)} on ledger {found.arc} at height {found.due} at the latest, and didn't."
        entries = case.ledgers[found.arc]
        past = next((at for at in range(len(entries)) if height_before(entries, at + 1) > found.due), None)
        if past is not None:
            yield shown(case, found.arc, past)
    if mark.is_harmless:
        yield "It is harmless: contracts had ceased to open by then, so the publish could only have hurt the party itself."
    if not mark.is_final:
        yield "It is provisional: a ledger isn't told up to the swap's last height, and what is still to come may change it."


def explained(text: bytes, judged: str) -> Iterator[str]:
    """A judgement in sentences."""
    case, judgement = Case.parse(text), Judgement.parse(judged)
    yield f"The deal is {judgement.deal}, and what the wallets agreed on has the digest {judgement.agree}."
    told = [it.name for it in case.agreements]
    yield f"{', '.join(told)} told this digest." if told else "No party told a digest, so nothing shows that the parties agreed on these names."
    yield "Every ledger replies as its contract does."
    for it in judgement.report.parties:
        yield f"{it.name}, which {'claims to have kept the rules' if it.role == 'conforming' else 'claims nothing'}, ended {it.outcome}."
    yield from of_another_deal(text)
    for found, mark in judgement.found:
        yield from sentences(case, found, mark)
    counting = sum(not mark.is_harmless for mark in judgement.marks)
    yield f"Found: {len(judgement.marks)}, of which {counting} {'counts' if counting == 1 else 'count'}." if judgement.marks else "Nothing is found."


# ---- refusals


def hints(text: bytes, reason: str) -> Iterator[str]:
    """What may be wrong with a text that is refused."""
    word, *more = reason.split(" ")
    if text.startswith(MARK_OF_BYTES):
        yield "The text begins with a byte-order mark: save it as UTF-8 without one."
    if b"\r\n" in text:
        yield "Its lines end in CRLF: write each with a line feed alone."
    if text.startswith(b"swap transcript 1"):
        yield "It is a transcript: `swap audit` reads it. For `party judge` leave out its first line."
    if word == "CutShort":
        yield "The text ends too early: its last line is `end`, with a line feed."
    if word == "NotAgreed":
        yield f"A party told another digest. That of this header and its lines of context is {more[0]}: ask that party for its own header and lines."
    if word == "BadLine" and more:
        lines = text.split(b"\n")
        at = int(more[0])
        if 0 < at <= len(lines):
            yield f"line {at}: {lines[at - 1][:100].decode('utf-8', 'backslashreplace')}"
        yield "That line isn't what stands next there, or it doesn't fit the deal."
    if word == "BadReply" and len(more) >= 4:
        yield f"Entry {more[1]} of ledger {more[0]} states a reply that this deal's contract doesn't give."
        yield "Either that reply is wrong, or the ledger is another deal's."
        yield from of_another_deal(text)


def of_another_deal(text: bytes) -> Iterator[str]:
    """Whether what was published has other locks than the header says."""
    try:
        header = Header.of(text.split(b"\n", 1)[0].decode())
    except (WordError, UnicodeDecodeError):
        return
    locks = {it.hashlock.encode() for it in header.leaders}
    published = {word for line in text.split(b"\n") if b" publish " in line for word in line.split(b" = ")[0].split(b" ")[8:]}
    if published and not published & locks:
        yield "No publish has a lock of this header: it is the header of another deal."


# ---- words


def asked_party(told: argparse.Namespace) -> Party:
    if told.party:
        return Program(told.party)
    try:
        return Library(told.library)
    except OSError:
        return Program()


def main(words: list[str]) -> int:
    reader = argparse.ArgumentParser(prog="python -m swap_party.explain", description="Judges a finished swap, in sentences.")
    reader.add_argument("--party", help="the program party")
    reader.add_argument("--library", help="the library libswap_party.so.1")
    reader.add_argument("file", nargs="?", help="what `party judge` reads (standard input if left out)")
    told = reader.parse_args(words)
    try:
        if told.file:
            with open(told.file, "rb") as file:
                text = file.read()
        else:
            text = sys.stdin.buffer.read()
        judged = asked_party(told).judge(text)
        print("\n".join(explained(text, judged)))
        return 1 if Judgement.parse(judged).marks else 0
    except RefusedError as why:
        print("\n".join([f"Nothing is judged: {why.reason}.", *hints(text, why.reason)]))
        return 3
    except TooLongError as why:
        print(f"Nothing is judged: {why}.")
        return 7
    except (NoAnswerError, NotOfTheFormatError, OSError) as why:
        print(why, file=sys.stderr)
        return 2


if __name__ == "__main__":
    sys.exit(main(sys.argv[1:]))
