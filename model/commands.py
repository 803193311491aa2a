"""The commands: what is written for words and an input, by which status. docs/FORMATS.md, 'Status
and standard error'."""
from __future__ import annotations

import re
from functools import lru_cache
from typing import Any, Callable, NamedTuple, Optional, TYPE_CHECKING, Tuple

from .agreeing import MOST_SHORT, deal_text, keys_text, terms_text
from .clearing import cleared
from .hashes import hashlock_of, public_key, secret_of
from .drawn import plain_job
from .judging import MOST_JUDGED, judgement_text
from .many import many
from .offer import MOST_EVENTS, PLAIN, Offer, Refused, header_of, job_of, lines_of, refuse
from .play import race, run
from .texts import check_text, compact, joined, made_header, report, summary, transcript
from .transcripts import MOST_BYTES, Reader, replayed, transcript_of
from .wallet import MOST_ASKED, wallet_lines

if TYPE_CHECKING:
    from .rules import View

USAGE = ("usage: swap check | run [--transcript] | race [--ticks K] [--transcript] | audit | make"
         " | gen --seed S --parties N --events E [--summary] | clear | many")
PARTY_USAGE = "usage: party keys NAME | deal | terms NAME | next NAME | judge [--json]"
FOUND_NOTHING, FOUND, WRONG_WORDS, REFUSED, READ_FAULT, WRITE_FAULT, NO_MEMORY, TOO_LONG = range(8)


class Answer(NamedTuple):
    status: int
    out: bytes
    err: bytes


# ---- words

def command_of(words: list[str]) -> Optional[tuple[str, dict[str, int]]]:
    """The command that words ask for and its options, in any order, or None where they aren't well
    formed.

    A number has 1 to 10 digits and stands behind its option, in a word of its own or after `=`.
    """
    if not words or words[0] not in OPTIONS:
        return None
    allowed, left = OPTIONS[words[0]], list(words[1:])
    options: dict[str, int] = {}
    while left:
        name, is_joined, given = left.pop(0).partition("=")
        if name not in allowed or name in options or is_joined and not allowed[name]:
            return None
        options[name] = True
        if limits := allowed[name]:
            least, most = limits
            given = given if is_joined else left.pop(0) if left else ""
            if not re.fullmatch("[0-9]{1,10}", given) or not least <= int(given) <= most:
                return None
            options[name] = int(given)
    are_there = words[0] != "gen" or {"--seed", "--parties", "--events"} <= set(options)
    return (words[0], options) if are_there else None


OPTIONS: dict[str, dict[str, Optional[tuple[int, int]]]] = {
    "check": {},
    "run": {"--transcript": None},
    "race": {"--ticks": (1, 1000), "--transcript": None},
    "audit": {},
    "make": {},
    "gen": {"--seed": (0, 2**32 - 1), "--parties": (2, 24), "--events": (0, MOST_EVENTS), "--summary": None},
    "clear": {},
    "many": {},
}


# ---- commands: each answers a text and how many findings it tells

def check(text: bytes, _options: dict[str, int]) -> tuple[bytes, int]:
    """`check` writes a deal's times."""
    offer, _ = job_of(text, "check")
    return check_text(offer.deal), 0


@lru_cache(maxsize=2)
def ran(text: bytes) -> tuple[Offer, View, tuple[bytes, int]]:
    """The offer, the book and the report of a job (kept, since a run is asked for its report and
    for its transcript)."""
    offer, events = job_of(text, "run")
    book = run(offer, events)
    return offer, book, report(book, offer.conforming)


def told(options: dict[str, int], offer: Offer, book: View, reported: tuple[bytes, int]) -> tuple[bytes, int]:
    """A report, or a transcript with the status of the report."""
    return (transcript(book, offer), reported[1]) if "--transcript" in options else reported


def run_job(text: bytes, options: dict[str, int]) -> tuple[bytes, int]:
    """`run` writes what comes of a job."""
    return told(options, *ran(text))


def race_job(text: bytes, options: dict[str, int]) -> tuple[bytes, int]:
    """`race`: the report of one legal order of its calls."""
    offer, _ = job_of(text, "race")
    book = race(offer, options.get("--ticks", 1))
    return told(options, offer, book, report(book, offer.conforming))


def audit(text: bytes, _options: dict[str, int]) -> tuple[bytes, int]:
    """`audit` replays a transcript and writes the report of its job and its ledgers."""
    offer, stated = transcript_of(Reader(text))
    return report(replayed(offer, stated), offer.conforming)


def made_offer(offer: Offer) -> Offer:
    """A plain offer with what its seeds and its times give."""
    deal = offer.deal
    deal.hashlocks = [hashlock_of(secret_of(offer.seed(leader))) for leader in deal.leaders]
    if deal.is_keyed:
        deal.keys = [[public_key(offer.seed(party), party, lock) for lock in deal.locks] for party in deal.parties]
    else:
        deal.timelocks = [deal.timelock_of(arc) for arc in deal.arcs]
    return offer


def make(text: bytes, _options: dict[str, int]) -> tuple[bytes, int]:
    """`make` writes a job from a plain one; its further lines are copied."""
    lines = lines_of(text)
    if not lines:
        refuse("NotJson", 1)
    offer = header_of(lines[0][1], lines[0][0], PLAIN)
    for name, seed in zip(offer.deal.names, offer.seeds):
        if seed is None:
            refuse("NoSeed", name)
    if len(lines) - 1 > MOST_EVENTS:
        refuse("OverLimit", lines[MOST_EVENTS + 1][0], "events", MOST_EVENTS + 1)
    return made_header(made_offer(offer)).encode() + b"\n" + b"".join(line + b"\n" for _, line in lines[1:]), 0


def gen(_text: bytes, options: dict[str, int]) -> tuple[bytes, int]:
    """`gen` writes the job of a number, or the summary of its run."""
    header, events = plain_job(options["--seed"], options["--parties"], options["--events"])
    offer = made_offer(Offer(header, PLAIN))
    if "--summary" in options:
        return summary(run(offer, events), offer.conforming, len(events))
    return joined([made_header(offer), *map(compact, events)]), 0


def clear(text: bytes, _options: dict[str, int]) -> tuple[bytes, int]:
    """`clear` makes plain jobs of wishes."""
    return cleared(text), 0


COMMANDS: dict[str, Callable[[bytes, dict[str, int]], tuple[bytes, int]]] = {
    "check": check, "run": run_job, "race": race_job, "audit": audit, "make": make, "gen": gen, "clear": clear, "many": many}


def printable(word: object) -> str:
    """A control character inside a name or a field is written as `\\u{HEX}`."""
    return "".join("\\u{%x}" % ord(it) if ord(it) < 32 or 127 <= ord(it) < 160 else it for it in str(word))


def answer(words: list[str], text: bytes) -> Answer:
    """The status, the output and the standard error for words and an input."""
    asked = command_of(words)
    if asked is None:
        return wrong_words(USAGE)
    command, options = asked
    return answer_to(COMMANDS[command], b"" if command == "gen" else text, options)


def takes_input(words: list[str]) -> bool:
    """Whether the program reads its input for these words."""
    asked = command_of(words)
    return asked is not None and asked[0] != "gen"


PartyCommand = Callable[[bytes, str], Tuple[bytes, int]]
# By the first word and the number of words, since each command but `deal` and `judge` has the name
# of a party behind it: the command, and the most bytes of its input
PARTY_COMMANDS: dict[tuple[str, int], tuple[PartyCommand, int]] = {
    ("keys", 2): (keys_text, MOST_SHORT),
    ("deal", 1): (deal_text, MOST_SHORT),
    ("terms", 2): (terms_text, MOST_SHORT),
    ("next", 2): (wallet_lines, MOST_ASKED),
    ("judge", 1): (judgement_text, MOST_JUDGED),
}


def party_command(words: list[str]) -> Optional[tuple[PartyCommand, int]]:
    """The command of the program `party` that words ask for, with the most bytes of its input, or
    None."""
    if words == ["judge", "--json"]:
        return judgement_text, MOST_JUDGED
    return PARTY_COMMANDS.get((words[0], len(words))) if words else None


def party_takes_input(words: list[str]) -> bool:
    """The same of the program `party`."""
    return party_command(words) is not None


def party_answer(words: list[str], text: bytes) -> Answer:
    """The same of the program `party`."""
    asked = party_command(words)
    if asked is None:
        return wrong_words(PARTY_USAGE)
    command, most = asked
    return answer_to(command, text, words[-1], most)


def wrong_words(usage: str) -> Answer:
    return Answer(WRONG_WORDS, b"", ("swap: wrong words\n%s\n" % usage).encode())


def answer_to(command: Callable[..., Any], text: bytes, asked: Any, most: int = MOST_BYTES) -> Answer:
    if len(text) > most:
        return Answer(TOO_LONG, b"", b"swap: too long\n")
    try:
        out, found = command(text, asked)
    except Refused as why:
        return Answer(REFUSED, b"", ("swap: refused: %s\n" % " ".join(map(printable, why.args))).encode())
    return Answer(FOUND if found else FOUND_NOTHING, out, b"")
