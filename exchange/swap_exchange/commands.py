"""The words of `exchange/run`, and how it ends."""
from __future__ import annotations

import argparse
import json
import os
import signal
import sys
from collections.abc import Iterator, Sequence
from contextlib import contextmanager
from pathlib import Path
from typing import NoReturn

from swap_party.lines import NotOfTheFormatError

from .campaign import GEN, OFFERS, Campaign, status_of
from .campaign import Terms as CampaignTerms
from .database import StateError, opened
from .day import Day, Terms, beginning, digest_of, names_of
from .judging import drawn, judged_again, transcript_of
from .page import page_of
from .pool import Cluster, Crew, Workers
from .progress import Log, Metrics, Progress
from .simulated import simulated
from .state import PACKED, State, days_in
from .told import day_of, text_of, word
from .wallets import by_wallets
from .wishes import Book, book_of, good, known_names
from .words import DONE, FAULT, FOUND, REFUSED, TOP, Words, id_word, in_range, told
from .work import FaultError, Programs, RefusedError, Way, has_program

PLACES = ("out/proved", "out/unproved", "model")


def best(name: str) -> str:
    """The best program of a name that the repository has."""
    return next(str(TOP / it / name) for it in PLACES if os.access(TOP / it / name, os.X_OK))


def best_library() -> str:
    """The library of the repository, or nothing where there is none, or a program that is proved and no
    library that is."""
    for it in PLACES:
        if (TOP / it / "libswap_party.so.1").is_file():
            return str(TOP / it / "libswap_party.so.1")
        if os.access(TOP / it / "swap", os.X_OK):
            break
    return ""


class Stopped(BaseException):
    """A signal ends the program."""

    def __init__(self, number: int) -> None:
        super().__init__(number)
        self.number = number


def state_words(words: argparse.ArgumentParser) -> None:
    words.add_argument("--state", required=True, metavar="STATE", help="a file of SQLite or a postgresql:// URL where days stand")
    words.add_argument("--day", type=id_word, default="day", metavar="NAME", help="the name of the day in the state, 'day' where left out")


def crew_words(words: argparse.ArgumentParser) -> None:
    words.add_argument("--swap", metavar="PATH", help="the program `swap`; else the library or the best program that the repository has")
    words.add_argument("--party", metavar="PATH", help="the program `party`, likewise")
    words.add_argument("--state", default=":memory:", metavar="STATE", help="a file of SQLite or a postgresql:// URL where the state stands")
    words.add_argument("--json", action="store_true", help="write JSON")
    words.add_argument("--progress", action="store_true", help="tell on standard error how far it is, as at a terminal")
    words.add_argument("--log", metavar="FILE", help="append what happens as lines of JSON")
    words.add_argument("--metrics", type=in_range(1, 65535), metavar="PORT", help="give Prometheus numbers at this port of 127.0.0.1")
    many = words.add_mutually_exclusive_group()
    many.add_argument("--workers", type=in_range(1, 1024), default=1, metavar="N", help="processes on this machine, 1 where left out")
    many.add_argument("--scheduler", metavar="ADDRESS", help="the scheduler of a Dask cluster")


def day_words(words: argparse.ArgumentParser) -> None:
    words.set_defaults(command=run_day)
    words.add_argument("wishes", metavar="WISHES", help="a file of CSV or JSON lines; - is standard input")
    ways = words.add_mutually_exclusive_group(required=True)
    ways.add_argument("--simulate", action="store_true", help="draw the users' seeds here, and settle by `swap many`")
    ways.add_argument("--wallets", metavar="FOLDER", help="settle by the users' wallets, which keep their seeds in rooms of this folder")
    ways.add_argument("--check", action="store_true", help="list every bad row of the files, with its line and the rule, and settle nothing")
    words.add_argument("--accounts", metavar="FILE", help="who has how much; else each has what its wishes pay")
    words.add_argument("--assets", metavar="FILE", help="for each asset the digits behind its point, and its price")
    words.add_argument("--away", action="append", default=[], type=id_word, metavar="NAME", help="a user who doesn't turn up")
    words.add_argument("--day", type=id_word, default="day", metavar="NAME", help="the name of the day in the state, 'day' where left out")
    words.add_argument("--start", type=in_range(1, 1000), default=10, metavar="HEIGHT", help="the height at which swaps start")
    words.add_argument("--delta", type=in_range(1, 100), default=10, metavar="HEIGHTS", help="the heights within which a party reacts")
    crew_words(words)


def campaign_words(words: argparse.ArgumentParser) -> None:
    words.set_defaults(command=run_campaign)
    kinds = words.add_mutually_exclusive_group(required=True)
    kinds.add_argument("--numbers", type=in_range(1, 2**32), metavar="N", help="run the jobs of so many numbers by `gen --summary`")
    kinds.add_argument("--offers", type=in_range(1, 2**32), metavar="N", help="make and run so many random offers")
    words.add_argument("--from", dest="first", type=in_range(0, 2**32 - 1), default=0, metavar="S", help="the first number, 0 where left out")
    words.add_argument("--parties", type=in_range(2, 24), default=6, metavar="P", help="the parties of a number's job")
    words.add_argument("--events", type=in_range(0, 200_000), default=100, metavar="E", help="the events of a number's job")
    crew_words(words)


def page_words(words: argparse.ArgumentParser) -> None:
    words.set_defaults(command=run_page)
    state_words(words)
    words.add_argument("--swap", type=in_range(0, 2**32), metavar="N", help="draw this swap alone")
    words.add_argument("--program", metavar="PATH", help="the program `swap` that judges what is drawn")


def judge_words(words: argparse.ArgumentParser) -> None:
    words.set_defaults(command=run_judge)
    state_words(words)
    words.add_argument("--swap", type=in_range(0, 2**32), metavar="N", help="judge this swap alone")
    words.add_argument("--transcript", action="store_true", help="with --swap: write its transcript, which `swap audit` judges")
    words.add_argument("--program", metavar="PATH", help="the program `swap` that judges")


def days_words(words: argparse.ArgumentParser) -> None:
    words.set_defaults(command=run_days)
    words.add_argument("--state", required=True, metavar="STATE", help="a file of SQLite or a postgresql:// URL where days stand")


def all_words() -> argparse.ArgumentParser:
    words = Words(prog="exchange/run", description="An exchange's day, from wishes to settled accounts, and campaigns of many runs.")
    words.add_argument("--version", action="version", version=f"exchange {(TOP / 'VERSION').read_text().strip()}")
    commands = words.add_subparsers(required=True, metavar="COMMAND")
    day_words(commands.add_parser("day", help="play a day, or go on with one that was stopped"))
    campaign_words(commands.add_parser("campaign", help="run many numbers, or go on with a campaign that was stopped"))
    days_words(commands.add_parser("days", help="list the days of a state"))
    judge_words(commands.add_parser("judge", help="judge the swaps of a day again"))
    page_words(commands.add_parser("page", help="write a page of a day, or of one of its swaps"))
    return words


def programs_of(asked: argparse.Namespace) -> Programs:
    swap, party = (os.path.abspath(path or best(name)) for name, path in (("swap", asked.swap), ("party", asked.party)))
    library = "" if asked.swap else os.environ.get("SWAP_PARTY_LIBRARY") or best_library()
    return Programs(swap, party, library if library and has_program(library) else "")


def crew_of(asked: argparse.Namespace) -> Crew:
    return Crew(Cluster(asked.scheduler) if asked.scheduler else Workers(asked.workers), programs_of(asked))


def read(path: str) -> bytes:
    return sys.stdin.buffer.read() if path == "-" else Path(path).read_bytes()


def write(text: str) -> None:
    sys.stdout.write(text)
    sys.stdout.flush()


def way_of(asked: argparse.Namespace, state: State) -> Way:
    return by_wallets(os.path.abspath(asked.wallets)) if asked.wallets else simulated(state.seed)


def file_of(path: str | None) -> tuple[str, bytes] | None:
    return None if path is None else (path, read(path))


def run_day(asked: argparse.Namespace) -> int:
    if asked.delta > asked.start:
        Words().error("--start is at least --delta")
    files = (asked.wishes, read(asked.wishes)), file_of(asked.accounts), file_of(asked.assets)
    book = book_of(*files)
    if asked.check and book.bad:
        return tell_bad(book)
    good(book)
    known_names(book.wishes, asked.away)
    if asked.check:
        return tell_bad(book)
    accounts = beginning(book.wishes, book.accounts)
    terms = Terms(asked.start, asked.delta, tuple(sorted(set(asked.away))), "wallets" if asked.wallets else "simulate")
    digest = digest_of([it and it[1] for it in files], terms)
    with had(asked.state, asked.day) as state:
        state.begin(digest, book.wishes, accounts, names_of(book.wishes, accounts), book.assets.values())
        progress = progress_of(asked)
        progress.log.event("day", name=asked.day, wishes=len(book.wishes), step=state.done)
        with crew_at_work(asked) as crew:
            Day(state, crew, terms, way_of(asked, state), progress).run(book.wishes, accounts)
        day = day_of(state)
        progress.over(day["totals"])
    write(json.dumps(day, indent=1, ensure_ascii=False) + "\n" if asked.json else text_of(day))
    return FOUND if day["totals"]["findings"] else DONE


def tell_bad(book: Book) -> int:
    """Lists every bad row."""
    for it in book.bad:
        print(f"exchange: bad: {it}", file=sys.stderr)
    write(f"{len(book.wishes)} wishes are good, {len(book.bad)} rows are bad\n")
    return REFUSED if book.bad else DONE


@contextmanager
def had(path: str, day: str) -> Iterator[State]:
    """The state of a day, which no other process has."""
    database = opened(path)
    try:
        yield State(database, day)
    finally:
        database.close()


@contextmanager
def crew_at_work(asked: argparse.Namespace) -> Iterator[Crew]:
    crew = crew_of(asked)
    try:
        yield crew
    finally:
        crew.workers.close()


def progress_of(asked: argparse.Namespace) -> Progress:
    return Progress(asked.progress or sys.stderr.isatty(), Log(asked.log), Metrics(asked.metrics) if asked.metrics else None)


def run_campaign(asked: argparse.Namespace) -> int:
    kind, numbers = (GEN, asked.numbers) if asked.numbers else (OFFERS, asked.offers)
    if asked.first + numbers > 2**32:
        Words().error("the last number is at most 4294967295")
    database = opened(asked.state)
    try:
        campaign = Campaign(database, CampaignTerms(kind, asked.first, numbers, asked.parties, asked.events))
        with crew_at_work(asked) as crew:
            tally = campaign.run(crew, progress_of(asked))
    finally:
        database.close()
    write(json.dumps(campaign.told(tally), indent=1) + "\n" if asked.json else campaign.text(tally))
    return status_of(tally)


@contextmanager
def over(asked: argparse.Namespace) -> Iterator[tuple[State, Programs]]:
    """The state of a day that is over, and the programs that judge it."""
    with had(asked.state, asked.day) as state:
        if state.is_open:
            raise StateError(f"the day {asked.day!r} isn't over")
        yield state, Programs(os.path.abspath(asked.program or best("swap")), "")


def run_page(asked: argparse.Namespace) -> int:
    with over(asked) as (state, programs):
        write(page_of(state, asked.state) if asked.swap is None else drawn(state, asked.swap, programs))
    return DONE


def run_judge(asked: argparse.Namespace) -> int:
    with over(asked) as (state, programs):
        if asked.transcript and asked.swap is not None:
            write(transcript_of(state, asked.swap, programs))
            return DONE
        swaps = [it for (it,) in state.rows("select number from swap where day = ? and drawn is not null order by number")]
        found = 0
        for swap in swaps if asked.swap is None else [asked.swap]:
            findings = judged_again(state, swap, programs)
            found += len(findings)
            write(f"swap {swap} judged again: {'; '.join(findings) or 'findings 0'}\n")
    return FOUND if found else DONE


def run_days(asked: argparse.Namespace) -> int:
    database = opened(asked.state)
    try:
        for name, step, left, wishes in days_in(database):
            write(f"day {word(name)} wishes {wishes}: {'over' if step == PACKED and not left else f'{step}, {left} batches left'}\n")
    finally:
        database.close()
    return DONE


def stop(number: int, _: object) -> NoReturn:
    """Ends what runs. A second signal changes nothing."""
    for it in (signal.SIGTERM, signal.SIGINT):
        signal.signal(it, signal.SIG_IGN)
    raise Stopped(number)


def main(arguments: Sequence[str]) -> int:
    """Runs a command, and tells in one line why it ended otherwise than well."""
    for it in (signal.SIGTERM, signal.SIGINT):
        signal.signal(it, stop)
    try:
        asked = all_words().parse_args(arguments)
        return int(asked.command(asked))
    except (NotOfTheFormatError, RefusedError, StateError) as why:
        told("refused", why)
        return REFUSED
    except FaultError as why:
        told("fault", why)
    except OSError as why:
        if isinstance(why, BrokenPipeError):
            # (what is left to be written goes nowhere)
            os.dup2(os.open(os.devnull, os.O_WRONLY), sys.stdout.fileno())
        told("fault", f"{why.filename or 'input or output'}: {why.strerror}")
    except Stopped as why:
        told("stopped", "the same command goes on, where --state names a state")
        return 128 + why.number
    return FAULT
