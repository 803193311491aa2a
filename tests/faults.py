"""Fails each read and each write of the program at each byte, cuts its inputs at each byte, and
tests what it answers.

- A job that is cut within a line is no JSON text at that line; cut behind a line, with or without
  its line feed, it is the job of the lines so far. A cut transcript is cut short. Many swaps are
  cut short up to the line of their finish, and within a line that is a bad line or no JSON text.
- A read that fails behind any bytes has status 4, and nothing is written.
- A write that fails behind any bytes has status 5, and those bytes are a proper beginning of the
  usual text. The transcript of a race in which all act has no one text: what was written of it is
  cut short, as an audit says.

The inputs are short ones, for each command. bench/faults tests the same of longer ones.
"""
from __future__ import annotations

import sys
from functools import partial
from typing import Callable, Iterator, NamedTuple, Optional, Sequence

sys.dont_write_bytecode = True
from program import Answer, Failed, Program, Tests, must
from texts import deal, edited

CUT_SHORT = (3, b"", b"swap: refused: CutShort\n")


class Row(NamedTuple):
    """A command and its input: the text, or what other words write of it. The answer varies where
    parties act in a race."""

    name: str
    words: list[str]
    text: bytes
    told_by: Optional[list[str]] = None
    varies: bool = False


# A test of a row at a place, beside its usual answer
AtPlace = Callable[[Program, Row, Answer, int], None]


# ---- what is tested at a place


def is_whole(text: bytes, cut: int) -> bool:
    """Whether the cut is behind a line, with or without its line feed."""
    return text[:cut].endswith(b"\n") or text[cut : cut + 1] in (b"", b"\n")


def tested_many(program: Program, some: bytes, whole: bool, found: Answer) -> None:
    """The answer to many swaps that are cut, of which no line behind the finish begins with another
    line."""
    last, is_headed = some.count(b"\n") + 1, b"\nfinish " in some
    if whole and is_headed:
        must(found.status in (0, 1) and not found.err, "whole lines of swaps")
        must(found == program.run(["many"], some.rstrip(b"\n")), "the last line feed of swaps")
    else:
        reasons = [b"CutShort"] * (not is_headed) + [b"BadLine %d" % last, b"NotJson %d" % last] * (not whole)
        must(found in [(3, b"", b"swap: refused: %s\n" % reason) for reason in reasons], "swaps that are cut")


def tested_cut(program: Program, row: Row, _: Answer, cut: int) -> None:
    some = row.text[:cut]
    found = program.run(row.words, some)
    if row.words == ["audit"]:
        must(found == CUT_SHORT, "a transcript that is cut")
    elif row.words == ["many"]:
        tested_many(program, some, is_whole(row.text, cut), found)
    elif is_whole(row.text, cut):
        must(found.status in (0, 1) and not found.err, "whole lines")
        must(row.varies or found == program.run(row.words, some.rstrip(b"\n")), "the last line feed")
    else:
        must(found == (3, b"", b"swap: refused: NotJson %d\n" % (some.count(b"\n") + 1)), "a line that is cut")


def tested_run_cut(program: Program, row: Row, usual: Answer, cut: int) -> None:
    """The same of a run of a job of which each event is one entry of a ledger."""
    tested_cut(program, row, usual, cut)
    if is_whole(row.text, cut):
        some = row.text[:cut].rstrip(b"\n")
        told = program.run(["run", "--transcript"], some).out
        must(told.endswith(b"\nend\n"), "the end of a transcript")
        must(told.count(b"\nt ") + told.count(b"\nc ") == some.count(b"\n"), "an entry for each event")


def tested_read(program: Program, row: Row, _: Answer, count: int) -> None:
    must(program.run_unread(row.words, row.text[:count]) == (4, b"", b"swap: read fault\n"), "a read that fails")


def tested_short_read(program: Program, row: Row, _: Answer, count: int) -> None:
    """The same behind reads that give seven bytes each."""
    must(program.run_unread(row.words, row.text[: 7 * count], 7) == (4, b"", b"swap: read fault\n"), "a short read that fails")


def tested_write(program: Program, row: Row, usual: Answer, room: int) -> None:
    found = program.run_unwritten(row.words, row.text, room)
    if row.varies:
        must((found.status, len(found.out), found.err) == (5, room, b"swap: write fault\n"), "a write of a race that fails")
        must("--transcript" not in row.words or program.run(["audit"], found.out) == CUT_SHORT, "what was written of a race")
    elif room < len(usual.out):
        must(found == (5, usual.out[:room], b"swap: write fault\n"), "a write that fails")
    else:
        must(found == usual, "a write with just the room")


# ---- places


def begun(program: Program, row: Row) -> tuple[Row, Answer]:
    """The row with its input for the text, and its usual answer."""
    if row.told_by:
        row = row._replace(text=program.run(row.told_by, row.text).out)
    usual = program.run(row.words, row.text)
    must(usual.status in (0, 1) and usual.out and not usual.err, "the usual answer: %r" % (usual.err,))
    return row, usual


def places(test: AtPlace, row: Row, usual: Answer) -> range:
    """The places of the row at which that is tested."""
    if test is tested_read:
        return range(len(row.text) + 1)
    if test is tested_short_read:
        return range(len(row.text) // 7 + 1)
    if test is tested_write:
        # (a race's lines may be shorter in the next race: the least that it can write is far above
        # its half)
        return range(len(usual.out) // 2 if row.varies else len(usual.out) + 1)
    return range(len(row.text) if row.words == ["audit"] else len(row.text) + 1)


def failures(program: Program, test: AtPlace, row: Row, usual: Answer, some: Sequence[int]) -> Iterator[str]:
    """Why it fails at some of these places."""
    for place in some:
        try:
            test(program, row, usual, place)
        except Failed as why:
            yield f"{why}, at {place}"


def must_hold(program: Program, test: AtPlace, row: Row, usual: Answer, some: Sequence[int]) -> None:
    """Tests these places, and tells the first three that fail."""
    failed = list(failures(program, test, row, usual, some))
    must(not failed, "%d of %d places: %s" % (len(failed), len(some), "; ".join(failed[:3])))


# ---- jobs

# what the seeds of the deal with timelocks give
GIVEN = (
    ',"timelock":60 =>  && ,"timelock":50 =>  && ,"timelock":40 =>  && '
    ',"hashlock":"ea381ac043404cf24964de83dde5ee9adbfcdcef2bb48271931448055eaaf421" => '
)
# of version 2, with parties that make the calls of the event lines
SECOND = (
    '"swap":1 => "swap":2 && "alice", => "alice","actor":"manual", && "bob", => "bob","actor":"manual", '
    '&& "carol", => "carol","actor":"manual",'
)
# events of parties that conform, and of parties that make calls; each is one entry of a ledger
ACTS = '{"act":"alice"}\n{"tick":2,"by":3}\n{"tick":1}\n'
CALLS = """{"call":"alice","move":{"do":"publish","arc":0}}
{"call":"bob","move":{"do":"transfer","arc":1,"to":"carol","units":2}}
{"call":"carol","move":{"do":"refund","arc":2}}
"""
# events of two swaps on shared chains
SHARED = """0 {"act":"alice"}
tick 1 7
1 {"look":"bob","arc":0}
pay 0 alice bob 0
sweep 1 0
"""
# calls of which each is refused, and has its line in the report
REFUSED = """{"call":"alice","move":{"do":"publish","arc":0}}
{"call":"carol","move":{"do":"publish","arc":1}}
{"call":"alice","move":{"do":"publish","arc":2}}
{"call":"bob","move":{"do":"publish","arc":0}}
{"call":"carol","move":{"do":"publish","arc":2}}
"""


def plain_job() -> str:
    return edited(deal("timelocks"), GIVEN)


def header_of(name: str) -> str:
    return deal(name).split("\n")[0]


def idle_job() -> str:
    """The job by hand without its events: in a race of it nobody does anything, so each race of it
    has the same text."""
    return header_of("by_hand")


def second_job() -> str:
    return edited(deal("hashkeys"), SECOND) + CALLS


def many_swaps() -> str:
    return deal("shared.many") + SHARED


def row_of(words: str, name: str, text: str, told_by: Optional[list[str]] = None, varies: bool = False) -> Row:
    return Row(words + " of " + name, words.split(), text.encode(), told_by, varies)


def rows() -> Iterator[Row]:
    """Each command that reads."""
    for words in ("check", "run", "run --transcript"):
        yield row_of(words, "by_hand", deal("by_hand"))
    yield row_of("audit", "by_hand", deal("by_hand"), told_by=["run", "--transcript"])
    yield row_of("make", "a plain job", plain_job())
    yield row_of("clear", "wishes", deal("wishes.clear"))
    yield row_of("many", "two swaps", many_swaps())
    for words in ("race --ticks 1000", "race --ticks 1000 --transcript"):
        yield row_of(words, "idle parties", idle_job())


def numbers() -> Iterator[Row]:
    for more in ("", " --summary"):
        words = "gen --seed 1 --parties 2 --events 3" + more
        yield Row(words, words.split(), b"")


def rows_of_cuts() -> Iterator[tuple[AtPlace, Row]]:
    """Each with what is tested where it is cut."""
    for name, text in (("by_hand", deal("by_hand")), ("timelocks", deal("timelocks") + ACTS), ("hashkeys", deal("hashkeys") + ACTS)):
        yield tested_run_cut, row_of("run", name, text)
    yield tested_run_cut, row_of("run", "version 2", second_job())
    for words in ("check", "race", "run --transcript"):
        yield tested_cut, row_of(words, "idle parties", idle_job())
    yield tested_cut, row_of("make", "a plain job", plain_job())
    yield tested_cut, row_of("clear", "wishes", deal("wishes.clear"))
    yield tested_cut, row_of("many", "two swaps", many_swaps())
    told = ["run", "--transcript"]
    yield tested_cut, row_of("audit", "hashkeys", deal("hashkeys") + ACTS, told_by=told)
    yield tested_cut, row_of("audit", "version 2", second_job(), told_by=told)
    yield tested_cut, row_of("audit", "a race of idle parties", idle_job(), told_by=["race", "--ticks", "1000", "--transcript"])


# ---- tests


def test_share(test: AtPlace, row: Row, share: int, of: int, program: Program) -> None:
    """Tests each place of the row whose number leaves that share."""
    row, usual = begun(program, row)
    must_hold(program, test, row, usual, places(test, row, usual)[share::of])


def test_pages(row: Row, share: int, of: int, program: Program) -> None:
    """Writes of a report of some pages fail at each 7th byte, and behind each line, where a page
    may end."""
    row, usual = begun(program, row)
    must(len(usual.out) > 4_500, "more than a page")
    some = [room for room in places(tested_write, row, usual) if room % 7 == 0 or usual.out[:room].endswith(b"\n")]
    must_hold(program, tested_write, row, usual, some[share::of])


def test_race(row: Row, program: Program) -> None:
    """Some writes of a race in which all conform fail."""
    row, usual = begun(program, row)
    must_hold(program, tested_write, row, usual, (0, 1, 100, 200, 10_000, 20_000))


def test_number(words: list[str], program: Program) -> None:
    """What is asked for by a number reads nothing."""
    usual = program.run(words, b"{")
    must(usual.status == 0 and usual.out and not usual.err, "the usual answer")
    for text in (b"", b"{"):
        must(program.run_unread(words, text) == usual, "a read that isn't made")


def test_header(header: str, program: Program) -> None:
    """A run of a header alone is unfinished."""
    unfinished = b"\nunfinished 0 height 0\nunfinished 1 height 0\nunfinished 2 height 0\nfindings 3\n"
    for text in (header, header + "\n"):
        found = program.run(["run"], text.encode())
        must(found.status == 1 and not found.err, "a header alone")
        must(found.out.startswith(b"swap report 1\n") and found.out.endswith(unfinished), "the report of a header")


def test_lines(program: Program) -> None:
    """What is made of a plain job and further lines is what is made of the job, and those lines
    behind it."""
    header = program.run(["make"], plain_job().encode()).out
    must(header.startswith(b'{"arcs":') and header.endswith(b"}\n") and header.count(b"\n") == 1, "a header")
    for lines in ("", "x", "x\n", "x\ny", "x\ny\n", "x\nyz", "x\nyz\n"):
        copied = "".join(line + "\n" for line in lines.splitlines())
        must(program.run(["make"], (plain_job() + lines).encode()) == (0, header + copied.encode(), b""), "the lines %r" % lines)


def shared(name: str, test: Callable[..., None], *given: object) -> Tests:
    """The test in three shares."""
    for share in range(3):
        yield f"{name}, share {share + 1} of 3", partial(test, *given, share, 3)


def tests() -> Tests:
    for row in rows():
        yield from shared(f"each read of {row.name} fails", test_share, tested_read, row)
        yield f"each read of 7 bytes of {row.name} fails", partial(test_share, tested_short_read, row, 0, 1)
    for row in (*rows(), *numbers()):
        yield from shared(f"each write of {row.name} fails", test_share, tested_write, row)
    long = row_of("run", "a job of many calls", deal("by_hand") + 28 * REFUSED)
    yield from shared(f"writes of {long.name} fail", test_pages, long)
    race = row_of("race --ticks 5 --transcript", "hashkeys", deal("hashkeys"), varies=True)
    yield f"writes of {race.name} fail", partial(test_race, race)
    for test, row in rows_of_cuts():
        yield from shared(f"{row.name} is cut", test_share, test, row)
    for row in numbers():
        yield f"{row.name} reads nothing", partial(test_number, row.words)
    for name in ("by_hand", "timelocks", "hashkeys"):
        yield f"the header of {name} alone is unfinished", partial(test_header, header_of(name))
    yield "the lines of a plain job are copied", test_lines
