"""Runs with crashes beside the same runs without: a crash costs nothing but the act that it stops.

Passes go over the parties, in each of which a party looks at each arc that touches it, or crashes,
and then acts; a fair finish follows. Where everybody crashes before each act, the report is that of
the run in which nobody does. Where a party crashes in place of looking, what it knows then is the
same. The rows of `tables/crashes.txt` have what differs: an act that is stopped, and a hashkey that
is kept.
"""
from __future__ import annotations

import json
import sys
from functools import partial
from typing import Any, Callable, Dict, List

sys.dont_write_bytecode = True
from program import Program, Tests, must
from texts import asked, deal, is_wanted

Event = Dict[str, Any]
# The events before an act of the party of a name, in a job of that header
Before = Callable[[Dict[str, Any], str], List[Event]]

DEALS = "hashkeys", "timelocks", "twice", "two_leaders"
STOPS = [(after, image) for after in range(4) for image in (0, 1, 7, 255)]
PASSES = 6


def crash(name: str, stop: tuple[int, int]) -> Event:
    return {"crash": name, "after": stop[0], "image": stop[1]}


def looks(header: dict[str, Any], name: str) -> list[Event]:
    """The looks of a party at each arc that touches it."""
    return [{"look": name, "arc": arc} for arc, ends in enumerate(header["arcs"]) if name in (ends["from"], ends["to"])]


def job(header: dict[str, Any], before_act: Callable[[str], list[Event]]) -> str:
    """The deal with a fair finish after passes, in which these events come before an act of the
    party of a name."""
    names = [party["name"] for party in header["parties"]]
    events = [event for _ in range(PASSES) for name in names for event in [*before_act(name), {"act": name}]]
    return "".join(json.dumps(each) + "\n" for each in [header | {"finish": "fair"}, *events])


def test_same(of: str, before_act: Before, other: Before, program: Program) -> None:
    """The report of a run is the same with either events before each act, and all is dealt."""
    header = json.loads(deal(of))
    report = asked(program, ["run"], job(header, partial(other, header)))
    must(report.startswith("done\n") and report.count(": Deal\n") == len(header["parties"]), f"without crashes:\n{report}")
    is_wanted(asked(program, ["run"], job(header, partial(before_act, header))), report)


def test_in_acts(of: str, stop: tuple[int, int], program: Program) -> None:
    test_same(of, lambda header, name: [*looks(header, name), crash(name, stop)], looks, program)


def test_for_looks(of: str, stop: tuple[int, int], program: Program) -> None:
    test_same(of, lambda header, name: [crash(name, stop)], looks, program)


def tests() -> Tests:
    for of in DEALS:
        for stop in STOPS:
            yield f"crashes of {of}: everybody in each act, {stop}", partial(test_in_acts, of, stop)
            yield f"crashes of {of}: in place of looks, {stop}", partial(test_for_looks, of, stop)
