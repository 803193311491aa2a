"""Tests of many swaps whose inputs are long: the most chains, accounts, swaps, events and calls,
and one more."""
from __future__ import annotations

import sys
from functools import partial

sys.dont_write_bytecode = True
from program import Program, Tests, must
from texts import asked, deal, edited, is_wanted

FIRST, SWAP, FINISH = "swap many 1\n", "swap 0 1 2\n", "finish stop\n"


def parts() -> tuple[str, str]:
    """The lines of the chains and of the first swap, behind the first line of the stored swaps."""
    chains, _, swaps = deal("shared.many").removeprefix(FIRST).partition(SWAP)
    return chains, SWAP + swaps.partition(SWAP)[0]


def with_chains(count: int) -> str:
    """A swap on the first of so many chains."""
    chains, swap = parts()
    return FIRST + chains + (count - 3) * "chain eve 5 bob 6\n" + swap + FINISH


def with_accounts(count: int) -> str:
    """A swap whose first chain has so many accounts."""
    chains, swap = parts()
    more = "".join(f" e{number} {number}" for number in range(count - 2))
    return FIRST + edited(chains, f"bob 0 => bob 0{more}") + swap + FINISH


def with_swaps(count: int) -> str:
    """So many copies of a swap."""
    chains, swap = parts()
    units = f"alice 200 => alice {100 * count} && bob 10 => bob {5 * count} && carol 2 => carol {count}"
    return FIRST + edited(chains, units) + count * swap + FINISH


def with_events(count: int) -> str:
    """A swap, and so many ticks of a chain."""
    chains, swap = parts()
    return FIRST + chains + swap + FINISH + count * "tick 0 1\n"


def with_calls(count: int) -> str:
    """So many calls of a party by hand on one slot, and one on another of the same chain."""
    manual = '"alice","seed":"4921 => "alice","actor":"manual","seed":"4921'
    manual += ' && "alice","seed":"4315 => "alice","actor":"manual","seed":"4315'
    call = '%d {"call":"alice","move":{"do":"transfer","arc":%d,"to":"bob","units":0}}\n'
    return edited(deal("opposite.many"), manual) + count * (call % (0, 0)) + call % (1, 0)


def takes_calls(count: int, program: Program) -> None:
    """The first slot takes 32 calls of one party, whatever came on the other one."""
    lines = asked(program, ["many"], with_calls(count)).splitlines()
    must(lines.count("0 alice transfer 0 to bob: accepted") == min(count, 32) + 1, f"its lines:\n{lines}")


def tells(text: str, line: str, program: Program) -> None:
    lines = asked(program, ["many"], text).splitlines()
    must(line in lines, f"it ends:\n{lines[-5:]}")


def is_refused(text: str, reason: str, program: Program) -> None:
    is_wanted(asked(program, ["many"], text), f"swap: refused: {reason}\n")


def tests() -> Tests:
    yield "32 chains", partial(tells, with_chains(32), "chain 31 height 0 eve 5 bob 6")
    yield "33 chains", partial(is_refused, with_chains(33), "BadLine 34")
    yield "64 accounts", partial(tells, with_accounts(64), "findings 3")
    yield "65 accounts", partial(is_refused, with_accounts(65), "BadLine 2")
    yield "8 swaps", partial(tells, with_swaps(8), "swap 7")
    yield "9 swaps", partial(is_refused, with_swaps(9), "BadLine 21")
    yield "200,000 events, of which the clock takes 20,000", partial(tells, with_events(200_000), "chain 0 height 20000 alice 100 bob 0")
    yield "200,001 events", partial(is_refused, with_events(200_001), "OverLimit 200008 events 200001")
    yield "32 calls of a party on a slot", partial(takes_calls, 32)
    yield "33 calls of a party on a slot", partial(takes_calls, 33)
    yield "the last event comes before what is said of accounts", partial(
        is_refused, edited(with_events(200_001), "alice 200 => alice 99"), "OverLimit 200008 events 200001"
    )
