"""What is told of a day, as a text and as JSON."""
from __future__ import annotations

import json
from typing import Any

from .rule import RULE
from .state import DROPPED, State
from .work import HELD, PAID, RETURNED

WISH = "select number, payer, payee, units, asset, value, state, reason, swap from wish where day = ? order by number"
FIELDS = ("wish", "from", "to", "units", "asset", "value", "state", "reason", "swap")
LEFT = {RETURNED: "its swap ended without it", HELD: "its contract holds the units for good"}
Told = dict[str, Any]


def wishes_in(state: State) -> list[Told]:
    return [dict(zip(FIELDS, it)) for it in state.rows(WISH)]


def value_of(wishes: list[Told], *among: str) -> int:
    return sum(it["value"] for it in wishes if not among or it["state"] in among)


def swaps_in(state: State, wishes: list[Told]) -> list[Told]:
    members: dict[int | None, list[Told]] = {}
    for it in wishes:
        members.setdefault(it["swap"], []).append(it)
    ask = "select number, batch, leaders, outcomes, findings from swap where day = ? and refused = '' order by number"
    return [
        {
            "swap": swap,
            "batch": batch,
            "parties": len({end for it in members[swap] for end in (it["from"], it["to"])}),
            "arcs": len(members[swap]),
            "leaders": leaders,
            "value": value_of(members[swap]),
            "outcomes": json.loads(outcomes),
            "findings": json.loads(findings),
        }
        for swap, batch, leaders, outcomes, findings in state.rows(ask)
    ]


def totals_of(wishes: list[Told], swaps: list[Told]) -> Told:
    dropped = [it for it in wishes if it["state"] == DROPPED]
    reasons = sorted({it["reason"] for it in dropped})
    return {
        "users": len({end for it in wishes for end in (it["from"], it["to"])}),
        "wishes": len(wishes),
        "cleared": len(wishes) - len(dropped),
        "paid": sum(it["state"] == PAID for it in wishes),
        "value": value_of(wishes),
        "value_cleared": value_of(wishes, PAID, RETURNED, HELD),
        "value_paid": value_of(wishes, PAID),
        "dropped": {reason: sum(it["reason"] == reason for it in dropped) for reason in reasons},
        "value_dropped": {reason: sum(it["value"] for it in dropped if it["reason"] == reason) for reason in reasons},
        "swaps": len(swaps),
        "batches": len({it["batch"] for it in swaps}),
        "findings": sum(len(it["findings"]) for it in swaps),
    }


def day_of(state: State) -> Told:
    """All that is told of a day that is over."""
    wishes = wishes_in(state)
    swaps = swaps_in(state, wishes)
    accounts = state.rows("select name, asset, began, units from account where day = ? order by name, asset")
    decimals = state.decimals()
    units: dict[str, int] = {}
    for _, asset, _, had in accounts:
        units[asset] = units.get(asset, 0) + had
    return {
        "exchange": 2,
        "day": state.name,
        "rule": RULE,
        "wishes": wishes,
        "swaps": swaps,
        "accounts": [dict(zip(("name", "asset", "began", "units"), it)) for it in accounts],
        "assets": [{"asset": asset, "units": had, "decimals": decimals.get(asset, 0)} for asset, had in sorted(units.items())],
        "totals": totals_of(wishes, swaps),
    }


def share(part: int, whole: int) -> str:
    """A percentage with two digits, rounded down."""
    return f"{100 * part // whole}.{10000 * part // whole % 100:02}%" if whole else "100.00%"


def word(name: str) -> str:
    """A name as one word of a line: one with blanks or quotes as JSON."""
    return json.dumps(name, ensure_ascii=False) if set(name) & set(" \"\\") else name


def amount(units: int, decimals: int) -> str:
    """Units as people write them."""
    if not decimals:
        return str(units)
    digits = str(units).zfill(decimals + 1)
    return f"{digits[:-decimals]}.{digits[-decimals:]}"


def swap_lines(swap: Told) -> list[str]:
    outcomes = ", ".join(f"{name} {count}" for name, count in swap["outcomes"].items())
    size = f"parties {swap['parties']} arcs {swap['arcs']} leaders {swap['leaders']} value {swap['value']}"
    told = [f"swap {swap['swap']} batch {swap['batch']} {size}: {outcomes}"]
    return told + [f"finding {swap['swap']} {finding}" for finding in swap["findings"]]


def wish_line(wish: Told, decimals: dict[str, int]) -> str:
    units = amount(wish["units"], decimals[wish["asset"]])
    words = f"{wish['wish']} {word(wish['from'])} {word(wish['to'])} {units} {word(wish['asset'])} value {wish['value']}"
    return f"{wish['state']} {words}: {wish['reason'] or LEFT[wish['state']]}"


def account_line(account: Told, decimals: dict[str, int]) -> str:
    began, units = (amount(account[it], decimals[account["asset"]]) for it in ("began", "units"))
    return f"account {word(account['name'])} {word(account['asset'])} {began} -> {units}"


def total_lines(totals: Told) -> list[str]:
    told = [f"reason {count} wishes, value {totals['value_dropped'][reason]}: {reason}" for reason, count in totals["dropped"].items()]
    told.append(f"users {totals['users']} swaps {totals['swaps']} batches {totals['batches']}")
    for word in ("cleared", "paid"):
        value = totals[f"value_{word}"]
        told.append(f"{word} {totals[word]} of {totals['wishes']} wishes, value {value} of {totals['value']}, {share(value, totals['value'])}")
    return [*told, f"findings {totals['findings']}"]


def text_of(day: Told) -> str:
    decimals = {it["asset"]: it["decimals"] for it in day["assets"]}
    lines = ["exchange day 1", f"rule {day['rule']}"]
    lines += [line for it in day["swaps"] for line in swap_lines(it)]
    lines += [wish_line(it, decimals) for it in day["wishes"] if it["state"] != PAID]
    lines += [account_line(it, decimals) for it in day["accounts"]]
    lines += [f"asset {word(it['asset'])} {amount(it['units'], it['decimals'])}" for it in day["assets"]]
    return "\n".join([*lines, *total_lines(day["totals"]), ""])
