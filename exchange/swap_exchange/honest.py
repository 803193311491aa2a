"""What a wallet checks of what an exchange tells it, before it shows anything of a seed."""
from __future__ import annotations

import json
from collections.abc import Iterable, Mapping, Sequence
from typing import Any

from swap_party import Row
from swap_party.header import json_object
from swap_party.lines import NAME, WordError

from .context import told_in
from .tables import RuleError, clipped, id_of, members_of


class LieError(Exception):
    """What the exchange tells can't be true, or isn't what the owner wished."""

    def __init__(self, why: str) -> None:
        super().__init__(clipped(why, 150))


def honest(holds: object, why: str) -> None:
    if not holds:
        raise LieError(why)


def object_in(text: str) -> dict[str, Any]:
    """The JSON object that an exchange answers."""
    try:
        found = json.loads(text, object_pairs_hook=members_of)
    except (ValueError, RecursionError):
        raise LieError("the exchange answers what is no JSON") from None
    honest(isinstance(found, dict), "the exchange answers no JSON object")
    return dict(found)


def member(told: Mapping[str, Any], name: str, kind: type) -> Any:
    honest(type(told.get(name)) is kind, f"the exchange tells no {name!r}")
    return told[name]


def swaps_in(text: str) -> list[tuple[str, str]]:
    """The key of each swap of the owner, and the owner's name inside."""
    found = []
    for it in member(object_in(text), "swaps", list):
        honest(isinstance(it, dict), "the exchange tells a swap of no form")
        day, swap, name = member(it, "day", str), member(it, "swap", int), member(it, "name", str)
        honest(NAME.fullmatch(day) and 0 <= swap < 2**32 and NAME.fullmatch(name), "the exchange tells a swap of no form")
        found.append((f"{day}/{swap}", name))
    return found


def texts_in(told: Mapping[str, Any]) -> dict[str, str]:
    """What each party of a swap answered."""
    found: dict[str, str] = member(told, "texts", dict)
    honest(all(isinstance(it, str) for it in found.values()), "the exchange tells an answer that is no text")
    return found


def context_of(text: str, arcs: int) -> list[dict[str, str]]:
    """What is said of each arc: its asset, who pays, and whom."""
    try:
        found = told_in(text.splitlines(), arcs)
        honest(all(set(it) == {"asset", "from", "to"} for it in found), "an arc has another context")
        honest(all(word == id_of(word, "a name") for it in found for word in it.values()), "an arc has another context")
    except (ValueError, IndexError, RecursionError, AttributeError, RuleError):
        raise LieError("an arc has another context") from None
    return found


def plain_of(offer: str) -> tuple[list[str], list[tuple[str, str, int]]]:
    """The parties of an offer's line, and who pays whom how many units on each arc."""
    try:
        plain = json_object(offer.strip())
        return [str(it["name"]) for it in plain["parties"]], [(str(it["from"]), str(it["to"]), int(it["amount"])) for it in plain["arcs"]]
    except (WordError, LookupError, TypeError, ValueError):
        raise LieError("the offer is no plain offer") from None


def used_wishes(owner: str, name: str, offer: str, context: str, free: Iterable[tuple[str, str, int, str]]) -> list[str]:
    """The marks of the wishes that an offer has the owner pay, each by one arc."""
    honest(name == owner if NAME.fullmatch(owner) else name.startswith("_"), f"the exchange calls {owner} {name}")
    names, arcs = plain_of(offer)
    honest(name in names, f"{name} isn't in the swap")
    told = context_of(context, len(arcs))
    left, used = list(free), []
    for arc, ((payer, payee, amount), it) in enumerate(zip(arcs, told)):
        honest((payee == name) == (it["to"] == owner), f"arc {arc} pays {payee}, and its context says {it['to']}")
        honest((payer == name) == (it["from"] == owner), f"arc {arc} is paid by {payer}, and its context says {it['from']}")
        if payer == name:
            found = next((wish for wish in left if wish[1:] == (it["to"], amount, it["asset"])), None)
            if found is None:
                raise LieError(f"no free wish of {owner} pays {it['to']} {amount} {it['asset']}")
            left.remove(found)
            used.append(found[0])
    honest(used, f"{owner} would pay nothing")
    return used


def in_order(offer: str, name: str, row: str, texts: Mapping[str, str]) -> Sequence[str]:
    """Everybody's rows in the order of the parties, with the own one among them."""
    honest(texts.get(name) == row, "the exchange tells another row than the one that was sent")
    names, _ = plain_of(offer)
    honest(sorted(texts) == sorted(names), "the rows are those of others")
    try:
        honest(all(Row.parse(text).name == it for it, text in texts.items()), "a row is another one's")
    except ValueError:
        raise LieError("a row isn't of the form") from None
    return [texts[it] for it in names]
