"""The operator's page of a day: one file that is searched in a browser, in which users, wishes, swaps
and their drawings lead to each other."""
from __future__ import annotations

import json
import re
from pathlib import Path

from .state import State
from .told import LEFT, Told, day_of

TEMPLATE = Path(__file__).resolve().parent / "page.html"


class Numbers(dict[str, int]):
    """A number for each text, in the order in which they are asked for."""

    def __missing__(self, text: str) -> int:
        self[text] = len(self)
        return self[text]


def told_of(day: Told, state: str) -> Told:
    """The day as the page reads it: names once each."""
    users, assets, states, reasons = Numbers(), Numbers(), Numbers(), Numbers()
    wishes = [
        (users[it["from"]], users[it["to"]], it["units"], assets[it["asset"]], it["value"], states[it["state"]],
         reasons[it["reason"] or LEFT.get(it["state"], "")], it["swap"])
        for it in day["wishes"]
    ]
    accounts = [(users[it["name"]], assets[it["asset"]], it["began"], it["units"]) for it in day["accounts"]]
    decimals = {it["asset"]: it["decimals"] for it in day["assets"]}
    return {
        "name": day["day"],
        "state": state,
        "rule": day["rule"],
        "users": list(users),
        "assets": [{"name": it, "decimals": decimals.get(it, 0)} for it in assets],
        "states": list(states),
        "reasons": list(reasons),
        "wishes": wishes,
        "accounts": accounts,
        "swaps": day["swaps"],
        "totals": day["totals"],
    }


def without_password(state: str) -> str:
    """A state's path, or its URL without the password."""
    return re.sub("^([a-z]+://[^/?@:]*):[^/?@]*@", r"\1@", state)


def page_of(state: State, path: str) -> str:
    """The page. No text of it ends the element in which the data stands."""
    told = json.dumps(told_of(day_of(state), without_password(path)), ensure_ascii=False, separators=(",", ":"))
    return TEMPLATE.read_text(encoding="utf-8").replace("@DATA@", told.replace("<", "\\u003c"))
