"""The lines of context that bind an arc of a deal to what the exchange says of it."""
from __future__ import annotations

import json
from collections.abc import Mapping, Sequence

from swap_party.header import compact

# The most characters of a line of context
LINE = 256


def about(arc: int, told: Mapping[str, str]) -> list[str]:
    """The lines of context of an arc: an object of JSON in ASCII, in pieces behind a + where it is
    too long for a line."""
    text, begin = compact(told), f"about {arc} "
    if len(begin + text) <= LINE:
        return [begin + text]
    room = LINE - len(begin) - 1
    return [f"{begin}+{text[at : at + room]}" for at in range(0, len(text), room)]


def told_in(lines: Sequence[str], arcs: int) -> list[dict[str, str]]:
    """What lines of context say of each arc. ValueError where they aren't lines that `about` gives,
    arc by arc."""
    texts = [""] * arcs
    for line in lines:
        _, arc, text = line.split(" ", 2)
        texts[int(arc)] += text.removeprefix("+")
    found = [json.loads(text) for text in texts]
    if lines != [line for arc, told in enumerate(found) for line in about(arc, told)] or not all(type(it) is str for told in found for it in told.values()):
        raise ValueError("the context isn't an object of texts for each arc")
    return found
