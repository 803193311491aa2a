"""Wishes are cut into groups: each is strongly connected, and `swap` takes it.

A strongly connected part within the limits is a group as it stands. A larger part is thinned:

1. A circulation of nearly the greatest value says which wishes to look at first.
2. Cycles are taken out, the wish of most value first, each with the shortest way back to its payer:
   first of the circulation, then of all wishes that are left.
3. The other wishes join these cycles where the limits hold, most value first.

Each search looks at a limited number of wishes, so that a day's cut takes time in proportion to its
wishes.
"""
from __future__ import annotations

from collections import defaultdict
from collections.abc import Callable, Mapping

from .components import components
from .limits import Edge, Fits, fits
from .rule import NO_CYCLE, NO_PLACE, Cut
from .thinning import Kept, Thinning, groups_of

Part = dict[int, Edge]
Thin = Callable[[list[Part]], list[list[list[int]]]]


def parts(edges: Mapping[int, Edge]) -> list[list[int]]:
    """The wishes of each strongly connected part, by the least number of a wish."""
    part_of = components(it.ends for it in edges.values())
    found: defaultdict[int, list[int]] = defaultdict(list)
    for wish in sorted(edges):
        if part_of[edges[wish].payer] == part_of[edges[wish].payee]:
            found[part_of[edges[wish].payer]].append(wish)
    return sorted(found.values())


def thinned(edges: Part, fits: Fits = fits) -> list[list[int]]:
    """The groups that are taken out of a part that is too large."""
    thinning = Thinning(edges, fits, Kept())
    for _ in thinning.run():
        pass
    return groups_of(thinning.moves)


def cut(edges: Mapping[int, Edge], fits: Fits = fits, thin: Thin | None = None) -> Cut:
    """Cuts wishes, which have numbers, into groups that fit. `thin` has the parts thinned that are
    too large."""
    dropped = dict.fromkeys(sorted(edges), NO_CYCLE)
    groups: list[list[int]] = []
    large: list[Part] = []
    for part in parts(edges):
        dropped.update(dict.fromkeys(part, NO_PLACE))
        members = {it: edges[it] for it in part}
        if fits(list(members.values())):
            groups.append(part)
        else:
            large.append(members)
    for found in thin(large) if thin else [thinned(it, fits) for it in large]:
        groups += found
    for group in groups:
        for wish in group:
            del dropped[wish]
    return Cut(tuple(tuple(it) for it in sorted(groups)), dropped)
