"""The wishes that are looked at first: those of a circulation of nearly the greatest value, in which
each user is paid as often as it pays."""
from __future__ import annotations

import zlib
from collections.abc import Sequence

import numpy

from .limits import Edge

# How many steps are taken towards the optimum
STEPS = 300


class Circulation:
    """The steps that lead to it, which can be written down between any two.

    The greatest circulation is a linear programme: a variable from 0 to 1 for each wish, and for each
    user as much that enters as leaves. Steps of the primal-dual method (Chambolle and Pock, 2011) lead
    towards it, each in time linear in the wishes. What they add up is added in one order, so that equal
    wishes give equal answers.
    """

    def __init__(self, edges: Sequence[Edge], kept: bytes = b"") -> None:
        payers = numpy.array([it.payer for it in edges])
        payees = numpy.array([it.payee for it in edges])
        users, places = numpy.unique(numpy.concatenate([payers, payees]), return_inverse=True)
        self.payer, self.payee, self.users = places[: len(edges)], places[len(edges) :], len(users)
        values = numpy.array([float(it.value) for it in edges])
        self.values = values / max(1.0, float(numpy.median(values)))
        self.rate = 1.0 / numpy.bincount(places, minlength=self.users)
        self.done, self.taken, self.prices = 0, numpy.full(len(edges), 0.5), numpy.zeros(self.users)
        if kept:
            told = numpy.frombuffer(zlib.decompress(kept))
            self.done, self.taken, self.prices = int(told[0]), told[1 : 1 + len(edges)], told[1 + len(edges) :].copy()

    def step(self) -> None:
        before = self.taken
        self.taken = numpy.clip(before + 0.5 * (self.values - self.prices[self.payer] + self.prices[self.payee]), 0.0, 1.0)
        ahead = 2.0 * self.taken - before
        leaving, entering = (numpy.bincount(it, ahead, self.users) for it in (self.payer, self.payee))
        self.prices += self.rate * (leaving - entering)
        self.done += 1

    def kept(self) -> bytes:
        """What is needed to go on from here."""
        return zlib.compress(numpy.concatenate([[float(self.done)], self.taken, self.prices]).tobytes(), 1)

    def chosen(self) -> list[bool]:
        """Which of the wishes belong to it."""
        return [bool(it) for it in self.taken > 0.5]
