"""What `clear` makes of wishes: what is left out, and a plain offer for each group of parties."""
from __future__ import annotations

from collections.abc import Iterator
from dataclasses import dataclass

from .header import compact, json_object, list_in, number_in, only, text_in
from .lines import Lines, demand, fixed, joined, name, number

FIRST = "swap cleared 1"
FIELDS = ("arcs", "bound", "delta", "leaders", "mode", "parties", "start", "swap")


@dataclass(frozen=True)
class LeftOut:
    """An arc that lies on no cycle, and what its counterparty reaches: no arc leaves those."""

    arc: int
    closed: tuple[str, ...]

    @classmethod
    def of(cls, line: str) -> LeftOut:
        arc, closed = fixed(line.split(" "), "left", "out", None, "closed", None)
        return cls(number(arc), tuple(map(name, closed.split(","))))

    def __str__(self) -> str:
        return f"left out {self.arc} closed {','.join(self.closed)}"


@dataclass(frozen=True)
class Transfer:
    party: str
    counterparty: str
    amount: int


@dataclass(frozen=True)
class Plain:
    """A plain offer without seeds. With a seed for each party it is what `make` reads."""

    start: int
    delta: int
    bound: int
    parties: tuple[str, ...]
    arcs: tuple[Transfer, ...]
    leaders: tuple[str, ...]

    @classmethod
    def of(cls, line: str) -> Plain:
        fields = json_object(line)
        only(fields, set(FIELDS), "the offer")
        demand(fields.get("mode") == "hashkeys" and fields.get("swap") == 2, "the offer is one of version 2 with hashkeys")
        for it in list_in(fields, "parties", 2, 32):
            only(it, {"name"}, "a party")
        for it in list_in(fields, "leaders", 1, 8):
            only(it, {"party"}, "a leader")
        plain = cls(
            number_in(fields, "start", 1, 1000),
            number_in(fields, "delta", 1, 100),
            number_in(fields, "bound", 1, 64),
            tuple(name(text_in(it, "name")) for it in fields["parties"]),
            tuple(map(transfer_of, list_in(fields, "arcs", 2, 128))),
            tuple(text_in(it, "party") for it in fields["leaders"]),
        )
        demand(str(plain) == line, "the offer isn't spelled as `clear` writes it")
        return plain

    def with_seeds(self, seeds: dict[str, bytes], actors: dict[str, object] | None = None) -> str:
        """The line that `make` reads, with the parties' seeds, and with actors where there are
        some."""
        parties: list[dict[str, object]] = [{"name": it, "seed": seeds[it].hex()} for it in self.parties]
        for party in parties:
            if actors and party["name"] in actors:
                party["actor"] = actors[str(party["name"])]
        return compact({**self.fields(), "parties": parties})

    def fields(self) -> dict[str, object]:
        return {
            "swap": 2,
            "mode": "hashkeys",
            "start": self.start,
            "delta": self.delta,
            "bound": self.bound,
            "parties": [{"name": it} for it in self.parties],
            "arcs": [{"from": it.party, "to": it.counterparty, "amount": it.amount} for it in self.arcs],
            "leaders": [{"party": it} for it in self.leaders],
        }

    def __str__(self) -> str:
        return compact(self.fields())


def transfer_of(fields: dict[str, object]) -> Transfer:
    only(fields, {"from", "to", "amount"}, "an arc")
    return Transfer(name(text_in(fields, "from")), name(text_in(fields, "to")), number_in(fields, "amount", 1, 10**12))


@dataclass(frozen=True)
class Group:
    """A swap of parties that reach each other, and for each leader a cycle that holds no other
    one."""

    cycles: tuple[tuple[str, ...], ...]
    plain: Plain

    @classmethod
    def read(cls, lines: Lines, group: int) -> Group:
        lines.exactly(f"group {group}")
        cycles = []
        while lines.begins("cycle"):
            cycles.append(lines.read(cycle_of))
        return cls(tuple(cycles), lines.read(Plain.of))

    def lines(self, group: int) -> Iterator[str]:
        yield f"group {group}"
        yield from (f"cycle {','.join(cycle)}" for cycle in self.cycles)
        yield str(self.plain)


def cycle_of(line: str) -> tuple[str, ...]:
    return tuple(map(name, fixed(line.split(" "), "cycle", None)[0].split(",")))


@dataclass(frozen=True)
class Cleared:
    left_out: tuple[LeftOut, ...]
    groups: tuple[Group, ...]

    @classmethod
    def parse(cls, text: str | bytes) -> Cleared:
        lines = Lines(text)
        left_out: list[LeftOut] = []
        groups: list[Group] = []
        lines.exactly(FIRST)
        while lines.begins("left"):
            left_out.append(lines.read(LeftOut.of))
        while lines.begins("group"):
            groups.append(Group.read(lines, len(groups)))
        lines.end()
        return cls(tuple(left_out), tuple(groups))

    def lines(self) -> Iterator[str]:
        yield FIRST
        yield from map(str, self.left_out)
        for number_, group in enumerate(self.groups):
            yield from group.lines(number_)

    def __str__(self) -> str:
        return joined(self.lines())
