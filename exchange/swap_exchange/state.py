"""The state of named days. Each step of a day is one transaction: a day that is killed stands between
two steps, and goes on with the next one."""
from __future__ import annotations

import json
import secrets
import zlib
from collections.abc import Iterable, Mapping, Sequence

from .database import Database, Row, StateError
from .joining import Move
from .rule import Cut
from .schema import migrate
from .thinning import Kept, Told
from .wishes import Account, Asset, Wish
from .work import HELD, PAID, Ended, FaultError, Prepared, Settled

READ, CUT, PREPARED, PACKED = "read", "cut", "prepared", "packed"
WAITING, DROPPED = "waiting", "dropped"
Key = tuple[str, str]


class State:
    """One day of a database, by its name."""

    def __init__(self, database: Database, name: str = "day") -> None:
        self.database, self.name = database, name
        migrate(database)
        self.day = next((int(it) for (it,) in database.rows("select id from day where name = ?", name)), 0)

    def rows(self, ask: str, *words: object) -> list[Row]:
        """The rows that are asked for; the first `?` stands for the day."""
        return self.database.rows(ask, self.day, *words)

    # ---- the day's steps

    def begin(self, digest: str, wishes: Sequence[Wish], accounts: Sequence[Account], inside: Mapping[str, str], assets: Iterable[Asset] = ()) -> None:
        """Writes down what the day begins with, or finds that it has begun with the same."""
        begun = self.rows("select digest from day where id = ?")
        if begun and begun != [(digest,)]:
            told = f"the state has a day {self.name!r} with other wishes, accounts, assets, times or another way"
            raise StateError(f"{told}: --day NAME begins another day beside it")
        if begun:
            return
        with self.database.step():
            self.day = 1 + max((int(it) for (it,) in self.database.rows("select id from day")), default=0)
            self.database.change("insert into day values (?, ?, ?, ?, ?)", self.day, self.name, digest, secrets.token_bytes(32), READ)
            told_wishes = [(self.day, number, it.payer, it.payee, it.units, it.asset, it.value, WAITING, "") for number, it in enumerate(wishes)]
            self.database.change_each("insert into wish values (?, ?, ?, ?, ?, ?, ?, ?, ?, null)", told_wishes)
            had = [(self.day, it.name, it.asset, it.units, it.units) for it in accounts]
            self.database.change_each("insert into account values (?, ?, ?, ?, ?)", had)
            self.database.change_each("insert into inside values (?, ?, ?)", [(self.day, *it) for it in inside.items() if it[0] != it[1]])
            self.database.change_each("insert into asset values (?, ?, ?, ?)", [(self.day, it.name, it.decimals, it.price_text) for it in assets])

    @property
    def done(self) -> str:
        """The last step that is done."""
        found = self.rows("select step from day where id = ?")
        if not found:
            raise StateError(f"the state has no day {self.name!r}")
        return str(found[0][0])

    @property
    def is_open(self) -> bool:
        """Whether there are batches to settle, or steps before."""
        return self.done != PACKED or bool(self.rows("select number from batch where day = ? and is_settled = 0 limit 1"))

    @property
    def seed(self) -> bytes:
        """What the simulator draws seeds from."""
        return bytes(self.rows("select seed from day where id = ?")[0][0])

    def decimals(self) -> dict[str, int]:
        """Behind how many digits the point of an asset's units stands, where that was told."""
        return {str(asset): int(it) for asset, it in self.rows("select asset, decimals from asset where day = ?")}

    # ---- the cut

    def kept_of(self) -> dict[int, Kept]:
        """What was kept of each part."""
        states = {int(part): bytes(it) for part, it in self.rows("select part, state from circulation where day = ?")}
        moves: dict[int, list[Move]] = {}
        ats: dict[int, int] = {}
        for part, at, told in self.rows("select part, at, moves from cutting where day = ? order by part, place"):
            moves.setdefault(part, []).extend(Move(group, tuple(wishes), merged) for group, wishes, merged in json.loads(told))
            ats[part] = int(at)
        return {part: Kept(at, states.get(part, b""), tuple(moves[part])) for part, at in ats.items()}

    def keep_told(self, part: int, told: Told) -> None:
        """Keeps what a part told."""
        with self.database.step():
            if told.state:
                self.database.change("delete from circulation where day = ? and part = ?", self.day, part)
                self.database.change("insert into circulation values (?, ?, ?)", self.day, part, told.state)
            (place,) = self.rows("select count(*) from cutting where day = ? and part = ?", part)[0]
            moves = json.dumps([(it.group, it.wishes, it.merged) for it in told.moves])
            self.database.change("insert into cutting values (?, ?, ?, ?, ?)", self.day, part, place, told.at, moves)

    def keep_cut(self, cut: Cut) -> None:
        with self.database.step():
            self.drop(cut.dropped)
            grouped = [(swap, self.day, wish) for swap, group in enumerate(cut.groups) for wish in group]
            self.database.change_each("update wish set swap = ? where day = ? and number = ?", grouped)
            self.database.change_each("insert into swap (day, number) values (?, ?)", [(self.day, swap) for swap in range(len(cut.groups))])
            for table in ("cutting", "circulation"):
                self.database.change(f"delete from {table} where day = ?", self.day)
            self.put_step(CUT)

    def put_step(self, step: str) -> None:
        self.database.change("update day set step = ? where id = ?", step, self.day)

    def drop(self, reasons: Mapping[int, str]) -> None:
        dropped = [(DROPPED, reason, self.day, wish) for wish, reason in reasons.items()]
        self.database.change_each("update wish set state = ?, reason = ? where day = ? and number = ?", dropped)

    # ---- swaps and batches

    def keep_prepared(self, told: Iterable[Prepared]) -> None:
        with self.database.step():
            self.put_prepared(told)

    def put_prepared(self, told: Iterable[Prepared]) -> None:
        """Writes down swaps that are made, in a step of the caller's."""
        for it in told:
            made = it.header, it.leaders, it.refused, self.day, it.number
            self.database.change("update swap set header = ?, leaders = ?, refused = ? where day = ? and number = ?", *made)
            if it.refused:
                dropped = DROPPED, it.refused, self.day, it.number
                self.database.change("update wish set state = ?, reason = ? where day = ? and swap = ?", *dropped)

    def keep_agreed(self, told: Prepared) -> None:
        """Writes down a swap that settles by itself, as a batch of its own, in a step of the
        caller's."""
        self.put_prepared([told])
        if not self.rows("select number from batch where day = ? and number = ?", told.number):
            self.database.change("insert into batch values (?, ?, 0)", self.day, told.number)
            self.database.change("update swap set batch = ? where day = ? and number = ?", told.number, self.day, told.number)

    def end_preparing(self) -> None:
        with self.database.step():
            self.put_step(PREPARED)

    def keep_batches(self, batches: Sequence[Sequence[int]]) -> None:
        with self.database.step():
            self.database.change_each("insert into batch values (?, ?, 0)", [(self.day, batch) for batch in range(len(batches))])
            placed = [(batch, self.day, swap) for batch, swaps in enumerate(batches) for swap in swaps]
            self.database.change_each("update swap set batch = ? where day = ? and number = ?", placed)
            self.put_step(PACKED)

    # ---- what a batch moves

    def keep_settled(self, told: Sequence[Settled]) -> None:
        """Moves what batches moved, and marks them as settled, in one step."""
        with self.database.step():
            for it in told:
                self.keep_batch(it)

    def keep_batch(self, told: Settled) -> None:
        settled = "update batch set is_settled = 1 where day = ? and number = ? and is_settled = 0"
        if self.database.change(settled, self.day, told.number) != 1:
            raise FaultError(f"batch {told.number} would be settled twice")
        swaps = [it for (it,) in self.rows("select number from swap where day = ? and batch = ? order by number", told.number)]
        if len(swaps) != len(told.swaps):
            raise FaultError(f"batch {told.number} has {len(swaps)} swaps, and {len(told.swaps)} were told")
        for swap, end in zip(swaps, told.swaps):
            self.keep_swap(swap, end)

    def keep_swap(self, swap: int, end: Ended) -> None:
        wishes = self.rows("select number, payer, payee, units, asset from wish where day = ? and swap = ? order by number", swap)
        if len(wishes) != len(end.arcs):
            raise FaultError(f"swap {swap} has {len(wishes)} wishes, and {len(end.arcs)} arcs were told")
        ends = [(state, self.day, wish) for (wish, *_), state in zip(wishes, end.arcs)]
        self.database.change_each("update wish set state = ? where day = ? and number = ?", ends)
        moved = [(-units, payer, asset) for (_, payer, _, units, asset), state in zip(wishes, end.arcs) if state in (PAID, HELD)]
        moved += [(units, payee, asset) for (_, _, payee, units, asset), state in zip(wishes, end.arcs) if state == PAID]
        change = "update account set units = units + ? where day = ? and name = ? and asset = ?"
        self.database.change_each(change, [(units, self.day, *key) for units, *key in moved])
        words = json.dumps(end.outcomes, sort_keys=True), json.dumps(end.findings), end.drawn, self.day, swap
        self.database.change("update swap set outcomes = ?, findings = ?, drawn = ? where day = ? and number = ?", *words)

    def account_for_every_unit(self) -> None:
        """Each asset has the units that it began with, in accounts or held by contracts."""
        held: dict[str, int] = {}
        for asset, units in self.rows("select asset, cast(sum(units) as bigint) from wish where day = ? and state = ? group by asset", HELD):
            held[asset] = units
        sums = self.rows("select asset, cast(sum(began) as bigint), cast(sum(units) as bigint) from account where day = ? group by asset")
        for asset, began, units in sums:
            if began != units + held.get(asset, 0):
                raise FaultError(f"{asset} began with {began} units and has {units}")

    # ---- judging

    def text_of(self, swap: int) -> tuple[str, str]:
        """The header of a swap, and the text that was kept of its end."""
        found = self.rows("select header, drawn from swap where day = ? and number = ? and drawn is not null", swap)
        if not found:
            raise StateError(f"the day has no swap {swap} that is settled")
        return str(found[0][0]), zlib.decompress(bytes(found[0][1])).decode()


def days_in(database: Database) -> list[Row]:
    """Each day's name and the last step that is done, and how many of its batches aren't settled."""
    migrate(database)
    return database.rows(
        "select name, step, (select count(*) from batch where batch.day = day.id and is_settled = 0),"
        " (select count(*) from wish where wish.day = day.id) from day order by id"
    )
