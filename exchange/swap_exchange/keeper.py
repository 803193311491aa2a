"""What the service does by itself: a day that is closed is cut, its swaps are offered to their users'
wallets, and what these did on the chains is judged."""
from __future__ import annotations

import json
import time
import urllib.error
import urllib.request
from collections import deque
from collections.abc import Callable, Collection, Mapping, Sequence
from concurrent.futures import ThreadPoolExecutor
from dataclasses import dataclass, field
from functools import partial
from threading import Event, Thread

from swap_party import Header, Plain, Report, Transcript
from swap_party.calls import entry_of
from swap_party.header import compact

from . import state as steps
from .context import about
from .day import Day, Terms, beginning, digest_of, names_of
from .limits import fits_audit
from .pool import Crew
from .progress import Progress
from .state import State
from .store import AGREE, CONTEXT, DEAL, OFFER, ROW, Store
from .tables import clipped
from .wishes import Asset, Wish
from .work import FaultError, Group, Prepared, Programs, RefusedError, Settled, Way, ask_swap, cleared, deal_of, ended

# How long a pass waits for the next one, in seconds; how many swaps are offered in one step, or looked
# at in a pass; and by how many threads
PAUSE, AT_ONCE, THREADS = 0.2, 64, 4


class Chains:
    """The chains where wallets settle, as anybody reads them."""

    def __init__(self, url: str) -> None:
        self.url = url.rstrip("/")

    def text(self, path: str) -> str:
        with urllib.request.urlopen(f"{self.url}{path}", timeout=10) as answer:
            return str(answer.read().decode())

    def transcript(self, deal: Header) -> Transcript | None:
        """What stands on the chains of a deal once all are above its horizon; None before, or where no
        wallet began it."""
        path = f"/deals/{deal.deal_id().hex()}"
        try:
            if not json.loads(self.text(path))["over"]:
                return None
        except urllib.error.HTTPError as why:
            if why.code != 404:
                raise
            return None
        texts = [self.text(f"{path}/{arc}") for arc in range(len(deal.arcs))]
        return Transcript(deal, tuple(tuple(map(entry_of, text.splitlines())) for text in texts))


@dataclass
class Offered:
    """A swap that wallets have to agree to: the customers' names by those inside, and until when."""

    names: dict[str, str]
    until: float
    leaders: int
    settles: Header | None = None
    is_fresh: bool = True


@dataclass
class Running:
    """A day that is closed and isn't over."""

    state: State
    swaps: dict[int, Offered] = field(default_factory=dict)


def context_of(wishes: Sequence[Wish]) -> str:
    """The lines of context that bind the arcs of a swap to the wishes that it settles."""
    told = [about(arc, {"asset": it.asset, "from": it.payer, "to": it.payee}) for arc, it in enumerate(wishes)]
    return "".join(f"{line}\n" for lines in told for line in lines)


def unable(programs: Programs, asked: object) -> Prepared:
    raise FaultError("the service settles by wallets alone")


Place = tuple[str, int]


class Keeper:
    """Goes on with each swap of each day that is closed. Where one fails it is tried again, and the
    others go on."""

    def __init__(
        self, store: Store, crew: Crew, chains: Chains, assets: Mapping[str, Asset], times: tuple[int, int], patience: float, progress: Progress
    ) -> None:
        self.store, self.crew, self.chains, self.assets, self.patience, self.progress = store, crew, chains, assets, patience, progress
        self.terms = Terms(*times, (), "service")
        self.days: dict[str, Running] = {}
        # (by each user the swaps that are under way, with the user's name inside)
        self.of_user: dict[str, dict[Place, tuple[str, Offered]]] = {}
        self.settling: deque[Place] = deque()
        self.is_over = Event()
        self.fault, self.faults = "", list[str]()

    def swaps_of(self, name: str) -> dict[Place, tuple[str, Offered]]:
        """The swaps of a user that are under way."""
        return dict(self.of_user.get(name, {}))

    def start(self) -> Thread:
        thread = Thread(target=self.run, daemon=True)
        thread.start()
        return thread

    def run(self) -> None:
        while not self.is_over.wait(PAUSE):
            self.tried("", self.turn)
            self.fault, self.faults = (self.faults or [""])[0], []
            if self.fault:
                self.is_over.wait(1)

    def tried(self, what: str, call: Callable[[], None]) -> bool:
        """Calls, and says whether that did well. What failed is told in the log, and is tried
        again; whoever asks for the service's health is told that there is a fault."""
        try:
            call()
        except Exception as why:
            self.faults.append(clipped(f"{what}{type(why).__name__}: {why}"))
            self.progress.log.event("fault", why=self.faults[-1])
            return False
        return True

    def turn(self) -> None:
        """Does what is due."""
        self.store.close_day(is_due=True)
        touched = self.store.take_touched()
        for day in self.store.closed_days():
            self.tried(f"day {day}: ", partial(self.go_on, day, touched))
        self.poll()
        if self.progress.metrics:
            under_way = sum(len(it.swaps) for it in self.days.values())
            self.progress.metrics.tell("swaps under way", under_way, under_way)

    def go_on(self, day: str, touched: Collection[Place]) -> None:
        if day not in self.days and not (self.store.sent_on(day) and self.begin(day)):
            self.store.end_day(day)
            return
        running, present = self.days[day], time.monotonic()
        for swap, it in list(running.swaps.items()):
            if it.settles is None and (it.is_fresh or (day, swap) in touched or present > it.until):
                it.is_fresh = not self.tried(f"swap {day}/{swap}: ", partial(self.gather, day, swap, it))
        if running.swaps:
            return
        if running.state.done != steps.PACKED:
            running.state.put_step(steps.PACKED)
        running.state.account_for_every_unit()
        self.store.end_day(day)
        self.progress.log.event("over", day=day)
        del self.days[day]

    # ---- a day's swaps

    def begin(self, day: str) -> bool:
        """Cuts a day, or goes on with it, and offers its swaps; whether it can be settled."""
        wishes = [Wish(payer, payee, units, asset, value) for _, payer, payee, units, asset, value in self.store.sent_on(day)]
        state = State(self.store.database, day)
        try:
            accounts = beginning(wishes, None)
        except RefusedError as why:
            self.progress.log.event("refused", day=day, why=str(why))
            return False
        inside = names_of(wishes, accounts)
        known = [self.assets[it] for it in sorted({wish.asset for wish in wishes}) if it in self.assets]
        state.begin(digest_of(wishes, self.terms), wishes, accounts, inside, known)
        it = Day(state, self.crew, self.terms, Way(fits_audit, 1, unable, unable), self.progress)  # type: ignore[arg-type]
        it.wishes, it.inside = wishes, inside
        if state.done == steps.READ:
            it.cut(accounts)
        groups = it.groups()
        self.progress.log.event("cut", day=day, swaps=len(groups))
        decided = {swap for (swap,) in state.rows("select swap.number from swap left join batch on swap.day = batch.day and"
                                                  " swap.batch = batch.number where swap.day = ? and (refused <> '' or is_settled = 1)")}
        names = {alias: name for name, alias in inside.items()}
        running = Running(state)
        left = [(it.group(swap, members), [wishes[number] for number in members]) for swap, members in groups.items() if swap not in decided]
        for at in range(0, len(left), AT_ONCE):
            self.offer(day, running, left[at : at + AT_ONCE], names)
        self.days[day] = running
        return True

    def offer(self, day: str, running: Running, groups: list[tuple[Group, list[Wish]]], names: Mapping[str, str]) -> None:
        """Puts the offers of swaps and their contexts where wallets fetch them."""
        with ThreadPoolExecutor(THREADS) as pool:
            plain = list(pool.map(self.cleared, (group for group, _ in groups)))
        with self.store.database.alone():
            for (group, wishes), told in zip(groups, plain):
                if isinstance(told, str):
                    running.state.put_prepared([Prepared(group.number, 0, "", told)])
                else:
                    self.store.put_answer(day, group.number, "", CONTEXT, context_of(wishes))
                    self.store.put_answer(day, group.number, "", OFFER, f"{compact(told.fields())}\n")
        until = time.monotonic() + self.patience
        for (group, _), told in zip(groups, plain):
            if isinstance(told, Plain):
                it = running.swaps[group.number] = Offered({it: names[it] for it in told.parties}, until, len(told.leaders))
                for alias, name in it.names.items():
                    self.of_user.setdefault(name, {})[day, group.number] = alias, it

    def cleared(self, group: Group) -> Plain | str:
        """A group's plain offer, or why it can't be a swap."""
        try:
            return cleared(self.crew.programs, group)
        except RefusedError as why:
            return f"refused: {why}"

    def gather(self, day: str, swap: int, it: Offered) -> None:
        """Takes rows, then agreements. Once all have agreed the swap settles."""
        running = self.days[day]
        rows, deal = self.store.answers(day, swap, ROW), self.store.answers(day, swap, DEAL).get("")
        if deal is None and len(rows) == len(it.names):
            (offer,) = self.store.answers(day, swap, OFFER).values()
            try:
                deal = deal_of(self.crew.programs, offer, [rows[name] for name in it.names]) + "\n"
            except RefusedError as why:
                running.state.keep_prepared([Prepared(swap, 0, "", f"refused: {why}")])
                self.forget(day, swap)
                return
            self.store.put_answer(day, swap, "", DEAL, deal)
        with self.store.database.alone():
            agreed = self.store.answers(day, swap, AGREE)
            why_not = self.why_not(it, agreed if deal is not None else rows, deal)
            if why_not:
                running.state.put_prepared([Prepared(swap, 0, "", why_not)])
            elif why_not == "" and deal is not None:
                running.state.keep_agreed(Prepared(swap, it.leaders, deal.strip()))
        if why_not:
            self.forget(day, swap)
        elif why_not == "" and deal is not None:
            it.settles = Header.of(deal.strip())
            self.settling.append((day, swap))

    @staticmethod
    def why_not(it: Offered, answered: Mapping[str, str], deal: str | None) -> str | None:
        """Why a swap is dropped, which is empty where all have agreed; None where it waits."""
        if deal is not None and len(answered) == len(it.names):
            return "" if len(set(answered.values())) == 1 else "its wallets agree to different deals"
        if time.monotonic() <= it.until:
            return None
        return f"no wallet of {', '.join(it.names[name] for name in it.names if name not in answered)} answered in time"

    def forget(self, day: str, swap: int) -> None:
        """The swap isn't under way any more."""
        for name in self.days[day].swaps.pop(swap).names.values():
            self.of_user[name].pop((day, swap))

    def poll(self) -> None:
        """Looks at some swaps that settle, each in its turn, and judges those that are over."""
        for _ in range(min(AT_ONCE, len(self.settling))):
            day, swap = place = self.settling.popleft()
            answered = self.tried(f"swap {day}/{swap}: ", partial(self.judge, day, swap))
            if swap in self.days[day].swaps:
                self.settling.append(place)
            if not answered:
                # (chains that don't answer aren't waited for once for each swap)
                return

    def judge(self, day: str, swap: int) -> None:
        header = self.days[day].swaps[swap].settles
        transcript = self.chains.transcript(header) if header else None
        if transcript is None:
            return
        report = Report.parse(ask_swap(self.crew.programs, ["audit"], str(transcript)))
        self.days[day].state.keep_settled([Settled(swap, (ended(report, str(transcript)),))])
        self.forget(day, swap)
        self.progress.log.event("settled", day=day, swap=swap, findings=len(report.findings))
