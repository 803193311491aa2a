"""Settling by the users' wallets: processes that know one seed each, on chains that lie in files.
No seed comes into this process. A swap's room keeps all that its wallets need to go on."""
from __future__ import annotations

import fcntl
import re
import time
from collections.abc import Collection, Iterator, Sequence
from contextlib import contextmanager
from functools import partial
from pathlib import Path

from swap_party import Header, Transcript
from swap_party.header import compact
from swap_party.report import Report

from .clock import Clock
from .context import about
from .limits import fits_audit
from .living import Living, started, why_ended
from .work import Batch, Ended, FaultError, Group, Placed, Prepared, Programs, RefusedError, Settled, Way, ask_swap, cleared, deal_of, ended

# What lies beside the wallets' own folders
FILES = re.compile("board|offer|context|names|start|lock|chain[0-9]+")


def by_wallets(folder: str) -> Way:
    """The way of settling that `--wallets` takes. The folder has a room for each swap."""
    return Way(fits_audit, 1, partial(prepare, folder), partial(settle, folder))


def room_of(folder: str, swap: int) -> Path:
    return Path(folder) / f"swap{swap}"


def put(path: Path, text: str) -> None:
    """Writes a file whole or not at all."""
    new = path.with_suffix(".new")
    new.write_text(text)
    new.rename(path)


# ---- a deal of everybody's rows


def prepare(folder: str, programs: Programs, group: Group) -> Prepared:
    """Makes a deal of a group by `clear`, a row of each wallet, `party deal` and `check`."""
    try:
        plain = cleared(programs, group)
        for name in filter(FILES.fullmatch, plain.parties):
            raise RefusedError(f"{name} is the name of a file in a room of wallets")
        offer = compact(plain.fields()) + "\n"
        room = opened(room_of(folder, group.number), offer, group.assets, plain.parties)
        header = agreed(programs, room, plain.parties)
        rows = [(room / "board" / f"{name}.row").read_text() for name in plain.parties]
        if header != deal_of(programs, offer, rows):
            raise RefusedError("the wallets agree to another deal")
        ask_swap(programs, ["check"], header)
    except RefusedError as why:
        return Prepared(group.number, 0, "", f"refused: {why}")
    return Prepared(group.number, len(plain.leaders), header)


def opened(room: Path, offer: str, assets: Sequence[str], names: Sequence[str]) -> Path:
    """A room with all that wallets read before they agree."""
    (room / "board").mkdir(parents=True, exist_ok=True)
    put(room / "offer", offer)
    context = [line for arc, asset in enumerate(assets) for line in about(arc, {"asset": asset, "chain": f"chain{arc}"})]
    put(room / "context", "".join(f"{line}\n" for line in context))
    put(room / "names", " ".join(names))
    for arc in range(len(assets)):
        (room / f"chain{arc}").touch()
    return room


def agreed(programs: Programs, room: Path, names: Sequence[str]) -> str:
    """The header line to which the wallets of all agree."""
    wallets = {name: started(programs, "agree", room, name) for name in names}
    try:
        while any(it.poll() is None for it in wallets.values()) and not any(it.returncode for it in wallets.values()):
            time.sleep(0.02)
        failed = [name for name, it in wallets.items() if it.returncode]
        if failed:
            told = f"the wallet of {failed[0]}: {why_ended(room, failed[0])}"
            raise RefusedError(told) if wallets[failed[0]].returncode == 3 else FaultError(told)
        headers = {it.communicate()[0].decode().strip() for it in wallets.values()}
    finally:
        for it in wallets.values():
            it.kill()
            it.wait()
    if len(headers) != 1:
        raise RefusedError("the wallets agree to different deals")
    return headers.pop()


# ---- settling


def settle(folder: str, programs: Programs, batch: Batch) -> Settled:
    """Has each swap of a batch settled by its wallets, and judged by `audit`."""
    return Settled(batch.number, tuple(settled(room_of(folder, it.number), programs, it) for it in batch.swaps))


@contextmanager
def alone_in(room: Path) -> Iterator[None]:
    """One process at a time runs a swap's clock."""
    with open(room / "lock", "w") as lock:
        fcntl.flock(lock, fcntl.LOCK_EX)
        yield


def settled(room: Path, programs: Programs, swap: Placed) -> Ended:
    deal = Header.of(swap.header)
    if not room.is_dir():
        raise FaultError(f"{room} isn't there, so the wallets of swap {swap.number} can't go on")
    with alone_in(room):
        put(room / "start", "")
        transcript = run(room, programs, deal, swap.away)
    return ended(Report.parse(ask_swap(programs, ["audit"], str(transcript))), str(transcript))


def run(room: Path, programs: Programs, deal: Header, away: Collection[str]) -> Transcript:
    """Lets the wallets and the clock run until the swap is over."""
    wallets = Living(programs, room, [it for it in deal.names if it not in away])
    try:
        clock = Clock(room, deal, wallets)
        clock.run()
    finally:
        wallets.stop()
    return clock.transcript()
