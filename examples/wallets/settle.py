#!/usr/bin/env python3
"""Settles a swap: a chain for each arc, a wallet in a process of its own for each party, and a
clock that lets the heights rise.

The first line of JOB is an offer, or a made one. Where it tells a party's seed, that goes to its
own wallet's folder and nowhere else, and any other wallet draws one. The wallets make the deal
themselves. At the end the chains' histories go to `swap audit`, whose report is written. --kills
kills wallets by SIGKILL at any moment and starts them again.

The clock keeps what a wallet is promised: no chain rises by more than delta above the least height
at which a wallet next to it came to rest. --late NAME breaks that for one party, whose wallet
sleeps until its first publish is late. --walks NAME has one walk away at some moment.
"""
from __future__ import annotations

import argparse
import json
import os
import random
import secrets
import select
import signal
import subprocess
import sys
import tempfile
import time
from pathlib import Path
from typing import Any

sys.dont_write_bytecode = True
HERE = os.path.dirname(os.path.abspath(__file__))
SWAP = os.environ.get("SWAP", os.path.join(HERE, "..", "..", "swap"))
import wallet  # noqa: E402
from chain import Chain  # noqa: E402

from swap_party import Header, Transcript  # noqa: E402


# What a plain offer tells of each member of a list, without seeds
OFFERED = {"parties": ("name",), "arcs": ("from", "to", "amount"), "leaders": ("party",)}


def offer_of(job: str) -> tuple[dict[str, Any], dict[str, bytes]]:
    """The offer of a job's header without seeds, and each party's seed: its own, or a fresh one."""
    header = json.loads(job)
    seeds = {it["name"]: bytes.fromhex(it["seed"]) if "seed" in it else secrets.token_bytes(32) for it in header["parties"]}
    offer = {field: header[field] for field in ("swap", "mode", "start", "delta", "bound")}
    for field, names in OFFERED.items():
        offer[field] = [{name: it[name] for name in names} for it in header[field]]
    return offer, seeds


class Living:
    """A wallet's process, and the least height at which it last came to rest."""

    def __init__(self, folder: str, name: str, twice: bool) -> None:
        self.words, self.rested = (folder, name, twice), 0
        self.pid: int | None = None
        self.heights: dict[int, int] = {}
        self.agreed = False
        self.start()

    def start(self) -> None:
        """A process of its own, which tells its rests by a pipe."""
        self.heard, telling = os.pipe()
        self.text = b""
        self.pid = os.fork()
        if self.pid == 0:
            os.close(self.heard)
            try:
                wallet.live(*self.words, lambda line: os.write(telling, f"{line}\n".encode()))
            except BaseException as why:
                os.write(2, f"{self.words[1]}: {why!r}\n".encode())
            os._exit(1)
        os.close(telling)

    def kill(self) -> None:
        assert self.pid
        os.kill(self.pid, signal.SIGKILL)
        os.waitpid(self.pid, 0)
        os.close(self.heard)
        self.pid = None

    def hear(self) -> None:
        """Takes what it told. Only a whole line counts."""
        told = os.read(self.heard, 1 << 16)
        if not told:
            raise ChildProcessError(f"the wallet of {self.words[1]} ended by itself")
        self.text += told
        *lines, self.text = self.text.split(b"\n")
        self.agreed |= b"agreed" in lines
        for line in (it for it in lines if it != b"agreed"):
            self.heights = {int(arc): int(height) for arc, height in (it.split(":") for it in line.decode().split(" "))}
            self.rested = min(self.heights.values())


class Swap:
    def __init__(self, job: str, room: str, chance: random.Random, twice: str | None = None) -> None:
        self.chance, self.room, self.killed = chance, room, 0
        offer, seeds = offer_of(job)
        self.put("offer", f"{json.dumps(offer)}\n")
        self.put("context", "".join(f"about {arc} chain{arc}, a file\n" for arc in range(len(offer["arcs"]))))
        self.put("names", " ".join(seeds))
        self.put("board/nothing", "")
        for arc in range(len(offer["arcs"])):
            self.put(f"chain{arc}", "")
        for name, seed in seeds.items():
            self.put(f"{name}/seed", f"{seed.hex()}\n")
        self.wallets = [Living(room, name, name == twice) for name in seeds]
        rows = [wallet.awaited(Path(room) / "board" / f"{name}.row") for name in seeds]
        self.deal = Header.of(wallet.answering().deal(f"{json.dumps(offer)}\n", rows).rstrip("\n"))
        self.chains = [Chain(room, self.deal, arc) for arc in range(len(self.deal.ends))]

    def begin(self, late: str | None) -> None:
        """The moment of height 0, once all agreed. One that is late falls asleep before."""
        while not all(it.agreed for it in self.wallets):
            self.hear(0.01)
        if late:
            self.wallets[self.deal.names.index(late)].kill()
        self.put("start", "")

    def put(self, name: str, text: str) -> None:
        path = os.path.join(self.room, name)
        os.makedirs(os.path.dirname(path), exist_ok=True)
        with open(path, "w") as file:
            file.write(text)

    def hear(self, wait: float) -> None:
        heard = {it.heard: it for it in self.wallets if it.pid}
        for it in select.select(list(heard), [], [], wait)[0]:
            heard[it].hear()

    def room_for(self, arc: int, late: str | None) -> int:
        """By how much the arc's chain may rise."""
        ends = [self.wallets[party] for party in self.deal.ends[arc] if self.deal.names[party] != late]
        return min([it.rested + self.deal.delta for it in ends], default=self.chains[arc].height + 1) - self.chains[arc].look().height

    def tick(self, late: str | None = None) -> None:
        """Lets a chain rise, if one may."""
        may = [arc for arc in range(len(self.chains)) if self.chains[arc].height <= self.deal.horizon and self.room_for(arc, late) > 0]
        if may:
            arc = self.chance.choice(may)
            self.chains[arc].tick(self.chance.randint(1, self.room_for(arc, late)))

    def kill(self, kills: int) -> None:
        """Kills one, so many times at most, or starts one again; none that presents twice, which
        may not do it if it is killed in between."""
        it = self.chance.choice([it for it in self.wallets if not it.words[-1]])
        if it.pid is None:
            it.start()
        elif self.killed < kills and self.chance.random() < 0.1:
            self.killed += 1
            it.kill()

    def is_over(self) -> bool:
        return all(chain.look().height > self.deal.horizon for chain in self.chains)

    def walk(self, name: str) -> None:
        """Tells a wallet to walk away, at some moment before the contracts open."""
        if self.chance.random() < 0.02 or min(chain.height for chain in self.chains) > self.deal.start:
            self.put(f"{name}/walk", "")

    def settle(self, kills: int = 0, late: str | None = None, walks: str | None = None, most: float = 300) -> None:
        """Lets the swap run to its end, for which it has so many seconds."""
        begun = time.monotonic()
        self.begin(late)
        if late:
            self.sleep(self.wallets[self.deal.names.index(late)], late)
        while not self.is_over():
            if walks:
                self.walk(walks)
            self.kill(kills)
            self.tick()
            self.hear(0.004 * self.chance.random())
            if time.monotonic() - begun > most:
                raise TimeoutError(f"no end after {most} s: {[chain.height for chain in self.chains]}")
        for it in self.wallets:
            if not it.pid:
                it.start()
        while any(it.rested <= self.deal.horizon for it in self.wallets):
            self.hear(0.01)
            if time.monotonic() - begun > most:
                raise TimeoutError("a wallet didn't come to rest")

    def ready(self, me: int) -> int | None:
        """The height from which its publishes are asked for, or one above it: 0 where it leads,
        else where all contracts that enter stand, if they do."""
        if self.deal.names[me] in [it.party for it in self.deal.leaders]:
            return 0
        entering = [self.chains[arc].look() for arc, ends in enumerate(self.deal.ends) if ends[1] == me]
        return max(chain.height for chain in entering) if all(chain.contract.published for chain in entering) else None

    def sleep(self, it: Living, late: str) -> None:
        """The wallet sleeps until its leaving chain stands more than delta above what asked for its
        publish."""
        me = self.deal.names.index(late)
        arc = next(arc for arc, ends in enumerate(self.deal.ends) if ends[0] == me)
        ready = self.ready(me)
        while ready is None or self.chains[arc].look().height <= ready + self.deal.delta:
            self.tick(late)
            self.hear(0.004 * self.chance.random())
            ready = self.ready(me) if ready is None else ready
        it.rested = min(self.chains[arc].height for arc, ends in enumerate(self.deal.ends) if me in ends)
        it.start()

    def stop(self) -> None:
        for it in self.wallets:
            if it.pid:
                it.kill()

    def transcript(self) -> Transcript:
        return Transcript(self.deal, tuple(tuple(chain.look().entries) for chain in self.chains))

    def audit(self) -> tuple[int, str, str]:
        """The status, the report, and what was told."""
        ended = subprocess.run([SWAP, "audit"], input=str(self.transcript()), capture_output=True, text=True, env={**os.environ, "SWAP_PLAIN": "1"})
        return ended.returncode, ended.stdout, ended.stderr


def settled(
    job: str, chance: random.Random, kills: int = 0, late: str | None = None, twice: str | None = None, walks: str | None = None
) -> tuple[int, str, str]:
    """The audit of a swap that was settled."""
    with tempfile.TemporaryDirectory(prefix="wallets-", dir="/dev/shm" if os.path.isdir("/dev/shm") else None) as room:
        swap = Swap(job, room, chance, twice)
        try:
            swap.settle(kills, late, walks)
        finally:
            swap.stop()
        return swap.audit()


def build(program: str) -> None:
    """Has a script that builds its program do so, before any clock runs."""
    print(f"settle: {os.path.basename(program)} is built now, if it isn't yet: a minute or two", file=sys.stderr, flush=True)
    environment = {**os.environ, "SWAP_WAIT": "1", "SWAP_PLAIN": "1"}
    ended = subprocess.run([program], stdin=subprocess.DEVNULL, capture_output=True, text=True, env=environment)
    if ended.returncode != 2:
        raise SystemExit(ended.stderr.strip())


def words() -> argparse.Namespace:
    """What the words ask for; `--help` tells this file's first lines."""
    parser = argparse.ArgumentParser(usage="settle.py [--kills] [--seed S] [--late NAME | --twice NAME | --walks NAME] < JOB",
                                     description=__doc__, formatter_class=argparse.RawDescriptionHelpFormatter)
    parser.add_argument("--kills", action="store_true", help="kill wallets at any moment, and start them again")
    parser.add_argument("--seed", default="0", help="what chance begins with")
    one = parser.add_mutually_exclusive_group()
    one.add_argument("--late", metavar="NAME", help="whose wallet sleeps until its first publish is late")
    one.add_argument("--twice", metavar="NAME", help="whose wallet presents each call twice")
    one.add_argument("--walks", metavar="NAME", help="who walks away at some moment")
    return parser.parse_args()


def main() -> int:
    asked = words()
    job = sys.stdin.readline()
    build(wallet.PARTY)
    build(SWAP)
    print("settle: the wallets settle until their chains stand above the swap's horizon: some seconds", file=sys.stderr, flush=True)
    chance = random.Random(asked.seed)
    status, report, told = settled(job, chance, 6 if asked.kills else 0, asked.late, asked.twice, asked.walks)
    sys.stdout.write(report)
    sys.stderr.write(told)
    return status


if __name__ == "__main__":
    sys.exit(main())
