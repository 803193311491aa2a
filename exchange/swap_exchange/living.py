"""The wallets of a swap: a process for each user, which is started again where it ends."""
from __future__ import annotations

import os
import subprocess
import sys
from collections.abc import Iterable
from pathlib import Path

from .work import FaultError, Programs, last_line

WALLET = Path(__file__).resolve().parent.parent / "users_wallet"
# How often wallets of one swap may end before that is a fault
RESTARTS = 20


def started(programs: Programs, word: str, room: Path, name: str) -> subprocess.Popen[bytes]:
    """A wallet's process. What it tells of faults goes to its own folder."""
    words = [sys.executable, str(WALLET), word, str(room), name]
    (room / name).mkdir(mode=0o700, exist_ok=True)
    with open(room / name / "told", "wb") as told:
        environment = {**os.environ, "PARTY": programs.party, "SWAP_PARTY_LIBRARY": programs.library}
        return subprocess.Popen(words, stdin=subprocess.DEVNULL, stdout=subprocess.PIPE, stderr=told, env=environment)


def why_ended(room: Path, name: str) -> str:
    """The last line that a wallet told."""
    return last_line((room / name / "told").read_text(errors="replace"))


class Living:
    """The wallets that turned up."""

    def __init__(self, programs: Programs, room: Path, names: Iterable[str]) -> None:
        self.programs, self.room, self.restarts = programs, room, 0
        self.processes: dict[str, subprocess.Popen[bytes]] = {}
        for name in names:
            self.start(name)

    def start(self, name: str) -> None:
        self.processes[name] = started(self.programs, "live", self.room, name)

    def outputs(self) -> dict[int, str]:
        """The file of each wallet's output, with its name."""
        return {it.stdout.fileno(): name for name, it in self.processes.items() if it.stdout is not None}

    def again(self, name: str) -> None:
        """Starts a wallet that ended."""
        self.processes[name].communicate()
        self.restarts += 1
        if self.restarts > RESTARTS:
            raise FaultError(f"{self.room}: the wallet of {name} ended by itself: {why_ended(self.room, name)}")
        self.start(name)

    def stop(self) -> None:
        for it in self.processes.values():
            it.kill()
            it.communicate()
