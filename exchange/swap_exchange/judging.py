"""Swaps of a state are judged again, and drawn, by their transcripts."""
from __future__ import annotations

import subprocess
import sys
from pathlib import Path

from swap_party import Report
from swap_party.header import compact, json_object

from .state import State
from .work import ENVIRONMENT, FaultError, Programs, ask_swap

SHOW = Path(__file__).resolve().parent.parent.parent / "page" / "show"
FIRST = "swap transcript 1"


def transcript_of(state: State, swap: int, programs: Programs) -> str:
    """A swap's transcript: the one that its wallets left, or that of the job by which it was
    simulated."""
    header, text = state.text_of(swap)
    if text.startswith(FIRST):
        return text
    return ask_swap(programs, ["run", "--transcript"], compact({**json_object(header), "finish": "fair"}) + "\n")


def judged_again(state: State, swap: int, programs: Programs) -> list[str]:
    """What is found where a swap's transcript is audited again, and where that isn't what was kept."""
    _, text = state.text_of(swap)
    report = Report.parse(ask_swap(programs, ["audit"], transcript_of(state, swap, programs)))
    kept = report if text.startswith(FIRST) else Report.parse(text)
    findings = list(map(str, report.findings))
    if [it.balances for it in report.ledgers] != [it.balances for it in kept.ledgers]:
        findings.append("another end than the one that was kept")
    return findings


def drawn(state: State, swap: int, programs: Programs) -> str:
    """The page that draws a swap of the day, with its transcript."""
    text = transcript_of(state, swap, programs)
    words = [sys.executable, str(SHOW), "--program", programs.swap]
    done = subprocess.run(words, input=text.encode(), capture_output=True, check=False, env=ENVIRONMENT)
    if done.returncode != 0:
        raise FaultError(f"page/show ended with status {done.returncode}: {done.stderr.decode(errors='replace').strip()}")
    return done.stdout.decode()
