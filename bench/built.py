"""Programs without their proofs, of these sources and of a commit's. This tree's `.ci/unproved`
builds each, so two of them differ in their sources alone.
"""
from __future__ import annotations

import shutil
import subprocess
import sys
import tempfile
from pathlib import Path
from typing import Optional

sys.dont_write_bytecode = True
from measure import TOP

# What builds a program, beside its sources
BUILDERS = [TOP / ".ci" / name for name in ("unproved", "current.py", "kept.py", "bodies.py", "reached")]


def commit_of(word: str) -> Optional[str]:
    """The commit that a word names, if it names one."""
    told = subprocess.run(["git", "rev-parse", "--verify", "--quiet", f"{word}^{{commit}}"], cwd=TOP, capture_output=True, text=True)
    return told.stdout.strip() or None


def built(folder: Path) -> Path:
    """The program of the sources in a folder, which has what builds it."""
    ended = subprocess.run([folder / ".ci" / "unproved", "swap"])
    if ended.returncode:
        sys.exit(ended.returncode)
    return folder / "out" / "unproved" / "swap"


def is_stale(program: Path) -> bool:
    """Whether it isn't there, or what builds it has changed."""
    return not program.is_file() or any(program.stat().st_mtime < it.stat().st_mtime for it in BUILDERS)


def of_this_tree() -> Path:
    """The program of these sources."""
    program = TOP / "out" / "unproved" / "swap"
    if is_stale(program):
        program.unlink(missing_ok=True)
    return built(TOP)


def of_commit(commit: str) -> Path:
    """The program of a commit's sources, which is kept in out/against."""
    kept = TOP / "out" / "against" / commit
    if is_stale(kept):
        kept.parent.mkdir(parents=True, exist_ok=True)
        with tempfile.TemporaryDirectory(prefix="swap-against-") as room:
            packed = subprocess.run(["git", "archive", commit, "crates", "crates.txt"], cwd=TOP, stdout=subprocess.PIPE, check=True)
            subprocess.run(["tar", "x"], cwd=room, input=packed.stdout, check=True)
            (Path(room) / ".ci").mkdir()
            for it in BUILDERS:
                shutil.copy(it, Path(room) / ".ci")
            shutil.move(built(Path(room)), kept)
    return kept
