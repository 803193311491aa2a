"""Runs small programs in a throw-away copy of the repository, of which nothing stays.

Only a proved program is built as users run it, so `output` proves the program and what it stands
on; `rt` takes over what it has kept of the libraries on this machine. In the folder of `copied`
anything else may be run.
"""
from __future__ import annotations

import shutil
import subprocess
import sys
import tempfile
from contextlib import contextmanager
from pathlib import Path
from typing import Iterator, Mapping

TOP = Path(__file__).resolve().parent.parent


def listed() -> dict[str, list[str]]:
    """The crates of crates.txt, each with its line: its name with what is said of it, and the names
    of the libraries that it stands on."""
    lines = (TOP / "crates.txt").read_text().splitlines()
    parts = [line.split(":") for line in lines if line.strip() and line[0] != "#"]
    return {name.split()[0]: [name, *libraries.split()] for name, libraries in parts}


def below(name: str, crates: Mapping[str, list[str]]) -> dict[str, str]:
    """The lines of the crates that the crate stands on, and its own, in their order."""
    used: set[str] = set()
    ways = [name]
    while ways:
        crate = ways.pop()
        if crate in crates and crate not in used:
            used.add(crate)
            ways += crates[crate][1:]
    return {crate: f"{head}: {' '.join(libraries)}\n" for crate, (head, *libraries) in crates.items() if crate in used}


@contextmanager
def copied(name: str, libraries: str, files: Mapping[str, str]) -> Iterator[Path]:
    """The folder of a crate that has these files and uses these libraries, beside a copy of each
    crate that it stands on."""
    used = below(name, {**listed(), name: [name, *libraries.split()]})
    with tempfile.TemporaryDirectory(prefix="swap-bench-") as folder:
        top = Path(folder)
        for crate in used:
            if crate != name:
                skip = shutil.ignore_patterns("out", "must-fail")
                shutil.copytree(TOP / "crates" / crate, top / "crates" / crate, ignore=skip)
        shutil.copy(TOP / "HANDLES", top)
        (top / "crates.txt").write_text("".join(used.values()))
        own = top / "crates" / name
        for path, text in files.items():
            (own / path).parent.mkdir(parents=True, exist_ok=True)
            (own / path).write_text(text)
        subprocess.run(["git", "init", "-q", top], check=True)
        yield own


def output(name: str, libraries: str, files: Mapping[str, str]) -> str:
    """What the program prints, whose crate has these files and uses these libraries."""
    with copied(name, libraries, files) as crate:
        built = subprocess.run(["rt", "run"], cwd=crate, stdin=subprocess.DEVNULL, capture_output=True, text=True)
        if built.returncode != 0:
            sys.exit(built.stdout + built.stderr)
        return subprocess.run([crate / "out" / name], capture_output=True, text=True, check=True).stdout
