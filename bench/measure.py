"""What the scripts share: where files stand, their words, what runs of a program take, and D, the
time of one SHA-256 digest of one block by the kit's sha2.
"""
from __future__ import annotations

import argparse
import os
import re
import resource
import shutil
import subprocess
import sys
import tempfile
import time
from pathlib import Path
from typing import NamedTuple, Optional, Sequence, Union

sys.dont_write_bytecode = True
import throwaway

TOP = throwaway.TOP
PROVED = TOP / "out" / "proved"
Word = Union[str, Path]
Ended = subprocess.CompletedProcess

# ---- files and words


def example(name: str) -> bytes:
    """A stored input."""
    return (TOP / "examples" / name).read_bytes()


def executable(word: str) -> Path:
    """The program that a word names."""
    found = Path(word).resolve()
    if not os.access(found, os.X_OK):
        raise argparse.ArgumentTypeError(f"no program at {found}")
    return found


def positive(word: str) -> int:
    """The number that a word says, at least 1."""
    number = int(word)
    if number < 1:
        raise ValueError(word)
    return number


def folder(word: str) -> Path:
    """The folder that a word names, which has the program `party`."""
    return executable(str(Path(word) / "party")).parent


def parser(about: Optional[str]) -> argparse.ArgumentParser:
    """What reads a script's words; `--help` writes what the script says about itself."""
    return argparse.ArgumentParser(description=about, formatter_class=argparse.RawDescriptionHelpFormatter)


def takes_program(words: argparse.ArgumentParser) -> argparse.ArgumentParser:
    """Takes the program's path as the last word, out/proved/swap if it is left out."""
    words.add_argument("program", nargs="?", type=executable, default=str(PROVED / "swap"))
    return words


def takes_folder(words: argparse.ArgumentParser) -> argparse.ArgumentParser:
    """Takes the folder of `party` as the last word, out/proved if it is left out."""
    words.add_argument("folder", nargs="?", type=folder, default=str(PROVED))
    return words


def asked_program(about: Optional[str]) -> Path:
    """The program, where it is a script's only word."""
    program: Path = takes_program(parser(about)).parse_args().program
    return program


def asked_number(about: Optional[str], name: str, usual: int) -> int:
    """A number of this name, where it is a script's only word."""
    words = parser(about)
    words.add_argument(name, nargs="?", type=positive, default=usual)
    number: int = getattr(words.parse_args(), name)
    return number


# ---- runs


class Taken(NamedTuple):
    """What a run took, in seconds of processors and by the clock, and how it ended."""

    processor: float
    wall: float
    run: Ended[bytes]


def spent() -> float:
    """The processor seconds of all runs that have ended."""
    used = resource.getrusage(resource.RUSAGE_CHILDREN)
    return used.ru_utime + used.ru_stime


def once(words: Sequence[Word], text: bytes = b"") -> Taken:
    """Runs a program."""
    before, began = spent(), time.monotonic()
    run = subprocess.run(words, input=text, capture_output=True)
    wall = time.monotonic() - began
    return Taken(spent() - before, wall, run)


def answer(program: Path, words: Sequence[str], text: bytes = b"") -> bytes:
    """What the program writes."""
    return once([program, *words], text).run.stdout


def seconds(program: Path, words: Sequence[str], text: bytes, rounds: int = 9) -> tuple[float, Ended[bytes]]:
    """The least processor time of some runs, and how the last of them ended."""
    least, _, run = once([program, *words], text)
    for _ in range(rounds - 1):
        took, _, run = once([program, *words], text)
        least = min(least, took)
    if run.stderr:
        print(run.stderr.decode(errors="replace").strip())
    return least, run


def peak(program: Path, words: Sequence[str], text: bytes) -> float:
    """The peak memory in megabytes of a run whose input is a file, by time(1), which has few of its
    own: a child of this process begins with as many as this one has."""
    with tempfile.TemporaryFile() as file:
        file.write(text)
        file.seek(0)
        run = subprocess.run(["/usr/bin/time", "-f", "%M", program, *words], stdin=file, capture_output=True)
    return int(run.stderr.split()[-1]) / 1024


def instructions(program: Path, words: Sequence[str], text: bytes) -> float:
    """How many millions of instructions a run takes, by callgrind, if it is there."""
    if not shutil.which("valgrind"):
        return float("nan")
    said = once(["valgrind", "--tool=callgrind", "--callgrind-out-file=/dev/null", program, *words], text).run.stderr
    counted = re.search(rb"Collected : (\d+)", said)
    return int(counted[1]) / 1e6 if counted else float("nan")


# ---- D

PROGRAM = r"""//! Times digests of one block, each of a byte and the digest before it.
#![tactic(auto)]

use sha2::{Digest as Hasher, Sha256};
use std::io;
use std::time::Instant;

const COUNT: u32 = 20_000;

/// One call, as other programs make it.
#[inline(never)]
fn digest(block: &[u8; 33]) -> [u8; 32] {
    Sha256::digest(block)
}

fn digests() -> [u8; 32] {
    let mut value = [0u8; 32];
    for _ in 0..COUNT {
        let mut block = [2u8; 33];
        block[1..].copy_from_slice(&value);
        value = digest(&block);
    }
    value
}

fn main(rt: HostRuntime) -> io::Result<()> {
    let mut least = u128::MAX;
    for _ in 0..50 {
        let start = Instant::now(&rt)?;
        let last = digests();
        let took = start.elapsed(&rt)?.as_nanos();
        least = if last[0] == 0 && took == 0 { least } else { least.min(took) };
    }
    println!(rt; "{least} {COUNT}")
}
"""


def digest_time() -> float:
    """D in seconds: the least of 50 rounds of 20,000."""
    nanoseconds, count = throwaway.output("digest_unit", "sha2", {"src/main.rt": PROGRAM}).split()
    return int(nanoseconds) / int(count) * 1e-9
