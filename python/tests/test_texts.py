"""A text that is read and written again is the same text. RANDOM_TEXTS says how many random ones
are tried, 2,000 if left out."""
from __future__ import annotations

import json
import os
from concurrent.futures import ProcessPoolExecutor
from pathlib import Path

import pytest
from random_texts import TOP, texts

import swap_party
from swap_party.json import plain

# What a test's row states in the place of a signature, and texts that are no text of the format, so
# that a reader refuses them
UNREADABLE = {"cut_short.transcript", "others_ledger.transcript", "told_seed.transcript", "zero_before_a_number.transcript"}
STATUS_WORDS = (b"done\n", b"named\n")


def stored() -> list[Path]:
    """The stored texts of the tree."""
    found = [it for folder in ("examples", ".ci/runs", "crates") for it in (TOP / folder).rglob("*") if it.is_file() and "out" not in it.parts]
    kinds = (".report", ".reports", ".transcript", ".cleared", ".many", ".answer")
    return sorted(it for it in found if (it.suffix in kinds or it.name == "stdout") and it.name not in UNREADABLE and text_of(it) is not None)


def text_of(path: Path) -> bytes | None:
    """The text of a file, if it has one: a vector's answer begins with a word for the status, and
    other files are refusals and made jobs."""
    text = path.read_bytes()
    for word in STATUS_WORDS:
        text = text.removeprefix(word)
    return None if not text or text.startswith((b"swap: ", b"{")) else text


@pytest.mark.parametrize("path", stored(), ids=lambda path: str(path.relative_to(TOP)))
def test_stored(path: Path) -> None:
    text = text_of(path)
    assert text is not None
    told = swap_party.parse(text)
    assert str(told).encode() == text
    assert json.loads(json.dumps(plain(told)))["kind"] == type(told).__name__


def test_many_kinds_are_stored() -> None:
    kinds = {type(swap_party.parse(text_of(path) or b"")).__name__ for path in stored()}
    assert {"Report", "Transcript", "Cleared", "Many", "Reports", "Times", "Summary"} <= kinds


def round_trips(number: int) -> tuple[int, set[str]]:
    """How many texts of a number came back as they were, and what they are."""
    count = 0
    kinds: set[str] = set()
    for text in texts(number):
        told = swap_party.parse(text)
        assert str(told).encode() == text, number
        assert json.dumps(plain(told))
        count, kinds = count + 1, kinds | {type(told).__name__}
    return count, kinds


def test_random() -> None:
    wanted, count = int(os.environ.get("RANDOM_TEXTS", "2000")), 0
    kinds: set[str] = set()
    with ProcessPoolExecutor() as pool:
        number, size = 0, 64
        while count < wanted:
            for found, told in pool.map(round_trips, range(number, number + size), chunksize=4):
                count, kinds = count + found, kinds | told
            number += size
    assert {"Report", "Transcript", "Asked", "Answer", "Times", "Cleared", "Many", "Reports", "Summary"} <= kinds
    print(f"{count} random texts")
