"""Words of programs, and what these tell in one line where they end otherwise than well."""
from __future__ import annotations

import argparse
import sys
from collections.abc import Callable
from pathlib import Path
from typing import NoReturn

from .tables import RuleError, clipped, id_of

TOP = Path(__file__).resolve().parent.parent.parent
DONE, FOUND, WORDS, REFUSED, FAULT, INTERRUPTED = 0, 1, 2, 3, 4, 130


class Words(argparse.ArgumentParser):
    """Wrong words are told in one line."""

    def error(self, message: str) -> NoReturn:
        told("wrong words", f"{clipped(message, 150)} (--help tells them)", "wallet" if self.prog.endswith("wallet") else "exchange")
        sys.exit(WORDS)


def in_range(least: int, most: int) -> Callable[[str], int]:
    """Reads a word as a number in a range."""

    def read(word: str) -> int:
        if not (word.isascii() and word.isdigit()) or len(word) > len(str(most)) or not least <= int(word) <= most:
            raise argparse.ArgumentTypeError(f"{clipped(repr(word), 40)} is no number from {least} to {most}")
        return int(word)

    return read


def id_word(word: str) -> str:
    """Reads a word as a day's or a user's name."""
    try:
        return id_of(word, "the name")
    except RuleError as why:
        raise argparse.ArgumentTypeError(str(why)) from None


def told(kind: str, why: object, who: str = "exchange") -> None:
    print(clipped(f"{who}: {kind}: {why}"), file=sys.stderr, flush=True)
