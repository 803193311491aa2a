"""Any text of `swap` and `party` as JSON.

usage: python -m swap_party.json [FILE]    (standard input if left out)

The fields are those of the package's classes. `kind` is the class, where one of several may stand.
A judgement is written as `party judge --json` writes it.
"""
from __future__ import annotations

import json
import sys
from dataclasses import fields, is_dataclass
from typing import Any

from .formats import parse
from .judgement import Judgement
from .lines import NotOfTheFormatError


def plain(value: object) -> Any:
    """The value as what JSON has."""
    if is_dataclass(value) and not isinstance(value, type):
        return {"kind": type(value).__name__, **{it.name: plain(getattr(value, it.name)) for it in fields(value)}}
    if isinstance(value, (tuple, list)):
        return [plain(it) for it in value]
    return value


def main(words: list[str]) -> int:
    if len(words) > 1:
        print("usage: python -m swap_party.json [FILE]", file=sys.stderr)
        return 2
    try:
        if words:
            with open(words[0], "rb") as file:
                text = file.read()
        else:
            text = sys.stdin.buffer.read()
        told = parse(text)
    except (NotOfTheFormatError, OSError) as why:
        print(f"{words[0] if words else 'standard input'}: {why}", file=sys.stderr)
        return 3
    sys.stdout.write(told.json() if isinstance(told, Judgement) else json.dumps(plain(told), indent=1) + "\n")
    return 0


if __name__ == "__main__":
    sys.exit(main(sys.argv[1:]))
