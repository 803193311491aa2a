#!/usr/bin/env python3
"""The test vectors of examples/vectors: that they are what the independent signer makes, and that
the program answers each as is stored.

usage: tests/vectors.py --write    writes the files anew; the answers to transcripts are the model's
(model/)
"""
from __future__ import annotations

import json
import re
import sys
from functools import partial
from pathlib import Path
from typing import Iterable

sys.dont_write_bytecode = True
from kit_rows import calls_text
from program import HERE, Answer, Program, Tests, must
from stories import stories
from texts import asked, is_wanted, told
from vector_rows import Row, deal_rows, hashkey_rows, line_of, signature_rows

sys.path.insert(1, str(Path(HERE).parent))
from model.commands import answer  # noqa: E402

FOLDER = Path(HERE).parent / "examples" / "vectors"
TRANSCRIPTS = FOLDER / "transcripts"


# ---- files


def table(rows: Iterable[Row]) -> str:
    return "[\n" + ",\n".join(map(line_of, rows)) + "\n]\n"


def files() -> dict[str, str]:
    """What the signer makes: the text of each file but the answers of transcripts."""
    tables = {"deals.json": deal_rows, "signatures.json": signature_rows, "hashkeys.json": hashkey_rows}
    told = {f"transcripts/{name}.transcript": text for name, text in stories().items()}
    return {name: table(rows()) for name, rows in tables.items()} | told | {"calls.json": calls_text()}


def write() -> None:
    TRANSCRIPTS.mkdir(parents=True, exist_ok=True)
    for name, text in files().items():
        (FOLDER / name).write_text(text)
    for name, text in stories().items():
        (TRANSCRIPTS / f"{name}.answer").write_text(told(Answer(*answer(["audit"], text.encode()))))


# ---- tests


def rows_in(name: str) -> list[Row]:
    rows: list[Row] = json.loads((FOLDER / f"{name}.json").read_text())
    return rows


def is_stored(name: str, text: str, _: Program) -> None:
    must((FOLDER / name).read_text() == text, "it isn't what the signer makes: tests/vectors.py --write")


def is_made(row: Row, program: Program) -> None:
    is_wanted(asked(program, ["make"], line_of(row["plain"]) + "\n"), "done\n" + line_of(row["made"]) + "\n")


def has_times(row: Row, program: Program) -> None:
    is_wanted(asked(program, ["check"], line_of(row["made"])), "done\n" + "\n".join([*row["check"], ""]))


def presented(row: Row, program: Program) -> list[str]:
    """The reply of a contract of a deal to a hashkey at a height, where everybody's calls are made
    by hand."""
    made = next(it["made"] for it in rows_in("deals") if it["deal"] == row["deal"])
    names, arc = [party["name"] for party in made["parties"]], made["arcs"][row["arc"]]
    by_hand = made | {"finish": "stop", "parties": [{"name": name, "actor": "manual"} for name in names]}
    path = [names[it] for it in row["path"]]
    move = {"do": "raw", "arc": row["arc"], "lock": row["lock"], "secret": row["secret"], "path": path, "sigs": row["sigs"]}
    events = [{"call": arc["from"], "move": {"do": "publish", "arc": row["arc"]}}]
    events += [{"tick": row["arc"], "by": row["height"]}] if row["height"] else []
    report = asked(program, ["run"], "\n".join(map(line_of, [by_hand, *events, {"call": arc["to"], "move": move}])))
    return re.findall(rf"(?m)^{row['height']} {arc['to']} unlock {row['lock']}.*: (.+)$", report)


def has_reply(row: Row, program: Program) -> None:
    must(presented(row, program) == [row["answer"]], f"the reply to {row['what']} at {row['height']}: {presented(row, program)}")


def signatures_of(rows: list[Row], row: Row) -> list[str]:
    """The signature of a row and those after it, each of which the one before signs."""
    inner = next((it for it in rows if it["signature"] == row["inner"]), None)
    return [row["signature"], *(signatures_of(rows, inner) if inner else [])]


def is_signed(rows: list[Row], row: Row, program: Program) -> None:
    """A signature, with those that it signs, opens a contract that pays the first party of its
    suffix."""
    made = next(it["made"] for it in rows_in("deals") if it["deal"] == row["deal"])
    must(made["keys"][row["party"]][row["lock"]] == row["public key"], "the public key isn't the deal's")
    arc = [it["to"] for it in made["arcs"]].index(made["parties"][row["party"]]["name"])
    key = {it: row[it] for it in ("deal", "lock", "secret")}
    key |= {"arc": arc, "height": 0, "path": row["suffix"], "sigs": signatures_of(rows, row)}
    must(presented(key, program) == ["accepted"], f"the reply: {presented(key, program)}")


def is_audited(name: str, program: Program) -> None:
    text, wanted = ((TRANSCRIPTS / f"{name}.{ending}").read_text() for ending in ("transcript", "answer"))
    is_wanted(asked(program, ["audit"], text), wanted)


def tests() -> Tests:
    for name, text in files().items():
        yield f"vectors: {name} is the signer's", partial(is_stored, name, text)
    for row in rows_in("deals"):
        yield f"vectors: {row['deal']} is made", partial(is_made, row)
        yield f"vectors: {row['deal']} has its times", partial(has_times, row)
    for row in rows_in("hashkeys"):
        yield f"vectors: a hashkey of {row['deal']}, {row['what']}, at {row['height']}", partial(has_reply, row)
    rows = rows_in("signatures")
    for row in rows:
        yield f"vectors: a signature of {row['deal']} over {row['suffix']}", partial(is_signed, rows, row)
    for path in sorted(TRANSCRIPTS.glob("*.transcript")):
        yield f"vectors: {path.name}", partial(is_audited, path.stem)


if __name__ == "__main__":
    if sys.argv[1:] != ["--write"]:
        sys.exit(__doc__)
    write()
