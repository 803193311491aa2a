"""The program beside the model (`model/`): each answer of the one has to be that of the other, byte
for byte.

The tests here are the stored offers: those of `examples/` by each command, its wishes by `clear`,
its swaps on shared chains by `many`, an exchange's day by all that it takes, and the runs of
`.ci/runs`. The rows of `tables/` are asked so too.
"""
from __future__ import annotations

import importlib.machinery
import importlib.util
import os
import re
import sys
from functools import partial
from pathlib import Path
from typing import Any, Callable, List

sys.dont_write_bytecode = True
from program import HERE, Answer, Program, Tests, must

sys.path.insert(1, os.path.join(HERE, ".."))
from model.commands import Answer as ModelAnswer  # noqa: E402
from model.commands import answer  # noqa: E402

# How the model answers words and an input
ByModel = Callable[[List[str], bytes], ModelAnswer]


def shortened(text: bytes) -> bytes:
    return text if len(text) < 600 else text[:300] + b" .. " + text[-300:]


def must_agree(answer: ByModel, words: list[str], text: bytes, found: Answer) -> None:
    """Tests an answer of the program against the model's, which `answer` gives. A race has no one
    text: of it a refusal is determined, and who takes part."""
    wanted = answer(words, text)
    told = "the model answers %d %r %r" % (wanted.status, shortened(wanted.out), shortened(wanted.err))
    if words[:1] == ["race"] and wanted.status in (0, 1):
        must(found.status in (0, 1) and determined(found.out) == determined(wanted.out), told)
    else:
        must(tuple(found) == tuple(wanted), told)


def determined(race: bytes) -> list[bytes]:
    """What is determined of a race's text: the swap, its arcs and parties, and a transcript's
    header line."""
    return re.findall(rb"(?m)^(?:swap .*|ledger .* -> .*|party \S+ \w+|\{.*)", race)


TOP = Path(HERE).parent


class Compared(Program):
    """The program, of which each answer is compared with the model's."""

    def __init__(self, path: str, by_model: ByModel = answer) -> None:
        super().__init__(path)
        self.by_model = by_model

    def run(self, words: list[str], text: bytes) -> Answer:
        found = super().run(words, text)
        must_agree(self.by_model, words, text, found)
        return found


def stored_run(folder: Path, program: Program) -> None:
    words = (folder / "args").read_text().split("\n")
    program.run([word for word in words if word], (folder / "stdin").read_bytes())


def stored_offer(file: Path, program: Program) -> None:
    """An offer by each command that reads one, and an audit of what its run tells."""
    text = file.read_bytes()
    for words in (["check"], ["run"], ["make"], ["race"]):
        program.run(words, text)
    program.run(["audit"], program.run(["run", "--transcript"], text).out)


def stored_wishes(file: Path, program: Program) -> None:
    program.run(["clear"], file.read_bytes())


def must_report(program: Program, many: bytes, reports: Path) -> None:
    """Tests that many swaps are written as is stored, with status 0."""
    must(program.run(["many"], many) == (0, reports.read_bytes(), b""), "it isn't " + reports.name)


def stored_swaps(file: Path, program: Program) -> None:
    must_report(program, file.read_bytes(), file.with_suffix(".reports"))


def exchange() -> Any:
    """The script that makes swaps on shared chains of a day's wishes."""
    loader = importlib.machinery.SourceFileLoader("exchange", str(TOP / "examples" / "exchange"))
    spec = importlib.util.spec_from_loader("exchange", loader)
    assert spec is not None
    module = importlib.util.module_from_spec(spec)
    loader.exec_module(module)
    return module


def exchange_day(program: Program) -> None:
    wishes = TOP / "examples" / "exchange.wishes"
    many, left_out = exchange().many_text(lambda words, text: program.run(words, text.encode()).out.decode(), wishes.read_text())
    must(left_out == ["left out 4 closed alice,bob,carol"], "what is left out: %r" % left_out)
    must_report(program, many.encode(), wishes.with_suffix(".reports"))


def tests() -> Tests:
    for folder in sorted((TOP / ".ci" / "runs").iterdir()):
        yield f"beside: {folder.name}", partial(stored_run, folder)
    for file in sorted((TOP / "examples").glob("*.[jp][ol]*")):
        yield f"beside: {file.name}", partial(stored_offer, file)
    for file in sorted((TOP / "examples").glob("*.clear")):
        yield f"beside: {file.name}", partial(stored_wishes, file)
    for file in sorted((TOP / "examples").glob("*.many")):
        yield f"beside: {file.name}", partial(stored_swaps, file)
    yield "beside: an exchange's day", exchange_day
