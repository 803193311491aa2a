"""Tests that are rows of tables: each file of tables/ has some, but those of tables/fields and
tables/party (`party.py`).

A table begins with a line `%% WORDS: KIND of DEAL, DEAL`, behind which lines with `%` say what it
shows. Each row is tested of each deal. In rows `<u+20>` stands for the character of that number,
and other names in angle brackets for signatures.

Tables of texts have cases, each of which begins with `== ` and its name:
  cases    a line with edits of the deal, if any, a line `--`, events, a line `--`, and the answer. What a run answers is what an audit
           of its transcript answers.
  scripts  the name of a party, the moves of its script, a line `--`, and how a race ends in which it follows that script.
  attacks  a line with edits, a line `--`, and the last lines of a run's report, or all. A race's report has the same lines but for heights.
Others have a row a line, but those that begin with `#`:
  refused  EDITS => REASON
  accepted EDITS, after which a run goes on to its report
  ends     EDITS => ENDS, how each party of a race ends, and then what is found
  lines    EDITS => LINE, a line that an audit of the transcript tells. In the edits `\\n` stands for a line feed.
  answers  EDITS => LINES, all lines that are written, with `\\n` between them, or `nothing`. In the edits it stands for a line feed too.
  warned   EDITS => LINES, the same of an answer that tells what is wrong with the ledgers.
  actors   ACTOR => WRITTEN, an actor of a plain job's second party, and how the made job writes it
  sums     NUMBER PARTIES EVENTS ARCS LEADERS ENTRIES, numbers of a generated job, and what its summary counts
  wrong    words that are no command's
  found    SCHEDULE => NAMES => FINDINGS, a schedule in words (`findings.py`), who are taken as conforming, and what is found of them
  ended    SCHEDULE => NAMES => LINES, the same, and the lines that end the report
A row that is long goes on in lines that begin with four blanks.
"""
from __future__ import annotations

import os
import re
import sys
from functools import partial
from typing import Callable

sys.dont_write_bytecode = True
from findings import report_of
from program import HERE, Program, Tests, must
from races import raced, raced_ends
from texts import asked, deal, edited, is_wanted, signed, stored, table

TICK = '{"tick":0}\n'
REPORT = "swap report 1\n"


# ---- cases


def tested_case(program: Program, command: str, text: str, case: str) -> None:
    asked_for, _, wanted = case.rpartition("--\n")
    edits, _, events = asked_for.partition("--\n")
    job = signed(edited(text, edits.strip()) + events)
    is_wanted(asked(program, command.split(" "), job), wanted)
    if command == "run":
        is_audited(program, job, wanted)


def is_audited(program: Program, job: str, wanted: str) -> None:
    """The transcript of a run has its status, and an audit of it its status and report. A run that
    is refused has none."""
    status, _, transcript = asked(program, ["run", "--transcript"], job).partition("\n")
    must(status == wanted.partition("\n")[0], f"with a transcript: {status}")
    if wanted.partition("\n")[2]:
        is_wanted(asked(program, ["audit"], transcript), wanted)
    else:
        must(not transcript, "a transcript of what is refused")


# ---- races


def tested_end(program: Program, _: str, text: str, row: str) -> None:
    edits, _, wanted = row.rpartition(" => ")
    is_wanted(raced_ends(program, edited(text, edits)) + "\n", wanted + "\n")


def scripted(text: str, name: str, moves: list[str]) -> str:
    """The deal, in which the named party follows a script of such moves."""
    return edited(text, f'"{name}", => "{name}","actor":{{"script":[{",".join(moves)}]}},')


def tested_script(program: Program, _: str, text: str, case: str) -> None:
    script, _, wanted = case.rpartition("--\n")
    name, *moves = script.splitlines()
    is_wanted(raced_ends(program, scripted(text, name, moves)) + "\n", wanted)


def without_heights(report: str) -> str:
    return re.sub(r"(?m)^\d+ ", "", report)


def tested_attack(program: Program, _: str, text: str, case: str) -> None:
    edits, _, wanted = case.partition("--\n")
    job = edited(text, edits.strip())
    report = asked(program, ["run"], job)
    must(report.startswith("done\n" + REPORT) and report.endswith(wanted), f"a run:\n{report}")
    is_wanted(without_heights("done\n" + raced(program, job)), without_heights(report))


# ---- rows


def with_tick(command: str, text: str) -> str:
    """A job has one event for `run`, which rows may edit too."""
    return text + TICK if command == "run" else text


def tested_refusal(program: Program, command: str, text: str, row: str) -> None:
    edits, _, reason = row.rpartition(" => ")
    is_wanted(asked(program, command.split(" "), edited(with_tick(command, text), edits)), f"swap: refused: {reason}\n")


def tested_accepted(program: Program, command: str, text: str, row: str) -> None:
    answered = asked(program, command.split(" "), edited(with_tick(command, text), row))
    must(answered.startswith("named\n" + REPORT), f"it answered:\n{answered}")


def tested_line(program: Program, command: str, text: str, row: str) -> None:
    edits, _, line = row.rpartition(" => ")
    answered = asked(program, command.split(" "), signed(edited(text, edits.replace("\\n", "\n"))))
    must(line in answered.splitlines(), f"it answered:\n{answered}")
    must(not answered.startswith("swap: ") or answered == line + "\n", f"more than its line:\n{answered}")


def tested_answer(program: Program, command: str, text: str, row: str, status: str = "done\n") -> None:
    edits, _, lines = row.replace("\\n", "\n").rpartition(" => ")
    wanted = "" if lines == "nothing" else signed(lines) + "\n"
    is_wanted(asked(program, command.split(" "), signed(edited(text, edits))), status + wanted)


def tested_warning(program: Program, command: str, text: str, row: str) -> None:
    tested_answer(program, command, text, row, "named\n")


def tested_actor(program: Program, command: str, text: str, row: str) -> None:
    actor, _, written = row.partition(" => ")
    job = edited(text, f'{{"name":"bob", => {{"name":"bob","actor":{actor},')
    made = edited(stored("plain.made"), f'"actor":"conforming","name":"bob" => "actor":{written},"name":"bob"')
    is_wanted(asked(program, command.split(" "), job), "done\n" + made)


def generated(number: str, parties: str, events: str, *more: str) -> list[str]:
    return ["gen", "--seed", number, "--parties", parties, "--events", events, *more]


def summary(parties: str, events: str, arcs: str, leaders: str, entries: str) -> str:
    return (
        f"done\nswap summary 1\nparties {parties} arcs {arcs} leaders {leaders}\nevents {events} entries {entries} refused 0\n"
        f"Deal {parties} NoDeal 0 FreeRide 0 Discount 0 Underwater 0\nfindings 0\n"
    )


def tested_sum(program: Program, _: str, __: str, row: str) -> None:
    """The summary of a number's job. The job itself is accepted, and its run finds nothing."""
    number, *counts = row.split(" ")
    is_wanted(asked(program, generated(number, *counts[:2], "--summary"), ""), summary(*counts))
    made, _, job = asked(program, generated(number, *counts[:2]), "").partition("\n")
    must(made == "done", f"a job of a number: {made}")
    must(asked(program, ["check"], job).startswith("done\nswap accepted\n"), "it isn't accepted")
    report = asked(program, ["run"], job)
    must(report.startswith("done\n" + REPORT) and report.endswith("\nfindings 0\n"), "its run isn't done")


def tested_words(program: Program, _: str, __: str, row: str) -> None:
    answered = asked(program, row.split(" "), stored("by_hand.job"))
    must(answered.startswith("swap: wrong words\n"), f"it answered:\n{answered}")


def told_of_schedule(program: Program, text: str, row: str) -> tuple[str, str]:
    """A schedule's report, and the lines that a row wants of it."""
    schedule, names, lines = row.split(" => ")
    taken = [] if names == "nobody" else names.split(", ")
    return report_of(program, text, schedule, taken), "" if lines == "nothing" else lines.replace(", ", "\n") + "\n"


def tested_findings(program: Program, _: str, text: str, row: str) -> None:
    report, lines = told_of_schedule(program, text, row)
    must(f"open\n{lines}unfinished " in report, f"its report:\n{report}")


def tested_endings(program: Program, _: str, text: str, row: str) -> None:
    report, lines = told_of_schedule(program, text, row)
    must(report.endswith(lines), f"its report:\n{report}")


# ---- the tables

# What tests a row of a table: by the program, the command, the deal and the row
Tested = Callable[[Program, str, str, str], None]
CASES: dict[str, Tested] = {"cases": tested_case, "scripts": tested_script, "attacks": tested_attack}
ROWS: dict[str, Tested] = {
    "refused": tested_refusal, "accepted": tested_accepted, "ends": tested_end, "lines": tested_line,
    "answers": tested_answer, "warned": tested_warning, "actors": tested_actor, "sums": tested_sum, "wrong": tested_words,
    "found": tested_findings, "ended": tested_endings,
}  # fmt: skip


def shown(text: str) -> str:
    """The text with the characters that their numbers stand for."""
    return re.sub(r"<u\+([0-9a-f]+)>", lambda found: chr(int(found[1], 16)), text)


def cases_of(body: str) -> list[tuple[str, str]]:
    cases = [case.partition("\n") for case in re.split(r"(?m)^== ", body)[1:]]
    return [(title, rest) for title, _, rest in cases]


def rows_of(body: str) -> list[tuple[str, str]]:
    return [(row, row) for row in re.sub(r"\n {4,}", " ", body).split("\n") if row and not row.startswith("#")]


def tables_of(name: str) -> list[tuple[str, str, list[str], str]]:
    """The tables of a file: command, kind, deals and body of each."""
    before, *parts = re.split(r"(?m)^%% ([^:\n]+): (\w+) of (.+)\n((?:%  .*\n)*)", table(name))
    must(not before and not any(re.search(r"(?m)^%", body) for body in parts[4::5]), f"no head of a table in {name}")
    return [(command, kind, deals.split(", "), shown(body)) for command, kind, deals, _, body in zip(*[iter(parts)] * 5)]


def tested(kind: str, command: str, of: str, row: str, program: Program) -> None:
    (CASES | ROWS)[kind](program, command, deal(of), row)


def tests_in(name: str) -> Tests:
    """Each row of a file of tables with the function that tests it."""
    for command, kind, deals, body in tables_of(name):
        for title, row in cases_of(body) if kind in CASES else rows_of(body):
            for of in deals:
                yield f"{name}: {command} of {of}: {title}", partial(tested, kind, command, of, row)


def tests() -> Tests:
    for name in sorted(file.removesuffix(".txt") for file in os.listdir(os.path.join(HERE, "tables")) if file.endswith(".txt")):
        yield from tests_in(name)
