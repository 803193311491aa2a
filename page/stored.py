"""The transcripts that the page is tried with: those that are stored, those of the examples' jobs, and those of the tests' tables."""
import sys
from dataclasses import replace
from pathlib import Path
from typing import Iterator

sys.dont_write_bytecode = True
TOP = Path(__file__).resolve().parent.parent
sys.path[:0] = [str(TOP / "tests"), str(TOP / "python")]
import findings  # noqa: E402
import tables  # noqa: E402
from program import Program  # noqa: E402
from swap_party import Tick, Transcript  # noqa: E402
from swap_party.calls import Entry  # noqa: E402
from texts import deal, edited, signed  # noqa: E402

Named = Iterator[tuple[str, bytes]]

TABLES = ["attacks", "conforming", "fair", "findings", "replies", "replies_to_keys", "scripts", "strategies", "versions"]
BUILT = TOP / "out" / "proved" / "swap"


def transcript_of(program: Program, job: str) -> bytes:
    """The transcript of a job's run, or nothing where it has none."""
    return program.run(["run", "--transcript"], job.encode()).out


def audit_of(program: Program, transcript: bytes) -> tuple[str, str]:
    """The report of an audit, and the reason of its refusal; one of the two is empty."""
    answer = program.run(["audit"], transcript)
    return answer.out.decode(), answer.err.decode().strip().removeprefix("swap: ").removeprefix("refused: ")


def stored() -> Named:
    """The transcripts that the examples, the tests and the stored runs have."""
    for path in sorted([*TOP.glob("examples/*.transcript"), *TOP.glob("tests/deals/*.transcript")]):
        yield path.name, signed(path.read_text()).encode()
    for path in sorted(TOP.glob(".ci/runs/*/args")):
        if path.read_text().split() == ["audit"]:
            yield f"run {path.parent.name}", (path.parent / "stdin").read_bytes()


def of_examples(program: Program) -> Named:
    """The transcript of each example's run."""
    for path in sorted(TOP.glob("examples/*.job")):
        yield path.stem, transcript_of(program, path.read_text())


def of_number(program: Program, *words: str) -> bytes:
    """The transcript of the job of a number."""
    return transcript_of(program, program.run(["gen", *words], b"").out.decode())


def of_races(program: Program) -> Named:
    """The transcripts of some races, whose books are chance."""
    for name in ("three_way", "walks_away", "two_payments"):
        job = (TOP / "examples" / f"{name}.job").read_bytes().split(b"\n")[0] + b"\n"
        for ticks in ("1", "5"):
            yield f"a race of {name}, {ticks} ticks", program.run(["race", "--ticks", ticks, "--transcript"], job).out


def taken_as(transcript: str, names: list[str]) -> str:
    """The transcript with those parties told as conforming."""
    for name in names:
        transcript = transcript.replace(f'{{"actor":"manual","name":"{name}"}}', f'{{"actor":"conforming","name":"{name}"}}')
    return transcript


def of_case(program: Program, text: str, case: str) -> bytes:
    """The transcript of a table's case."""
    edits, _, events = case.rpartition("--\n")[0].partition("--\n")
    return transcript_of(program, signed(edited(text, edits.strip()) + events))


def of_schedule(program: Program, text: str, row: str) -> bytes:
    """The transcript of a table's schedule, with those who keep to it told as conforming."""
    schedule, names, _ = row.split(" => ")
    transcript = transcript_of(program, findings.job_of(text, schedule)).decode()
    return taken_as(transcript, [] if names == "nobody" else names.split(", ")).encode()


def in_single_ticks(transcript: str) -> str:
    """The same book, told by ticks of one height each."""
    told = Transcript.parse(transcript)
    return str(replace(told, ledgers=tuple(tuple(each for entry in entries for each in slowly(entry)) for entries in told.ledgers)))


def slowly(entry: Entry) -> list[Entry]:
    """An entry, or as many ticks of one height as it has heights."""
    if isinstance(entry, Tick):
        return [Tick(1) for _ in range(entry.by)]
    return [entry]


def of_tables(program: Program) -> Named:
    """Each run of a table's case, and each book of a table's schedule."""
    for table in TABLES:
        for command, kind, deals, body in tables.tables_of(table):
            rows = tables.cases_of(body) if kind in tables.CASES else tables.rows_of(body)
            for name in deals:
                for title, row in rows:
                    if kind == "cases" and command == "run":
                        yield f"{table}: {title}", of_case(program, deal(name), row)
                    elif kind in ("found", "ended"):
                        transcript = of_schedule(program, deal(name), row)
                        yield f"{table}: {title}", transcript
                        if "=> late" in row:
                            yield f"{table}, slowly: {title}", in_single_ticks(transcript.decode()).encode()
