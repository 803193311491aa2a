"""Texts of random jobs, as the model writes them: reports, transcripts, times, what is cleared,
many swaps, summaries, and what wallets ask and are answered."""
from __future__ import annotations

import json
import random
import sys
from collections.abc import Iterator
from pathlib import Path

TOP = Path(__file__).resolve().parents[2]
sys.path[:0] = [str(TOP), str(TOP / "bench"), str(TOP / "python")]

from model.commands import answer, party_answer  # type: ignore[import]  # noqa: E402
from random_jobs import Job, Many, wishes_text  # type: ignore[import]  # noqa: E402

from swap_party import Asked, Called, Keep, Ledger, Transcript, agreed_digest  # noqa: E402
from swap_party.calls import Unlock  # noqa: E402


def written(words: list[str], text: bytes) -> Iterator[bytes]:
    """What the model writes, if it isn't a refusal."""
    found = answer(words, text)
    if found.status in (0, 1):
        yield found.out


def asked_and_answered(rng: random.Random, job: Job, transcript: bytes) -> Iterator[bytes]:
    """What a conforming party's wallet hands over at some moment of the run, and what it is
    answered. Where it lost what it kept, or a line of a ledger can't be read, it is told so."""
    told = Transcript.parse(transcript)
    header, number = told.header.line, rng.randrange(len(told.header.parties))
    near = [arc for arc, ends in enumerate(told.header.ends) if number in ends]
    seen = {arc: told.ledgers[arc][: rng.randint(0, len(told.ledgers[arc]))] for arc in near}
    keys = [it.call.key for entries in seen.values() for it in entries if isinstance(it, Called) and it.party == number and isinstance(it.call, Unlock)]
    notes = tuple(Keep(key, rng.randint(0, 99), rng.randint(0, 99)) for key in {key.lock: key for key in reversed(keys)}.values())
    context = tuple(f"about {arc} ledger of arc {arc}" for arc in near[: rng.randint(0, 2)])
    ledgers = [Ledger(arc, tuple(map(str, entries)) + ("no entry",) * (rng.random() < 0.1)) for arc, entries in seen.items()]
    kept = notes if rng.random() < 0.8 else ()
    text = str(Asked(agreed_digest(header, context), kept, header, context, tuple(ledgers), job.seeds[number].hex())).encode()
    yield text
    found = party_answer(["next", told.header.names[number]], text)
    if found.status in (0, 1):
        yield found.out


def row_and_terms(rng: random.Random, job: Job, transcript: bytes) -> Iterator[bytes]:
    """A party's row, and what it agrees to."""
    header = Transcript.parse(transcript).header
    number = rng.randrange(len(header.parties))
    yield party_answer(["terms", header.names[number]], f"{header.line}\nabout 0 some chain\n".encode()).out
    fields = {**json.loads(header.line), "parties": [{"name": it} for it in header.names]}
    for field in ("arcs", "leaders"):
        fields[field] = [{name: value for name, value in it.items() if name not in ("timelock", "hashlock")} for it in fields[field]]
    fields.pop("keys", None)
    yield party_answer(["keys", header.names[number]], f"seed {job.seeds[number].hex()}\n{json.dumps(fields)}\n".encode()).out


def texts(number: int) -> Iterator[bytes]:
    """The texts of a number."""
    rng = random.Random(number)
    job = Job(rng)
    yield from written(["run"], job.text)
    for transcript in written(["run", "--transcript"], job.text):
        yield transcript
        yield from asked_and_answered(rng, job, transcript)
        yield from row_and_terms(rng, job, transcript)
    yield from written(["check"], job.text)
    yield from written(["clear"], wishes_text(rng))
    if number % 5 == 0:
        many = Many(rng).text()
        yield many
        yield from written(["many"], many)
    if number % 10 == 0:
        yield from written(["gen", "--seed", str(number), "--parties", "3", "--events", "20", "--summary"], b"")
