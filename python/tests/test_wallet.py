"""What answers a wallet, and what a wallet keeps."""
from __future__ import annotations

import json
import os
import signal
import sqlite3
import subprocess
import sys
from collections.abc import Callable
from pathlib import Path

import pytest
from random_texts import TOP

from swap_party import (
    Agreement,
    Answer,
    Asked,
    Bad,
    DisagreedError,
    Due,
    Hashkey,
    Header,
    InUseError,
    Keep,
    Landing,
    Ledger,
    Library,
    Never,
    Note,
    Notes,
    Party,
    Program,
    RefusedError,
    Row,
    Seed,
    Seen,
    Sent,
    Terms,
    Wait,
    agreed_digest,
    wallet,
)

HEADER, SEEDS = Header.of_job((TOP / "examples/three_way.job").read_text().splitlines()[0])
OFFER = (TOP / "examples/three_way.plain").read_text().splitlines()[0]
AGREED = agreed_digest(HEADER.line)
KEY = Hashkey(0, "a" * 64, (0,), ("b" * 4288,))


def asked(*notes: Note) -> str:
    return str(Asked(AGREED, notes, HEADER.line, (), ()))


def answering() -> list[Party]:
    """The model's programs, and the library where the environment names one."""
    found: list[Party] = [Program(TOP / "model/party", TOP / "model/swap")]
    return found + [Library() for _ in range(1) if os.environ.get("SWAP_PARTY_LIBRARY")]


@pytest.mark.parametrize("party", answering(), ids=lambda it: type(it).__name__)
def test_answers(party: Party) -> None:
    answer = Answer.parse(party.next("alice", SEEDS["alice"], asked()))
    assert [type(it) for it in answer.told] == [Due]
    assert answer.rest is None
    landing = Answer.parse(party.next("alice", SEEDS["alice"], asked(Sent(0))))
    assert landing.told == (Landing(0, 10, 30),)
    waiting = Answer.parse(party.next("bob", SEEDS["bob"], asked()))
    assert waiting.rest == Wait()
    assert party.check(HEADER.line) == HEADER.deal_id()


@pytest.mark.parametrize("party", answering(), ids=lambda it: type(it).__name__)
def test_warns(party: Party) -> None:
    """An answer that tells of a bad entry is an answer as any other."""
    told = party.next("bob", SEEDS["bob"], str(Asked(AGREED, (), HEADER.line, (), (Ledger(0, ("no entry",)),))))
    assert Answer.parse(told).told == (Bad(0, 0), Wait())


@pytest.mark.parametrize("party", answering(), ids=lambda it: type(it).__name__)
def test_agrees(party: Party) -> None:
    """A deal that is made without anybody's seed is the one that is made with all of them."""
    offer = json.dumps({**json.loads(OFFER), "parties": [{"name": it} for it in HEADER.names]})
    rows = [party.keys(name, seed, offer) for name, seed in SEEDS.items()]
    assert [Row.parse(it).name for it in rows] == list(SEEDS)
    header = party.deal(offer, reversed(rows)).rstrip("\n")
    assert header == HEADER.line
    terms = Terms.parse(party.terms("carol", f"{header}\nabout 1 some chain\n"))
    assert terms.agree == agreed_digest(header, ["about 1 some chain"])
    assert (terms.deal, terms.party) == (HEADER.deal_id().hex(), 2)
    refused_calls: list[tuple[Callable[[], str], str]] = [
        (lambda: party.keys("eve", SEEDS["alice"], offer), "Unknown 2 eve"),
        (lambda: party.deal(offer, rows[1:]), "NoRow alice"),
        (lambda: party.terms("alice", f"{header}\nabout 9 x\n"), "BadLine 2"),
    ]
    for call, reason in refused_calls:
        with pytest.raises(RefusedError) as refused:
            call()
        assert refused.value.reason == reason


@pytest.mark.parametrize("party", answering(), ids=lambda it: type(it).__name__)
def test_refuses(party: Party) -> None:
    rows = [("nobody", "", "Unknown 3 nobody"), ("alice", "keep\nsent 0\n", "BadLine 3"), ("bob", "sent 300\nsent 1\n", "BadLine 3")]
    for name, notes, reason in rows:
        with pytest.raises(RefusedError) as refused:
            party.next(name, SEEDS["alice"], asked().replace("\n", f"\n{notes}", 1))
        assert refused.value.reason == reason
    with pytest.raises(RefusedError) as refused:
        party.next("alice", SEEDS["alice"], asked().replace("100", "101"))
    assert refused.value.reason == f"NotAgreed {agreed_digest(HEADER.line.replace('100', '101'))}"
    with pytest.raises(RefusedError) as refused:
        party.check("{}")
    assert refused.value.reason == "Missing 1 swap"
    with pytest.raises(ValueError, match="32 bytes"):
        party.next("alice", b"short", asked())


def test_notes(tmp_path: Path) -> None:
    with Notes(tmp_path / "notes") as notes:
        notes.add(Sent(0))
        notes.add(Keep(KEY, 30, 40))
        notes.add(Sent(0))
        notes.add(Keep(KEY, 31, 40))
        with pytest.raises(ValueError, match="another hashkey"):
            notes.add(Keep(Hashkey(0, "c" * 64, (0,), ()), 30, 40))
    with Notes(tmp_path / "notes") as notes:
        assert notes.notes == [Sent(0), Keep(KEY, 30, 40)]
        assert notes.lines() == ["sent 0", str(Keep(KEY, 30, 40))]
        assert notes.has_sent(0)
        assert not notes.has_sent(1)


def test_notes_are_one_process_alone(tmp_path: Path) -> None:
    """A second wallet with the same notes is refused, and nobody else may read them."""
    path = tmp_path / "notes"
    with Notes(path):
        with pytest.raises(InUseError):
            Notes(path)
        assert (path.stat().st_mode & 0o777, path.with_name("notes.lock").stat().st_mode & 0o777) == (0o600, 0o600)
    with Notes(path), sqlite3.connect(path, timeout=0) as other, pytest.raises(sqlite3.OperationalError):
        other.execute("insert into notes (line) values ('sent 1')")


def test_one_hashkey_for_a_lock(tmp_path: Path) -> None:
    """The table itself refuses a second one."""
    path = tmp_path / "notes"
    with Notes(path) as notes:
        notes.add(Keep(KEY, 30, 40))
    with sqlite3.connect(path) as other, pytest.raises(sqlite3.IntegrityError):
        other.execute("insert into notes (line, lock) values ('keep 0', 0)")


def test_an_agreement_is_made_once(tmp_path: Path) -> None:
    agreement = Agreement("alice", HEADER.line, ("about 0 some chain",))
    with Notes(tmp_path / "notes") as notes:
        assert notes.agreement is None
        notes.agree(agreement)
        notes.agree(agreement)
    with Notes(tmp_path / "notes") as notes:
        assert notes.agreement == agreement
        with pytest.raises(DisagreedError):
            notes.agree(agreement._replace(context=()))


def test_notes_of_a_ledger(tmp_path: Path) -> None:
    """How high it was seen only grows, and what was sent may be replaced and sent again."""
    with Notes(tmp_path / "notes") as notes:
        added: list[Note] = [Sent(0), Never(0), Seen(0, 1), Never(0), Sent(0), Sent(0)]
        for note in added:
            notes.add(note)
        for height in (3, 2, 5, 4):
            notes.see({0: height, 1: 1})
        assert notes.seen == {0: 5, 1: 1}
        assert notes.notes == [Sent(0), Never(0), Sent(0)]
        assert notes.has_sent(0)
        notes.unsee([0])
        assert notes.seen == {1: 1}


def test_nothing_secret_is_shown(tmp_path: Path) -> None:
    seed = Seed(b"x" * 32)
    told = repr([seed, KEY, Keep(KEY, 1, 2), Asked(AGREED, (), HEADER.line, (), (), seed.bytes.hex())])
    assert not any(it in told for it in (seed.bytes.hex(), repr(seed.bytes), "aaaa", "bbbb"))


def test_notes_survive_a_kill(tmp_path: Path) -> None:
    """Whatever the moment of a kill, what was added before stands there."""
    code = """
import sys
from swap_party import Notes, Sent
notes = Notes(sys.argv[1])
for arc in range(256):
    notes.add(Sent(arc))
    print(arc, flush=True)
"""
    path = str(tmp_path / "notes")
    environment = {**os.environ, "PYTHONPATH": str(TOP / "python")}
    for lines in (1, 7, 40):
        with subprocess.Popen([sys.executable, "-c", code, path], stdout=subprocess.PIPE, text=True, env=environment) as it:
            assert it.stdout
            told = [it.stdout.readline() for _ in range(lines)]
            it.send_signal(signal.SIGKILL)
        with Notes(path) as notes:
            assert [Sent(int(line)) for line in told] == notes.notes[:lines]


def test_json() -> None:
    report = TOP / "examples/three_way.report"
    words, environment = [sys.executable, "-m", "swap_party.json"], {**os.environ, "PYTHONPATH": str(TOP / "python")}
    told = json.loads(subprocess.run([*words, report], capture_output=True, check=True, env=environment).stdout)
    assert (told["kind"], len(told["ledgers"]), told["findings"]) == ("Report", 3, [])
    assert told["ledgers"][0]["calls"][1]["via"] == ["bob", "carol", "alice"]
    by_pipe = subprocess.run(words, input=report.read_bytes(), capture_output=True, check=True, env=environment).stdout
    assert json.loads(by_pipe) == told
    refused = subprocess.run(words, input=b"swap report 1\nx\n", capture_output=True, check=False, env=environment)
    assert (refused.returncode, refused.stdout) == (3, b"")
    assert refused.stderr.startswith(b"standard input: line 2: ")


def test_the_library_is_that_of_the_machine(tmp_path: Path, monkeypatch: pytest.MonkeyPatch) -> None:
    plain, fast = tmp_path / "lib.so.1", tmp_path / "glibc-hwcaps" / "x86-64-v3" / "lib.so.1"
    monkeypatch.delenv("SWAP_CPU", raising=False)
    monkeypatch.setattr(wallet, "has_v3", lambda: True)
    assert wallet.for_this_machine(str(plain)) == str(plain)
    fast.parent.mkdir(parents=True)
    fast.touch()
    assert wallet.for_this_machine(str(plain)) == str(fast)
    assert wallet.for_this_machine("lib.so.1") == "lib.so.1"
    monkeypatch.setenv("SWAP_CPU", "plain")
    assert wallet.for_this_machine(str(plain)) == str(plain)
    monkeypatch.delenv("SWAP_CPU")
    monkeypatch.setattr(wallet, "has_v3", lambda: False)
    assert wallet.for_this_machine(str(plain)) == str(plain)
