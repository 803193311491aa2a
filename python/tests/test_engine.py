"""The engine among failures: kills between any two of its lines, chains that can't be read or called,
and texts that no chain should have."""
from __future__ import annotations

import os
import pickle
import signal
import sys
import tempfile
from collections.abc import Iterable
from dataclasses import dataclass, field
from pathlib import Path
from types import FrameType
from typing import Any

import pytest
from random_texts import TOP

from swap_party import (
    Asked, Header, InUseError, Keep, Margin, NoAnswerError, Note, Notes, Now, Publish, Reading, Seed, Sent, Step, Unlock, Unreached, Wallet,
    agreed_digest,
)  # fmt: skip
from swap_party.calls import Call
from swap_party.engine import risen
from swap_party.wallet import Build

HEADER, SEEDS = Header.of_job((TOP / "examples/three_way.job").read_text().splitlines()[0])
PUBLISHES = {arc: HEADER.publish(arc) for arc in range(3)}
# The functions of the engine and its notes that write a file or present a call: between any others of
# their lines nothing changes that outlives the process
ACTING = {it.__code__ for it in (Notes._locked, Notes._opened, Notes._write, Wallet._present, Wallet._obey)}


@dataclass
class Answers:
    """What answers alice: a publish on ledger 0, a hashkey that is another at each asking, its unlock
    and its claim on ledger 2, and a refund on ledger 0 from height 61 on."""

    asked: list[Asked] = field(default_factory=list)
    fails: list[Exception] = field(default_factory=list)
    begun: int = 0

    def build(self) -> Build:
        return Build.PROVED

    def terms(self, name: str, agreed: str) -> str:
        header, *context = agreed.splitlines()
        said = f"terms {name} 0 of 3\ndeal {'a' * 64}\nagree {agreed_digest(header, context)}\n"
        return said + "mode hashkeys start 10 delta 10 bound 2 horizon 70\nawake until 70\n"

    def next(self, name: str, seed: bytes, text: str) -> str:
        self.asked.append(asked := Asked.parse(f"seed {seed.hex()}\n{text}"))
        if self.fails:
            raise self.fails.pop()
        told = {it.arc: it.lines for it in asked.ledgers}
        return "".join(f"{line}\n" for line in self.lines(asked.notes, told)) or "done\n"

    def lines(self, notes: tuple[Note, ...], told: dict[int, tuple[str, ...]]) -> Iterable[str]:
        kept = [it for it in notes if isinstance(it, Keep)]
        mine = {arc: [line.split(" ")[2] for line in lines if line.startswith("c 0 ")] for arc, lines in told.items()}
        is_paid = any(line.startswith("c 2 publish") for line in told[2])
        if is_paid and not kept:
            yield f"keep 0 by 14 until 40 {self.begun + len(self.asked):064x} 0 {'b' * 4288}"
        if is_paid and kept and "unlock" not in mine[2]:
            yield f"call 2 0 by 14 until 40 {Unlock(kept[0].key)}"
        if "unlock" in mine[2] and "claim" not in mine[2]:
            yield "call 2 0 by 14 claim"
        if "publish" not in mine[0]:
            yield "landing 0 by 10 until 30" if Sent(0) in notes else f"call 0 0 by 10 until 30 {PUBLISHES[0]}"
        elif "refund" not in mine[0] and risen(told[0]) > 60:
            yield "call 0 0 by 70 refund"
        if "claim" in mine[2] and "publish" in mine[0] and "refund" not in mine[0] and risen(told[0]) <= 60:
            yield "wait 60"

    def keys(self, *_: object) -> Any:
        raise AssertionError

    deal = check = judge = keys


@dataclass
class World:
    """Two chains, on which calls land at once, and where what a chain can't do is told."""

    lines: dict[int, list[str]] = field(default_factory=lambda: {0: ["t 5"], 2: ["t 5", f"c 2 {PUBLISHES[2]} = accepted"]})
    tips: dict[int, int | None] = field(default_factory=lambda: {0: None, 2: None})
    unread: set[int] = field(default_factory=set)
    deaf: set[int] = field(default_factory=set)
    presented: list[tuple[int, Call]] = field(default_factory=list)
    slept: list[int | None] = field(default_factory=list)

    def read(self, arc: int) -> Reading:
        if arc in self.unread:
            raise ConnectionError(f"chain {arc} is away")
        return Reading(tuple(self.lines[arc]), self.tips[arc])

    def present(self, arc: int, call: Call, until: int | None) -> None:
        if arc in self.deaf:
            raise TimeoutError
        self.presented.append((arc, call))
        line = f"c 0 {call} = accepted"
        if line not in self.lines[arc]:
            self.lines[arc].append(line)

    def sleep(self, until: int | None) -> None:
        self.slept.append(until)
        for lines in self.lines.values():
            lines.append("t 5")

    def words(self) -> list[tuple[int, str]]:
        return [(arc, str(call).split(" ")[0]) for arc, call in self.presented]


def opened(path: Path, world: World, answers: Answers | None = None, **more: Any) -> Wallet:
    return Wallet(answers or Answers(), "alice", Seed(SEEDS["alice"]), path, world, tell=more.pop("tell", lambda _: None), **more)


def agreed(path: Path, world: World, answers: Answers | None = None, **more: Any) -> Wallet:
    wallet = opened(path, world, answers, **more)
    wallet.agree(HEADER.line, ["about 0 some chain"])
    return wallet


def lived(path: Path, world: World) -> None:
    """A wallet's life from where its notes stand. No two of its processes are shown one hashkey."""
    with opened(path, world, Answers(begun=len(world.slept) * 1000 + os.getpid())) as wallet:
        if wallet.notes.agreement is None:
            wallet.agree(HEADER.line)
        wallet.run()


def killed_at(moment: int, path: Path, world: World) -> tuple[bool, World]:
    """Whether a wallet's process is killed before so many lines of its own, and the world that it
    leaves."""
    left, (hears, tells) = moment, os.pipe()

    def before_a_line(frame: FrameType, event: str, _: Any) -> Any:
        nonlocal left
        if frame.f_code not in ACTING:
            return None
        left -= event == "line"
        if left < 0:
            sys.settrace(None)
            os.write(tells, pickle.dumps(world))
            os.kill(os.getpid(), signal.SIGKILL)
        return before_a_line

    pid = os.fork()
    if pid == 0:
        try:
            sys.settrace(before_a_line)
            lived(path, world)
            sys.settrace(None)
            os.write(tells, pickle.dumps(world))
        finally:
            os._exit(1)
    status = os.waitpid(pid, 0)[1]
    os.close(tells)
    with open(hears, "rb") as file:
        return os.WIFSIGNALED(status), pickle.load(file)


def test_kills_between_any_two_lines() -> None:
    """Whatever the line, it goes on from its notes: each hashkey that is shown is the one that was
    kept, a publish is noted before it goes out, and the swap comes to its end."""
    moment, is_killed = 0, True
    with tempfile.TemporaryDirectory(dir="/dev/shm" if Path("/dev/shm").is_dir() else None) as room:
        while is_killed:
            path = Path(room) / f"notes{moment}"
            is_killed, world = killed_at(moment, path, World())
            lived(path, world)
            with Notes(path) as notes:
                kept = {it.key for it in notes.notes if isinstance(it, Keep)}
                assert len(kept) == 1
                assert {call.key for _, call in world.presented if isinstance(call, Unlock)} == kept
                assert notes.has_sent(0)
            assert [it.split(" ")[2] for it in world.lines[0] if it.startswith("c ")] == ["publish", "refund"]
            assert [it.split(" ")[2] for it in world.lines[2] if it.startswith("c 0 ")] == ["unlock", "claim"]
            moment += 1
    assert moment > 60


def test_a_publish_is_noted_before_it_goes_out(tmp_path: Path) -> None:
    world = World(deaf={0})
    with agreed(tmp_path / "notes", world) as wallet:
        wallet.step()
        assert Sent(0) in wallet.notes.notes
        assert (0, "publish") not in world.words()


def test_a_chain_that_cant_be_read(tmp_path: Path) -> None:
    """Nothing is signed, published, or presented there; what is due elsewhere is presented, and the
    chain is told of once."""
    told: list[str] = []
    world = World({0: ["t 65", f"c 0 {PUBLISHES[0]} = accepted"], 2: ["t 5", f"c 2 {PUBLISHES[2]} = accepted"]}, unread={2})
    with agreed(tmp_path / "notes", world, tell=told.append) as wallet:
        wallet.step()
        assert world.words() == [(0, "refund")]
        step = wallet.step()
        assert isinstance(step.warnings[0], Unreached)
        assert [line.split(" ")[:3] for line in told if " slow " not in line] == [["alice:", "unreached", "2"]]
        assert not wallet.step().is_done
    world = World(unread={0})
    with agreed(tmp_path / "others", world) as wallet:
        for _ in range(3):
            wallet.step()
        assert (world.words(), wallet.notes.notes) == ([], [])
        world.unread = set()
        wallet.run()
        assert [kind for _, kind in world.words()] == ["publish", "unlock", "claim", "refund"]


def test_a_chain_that_was_read_goes_away(tmp_path: Path) -> None:
    """It is told as it was read before, so that it isn't taken to stand at 0."""
    answers, world = Answers(), World()
    with agreed(tmp_path / "notes", world, answers) as wallet:
        wallet.step()
        world.unread = {0, 2}
        world.lines[0].append("t 50")
        wallet.step()
        assert [risen(it.lines) for it in answers.asked[-1].ledgers] == [5, 5]


def test_a_chain_that_takes_no_call(tmp_path: Path) -> None:
    """It holds up no other, and is called again at once when it does."""
    world = World(deaf={0})
    with agreed(tmp_path / "notes", world, margins={0: 20, 2: 20}) as wallet:
        step = wallet.step()
        assert isinstance(step.warnings[0], Unreached)
        assert wallet.step().presented[0].arc == 2
        world.deaf = set()
        assert (0, "publish") not in world.words()
        wallet.step()
        assert (0, "publish") in world.words()


def test_a_call_is_presented_again(tmp_path: Path) -> None:
    """Once it should have landed, and where its chain stands lower than it did."""
    world = World({0: ["t 5"], 2: ["t 5"]}, {0: 20, 2: 20})
    with agreed(tmp_path / "notes", world, margins={0: 3}) as wallet:
        counts = []
        for tip in (20, 23, 24, 24, 22):
            world.tips[0], world.lines[0] = tip, ["t 5"]
            wallet.step()
            counts.append(len(world.presented))
        assert counts == [1, 1, 2, 2, 3]


def test_a_publish_that_is_of_no_use_any_more(tmp_path: Path) -> None:
    """What was noted and may never have gone out isn't presented above its deadline: it would lock
    units for nothing. Its owner is told, and replaces it."""
    told: list[str] = []
    world = World({0: ["t 5"], 2: ["t 5"]})
    with agreed(tmp_path / "notes", world, margins={0: 2}, tell=told.append) as wallet:
        wallet.notes.add(Sent(0))
        world.tips[0] = 28
        assert len(wallet.step().presented) == 0
        assert world.words() == [(0, "publish")]
        world.tips[0], world.lines[0] = 29, ["t 5"]
        step = wallet.step()
        assert (world.words(), [it.arc for it in step.useless], step.rests) == ([(0, "publish")], [0], True)
        assert "replace it" in told[-1]


def test_it_asks_where_something_changed(tmp_path: Path) -> None:
    """Where nothing was due it asks again once a call lands, or a ledger stands above the height."""
    answers, world = Answers(), World()
    with agreed(tmp_path / "notes", world, answers) as wallet:
        while not wallet.step().rests:
            pass
        counts = []
        for line in "t 10", "t 30", "c 1 refund = NotParty", "t 15", "t 1":
            world.lines[0].append(line)
            before = len(answers.asked)
            wallet.step()
            counts.append(len(answers.asked) - before)
        assert counts == [0, 0, 1, 0, 1]
        assert world.words()[-1] == (0, "refund")


def test_it_wakes_where_any_ledger_rises(tmp_path: Path) -> None:
    """While a call waits to land the least ledger is watched too, however far another is above."""
    world = World({0: ["t 5"], 2: ["t 90"]})
    with agreed(tmp_path / "notes", world) as wallet:
        assert wallet.step().until == 5


def test_texts_that_no_chain_should_have(tmp_path: Path) -> None:
    """A line with line feeds or of other letters is one line, and a tick of any digits is read."""
    answers, world = Answers(), World()
    world.lines[2] += ["c 1 publish\nend", "c 2 claim\u2028 = accepted", "t \u00b2", "t " + "9" * 5000, "\udcff", "t 2"]
    with agreed(tmp_path / "notes", world, answers) as wallet:
        wallet.step()
        told = answers.asked[-1].ledgers[-1]
        assert told.lines[2:] == ("c 2 claim? = accepted", "t ?", "t " + "9" * 5000, "?", "t 2")
        assert risen(told.lines) == 7


def test_heights_have_a_limit(tmp_path: Path) -> None:
    answers, world = Answers(), World(tips={0: 10**9, 2: None})
    with agreed(tmp_path / "notes", world, answers, margins={0: 3}) as wallet:
        wallet.step()
        assert answers.asked[-1].heights == (Now(0, 1_000_000), Now(2, 5), Margin(0, 3))
    with pytest.raises(ValueError, match="a margin is"):
        opened(tmp_path / "notes", world, margins={0: -1})


def test_what_has_no_answer_is_asked_again(tmp_path: Path) -> None:
    answers, world = Answers(fails=[MemoryError(), NoAnswerError(-9, "")]), World()
    with agreed(tmp_path / "notes", world, answers) as wallet:
        wallet.run()
    assert [kind for _, kind in world.words()] == ["publish", "unlock", "claim", "refund"]


def test_notes_of_another(tmp_path: Path) -> None:
    """They are let go of again."""
    agreed(tmp_path / "notes", World()).close()
    with pytest.raises(ValueError, match="the notes of alice"):
        Wallet(Answers(), "bob", Seed(SEEDS["bob"]), tmp_path / "notes", World())
    Notes(tmp_path / "notes").close()


def test_a_process_that_is_forked_off(tmp_path: Path) -> None:
    """It shares the lock with the one that opened the notes, and may not write."""
    with Notes(tmp_path / "notes") as notes:
        pid = os.fork()
        if pid == 0:
            try:
                notes.add(Sent(0))
            except InUseError:
                os._exit(7)
            os._exit(0)
        assert os.waitstatus_to_exitcode(os.waitpid(pid, 0)[1]) == 7


def test_two_names_of_the_same_notes(tmp_path: Path) -> None:
    """By another name the lock is another file, and the notes refuse a second process all the same."""
    with Notes(tmp_path / "notes"):
        os.link(tmp_path / "notes", tmp_path / "others")
        pid = os.fork()
        if pid == 0:
            try:
                Notes(tmp_path / "others")
            except InUseError:
                os._exit(7)
            os._exit(0)
        assert os.waitstatus_to_exitcode(os.waitpid(pid, 0)[1]) == 7


def test_a_step_tells_what_it_did(tmp_path: Path) -> None:
    with agreed(tmp_path / "notes", World()) as wallet:
        step: Step = wallet.step()
        assert (step.has_kept, [type(it.call) for it in step.presented], step.rests) == (True, [Publish], False)
