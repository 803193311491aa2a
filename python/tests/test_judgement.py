"""Judgements as values, and in sentences."""
from __future__ import annotations

import subprocess
import sys
from pathlib import Path

import pytest
from random_texts import TOP

import swap_party
from swap_party import Case, Judgement, Mark, Program, RefusedError

PARTY = Program(TOP / "model/party", TOP / "model/swap")
BY_HAND, USELESS = ((TOP / "tests/deals" / f"{name}.case").read_bytes() for name in ("by_hand", "useless"))


@pytest.mark.parametrize("text", [BY_HAND, USELESS])
def test_values(text: bytes) -> None:
    told = PARTY.judge(text)
    assert str(Case.parse(text)).encode() == text
    assert str(Judgement.parse(told)) == told
    assert swap_party.parse(told) == Judgement.parse(told)


@pytest.mark.parametrize("text", [BY_HAND, USELESS, USELESS.replace(b"t 40", b"t 39"), BY_HAND.replace(b"manual", b"conforming")])
def test_json(text: bytes) -> None:
    by_program = subprocess.run([TOP / "model/party", "judge", "--json"], input=text, capture_output=True, check=False).stdout.decode()
    told = PARTY.judge(text)
    assert Judgement.parse(told).json() == by_program
    words, at = [sys.executable, "-m", "swap_party.json"], Path(swap_party.__file__).parent.parent
    assert subprocess.run(words, input=told.encode(), capture_output=True, check=True, cwd=at).stdout.decode() == by_program


def test_a_useless_publish_is_harmless() -> None:
    found = Judgement.parse(PARTY.judge(USELESS)).found
    assert [mark for _, mark in found] == [Mark(True, False), Mark(True, True)]
    assert str(found[1][0]) == "late carol publish on 2 due 38"


def test_another_digest() -> None:
    told = BY_HAND.replace(b"ledger 0", b"agreed bob %s\nledger 0" % (b"0" * 64), 1)
    with pytest.raises(RefusedError) as why:
        PARTY.judge(told)
    assert why.value.reason == "NotAgreed " + Judgement.parse(PARTY.judge(BY_HAND)).agree


def explained(text: bytes) -> tuple[int, str]:
    words = [sys.executable, "-m", "swap_party.explain", "--party", str(TOP / "model/party")]
    ended = subprocess.run(words, input=text, capture_output=True, check=False, cwd=Path(swap_party.__file__).parent.parent)
    assert not ended.stderr, ended.stderr
    return ended.returncode, ended.stdout.decode()


def test_sentences() -> None:
    status, told = explained(USELESS)
    assert status == 1
    assert "carol was to publish on ledger 2 at height 38 at the latest, and didn't." in told
    assert "It is harmless" in told and "line 16: t 40" in told
    assert "Found: 2, of which 1 counts." in told
    assert explained(BY_HAND)[0] == 0
    assert "it is the header of another deal" in explained(BY_HAND.replace(b'"hashlock":"6', b'"hashlock":"7'))[1]


@pytest.mark.parametrize(
    ("text", "hint"),
    [
        (BY_HAND.replace(b"\n", b"\r\n"), "CRLF"),
        (b"\xef\xbb\xbf" + BY_HAND, "byte-order mark"),
        (b"swap transcript 1\n" + BY_HAND, "leave out its first line"),
        (BY_HAND[:-4], "its last line is `end`"),
        (BY_HAND.replace(b"ledger 1 2", b"ledger 1 3"), "isn't what stands next there"),
        (BY_HAND.replace(b"ledger 0", b"agreed bob %s\nledger 0" % (b"0" * 64), 1), "A party told another digest"),
    ],
)
def test_hints(text: bytes, hint: str) -> None:
    status, told = explained(text)
    assert status == 3
    assert told.startswith("Nothing is judged: ")
    assert hint in told
