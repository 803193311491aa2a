"""What isn't of a format is refused, with the number of its line; what is read is written as it
was."""
from __future__ import annotations

import random

import pytest
from random_texts import TOP

import swap_party
from swap_party import Answer, Asked, Cleared, Header, Many, NotOfTheFormatError, Report, Reports
from swap_party.formats import Text

EXAMPLES = TOP / "examples"
REPORT = (EXAMPLES / "walks_away.report").read_text()
FOUND = (TOP / ".ci/runs/unfinished/stdout").read_text()
TRANSCRIPT = (EXAMPLES / "three_way_timelocks.transcript").read_text()
CLEARED = (EXAMPLES / "wishes.cleared").read_text()
MANY = (EXAMPLES / "shared_chains.many").read_text()
REPORTS = (EXAMPLES / "shared_chains.reports").read_text()
KEY = f"0 {'a' * 64} 0,1 {'b' * 4288},{'c' * 4288}"
TIMED_KEY = KEY.replace("0 ", "0 by 30 until 40 ", 1)
WARNED = "stale 2 9\nunkept 1\nunkept 1 4 0\nbad 0 3\nbad 1 0 NotExpired 61 accepted\nbad 2 5 accepted SenderFull\n"
ANSWER = (
    f"{WARNED}keep {TIMED_KEY}\ncall 1 1 by 10 until 30 publish 10 10 2 0 5 {'d' * 64}\n"
    f"call 0 1 by 30 until 40 unlock {KEY}\ncall 2 1 by 70 refund\nlanding 3 by 10 until 30\n"
)
TOLD = "about 0 some chain\nledger 1 2\nt 3\nno entry\nnow 1 9\nmargin 1 2\nend\n"
ASKED = f"seed {'e' * 64}\nagreed {'f' * 64}\nsent 0\nkeep {TIMED_KEY}\nseen 1 3\nnever 0\n{TRANSCRIPT.splitlines()[1]}\n{TOLD}"
ROW = f"row alice {'a' * 64} {'b' * 64},{'c' * 64}\n"
TERMS = f"terms alice 0 of 3\ndeal {'a' * 64}\nagree {'b' * 64}\nmode hashkeys start 10 delta 10 bound 2 horizon 70\n"
TERMS += "pays 0 bob 100 publish by 10 back 61\nabout 0 some chain\ngets 2 carol 1 open until 60 claim by 70\nleads 0 show by 40\nawake until 70\n"

# A text, what is changed in it, and how many lines behind the change the one is that is refused
ROWS = [
    (REPORT, "swap report 1", "swap report 2", 0),
    (REPORT, "swap hashkeys", "swap keys", 0),
    (REPORT, "start 10", "start 010", 0),
    (REPORT, "amount 100", "amount -100", 0),
    (REPORT, "ledger 1", "ledger 2", 0),
    (REPORT, ": accepted", ": Accepted", 0),
    (REPORT, "publish correct", "publish right", 0),
    (REPORT, "61 alice refund", "61 carol refund", 0),
    (REPORT, "via carol,alice", "via carol,dave", 10),
    (REPORT, "party carol", "party alice", 0),
    (REPORT, "findings 0\n", "findings 1\n", 0),
    (REPORT, "findings 0\n", "findings 0", 0),
    (REPORT, "findings 0\n", "findings 0\n\n", 1),
    (REPORT, "conforming: Deal", "conforming: Done", 0),
    (FOUND, "unfinished 0 height 70", "unfinished 0  height 70", 0),
    (FOUND, "unfinished 1 height 70", "late bob unlock on 1 due 7", 0),
    (FOUND, "unfinished 1 height 70", "late dave claim on 1 due 7", 0),
    (FOUND, "unfinished 1 height 70", "unfinished 3 height 70", 0),
    (TRANSCRIPT, "swap transcript 1", "swap transcript", 0),
    (TRANSCRIPT, '"bound":2', '"bound":2.0', 0),
    (TRANSCRIPT, '"bound":2', '"bound":65', 0),
    (TRANSCRIPT, '"swap":1', '"swap":1,"finish":"stop"', 0),
    (TRANSCRIPT, '"name":"bob"', '"name":"b o b"', 0),
    (TRANSCRIPT, '"to":"bob"', '"to":"bobby"', 0),
    (TRANSCRIPT, "ledger 0 6", "ledger 0 7", 7),
    (TRANSCRIPT, "ledger 0 6", "ledger 0 20065", 0),
    (TRANSCRIPT, "t 60", "t 0", 0),
    (TRANSCRIPT, "t 60", "t 1000001", 0),
    (TRANSCRIPT, "c 0 refund = NotExpired 61", "c 2 refund = NotExpired 61", 0),
    (TRANSCRIPT, "c 0 refund = NotExpired 61", "c 0 refund now = NotExpired 61", 0),
    (TRANSCRIPT, "NotExpired 61", "SenderFull", 0),
    (TRANSCRIPT, "unlock 0 00", "unlock 1 00", 0),
    (TRANSCRIPT, " - - = accepted", " -  - = accepted", 0),
    (TRANSCRIPT, "end\n", "end", 0),
    (TRANSCRIPT, "end\n", "end\nend\n", 1),
    (CLEARED, "left out 4 closed dave,erin", "left out 4 closed dave,", 0),
    (CLEARED, "group 1", "group 2", 0),
    (CLEARED, '"bound":2', '"bound": 2', 0),
    (CLEARED, '"name":"alice"}', '"name":"alice","seed":"00"}', 0),
    (MANY, "chain alice 115 bob 60", "chain alice 115 alice 60", 0),
    (MANY, "swap 0 1 2", "swap 0 1 3", 0),
    (MANY, "finish fair", "finish soon", 0),
    (REPORTS, "swap 1\n", "swap 2\n", 0),
    (REPORTS, "chain 1 height", "chain 2 height", 0),
    (ANSWER, "call 2 1 by 70 refund", "call 2 by 70 refund", 0),
    (ANSWER, "call 2 1 by 70 refund", "call 2 1 refund", 0),
    (ANSWER, "call 2 1 by 70 refund", "call 256 1 by 70 refund", 0),
    (ANSWER, "call 2 1 by 70 refund", "call 2 1 by 70 until 80 refund", 0),
    (ANSWER, "by 30 until 40 unlock", "by 30 unlock", 0),
    (ANSWER, "call 2 1 by 70 refund", "wait 5", 0),
    (ANSWER, "call 2 1 by 70 refund", "done", 0),
    (ANSWER, "landing 3 by 10 until 30", "unkept 1 4 0", 0),
    (ANSWER, "landing 3", "landing", 0),
    (ANSWER, "landing 3 by 10 until 30", "landing 3", 0),
    (ANSWER, "by 10 until 30 publish", "by 10 publish", 0),
    (ANSWER, "stale 2 9", "stale 2", 0),
    (ANSWER, "stale 2 9", "bad 2 9", 1),
    (ASKED, "seen 1 3", "seen 1", 0),
    (ASKED, "now 1 9", "now 1", 0),
    (ASKED, "margin 1 2", "margins 1 2", 0),
    (ANSWER, "unkept 1 4 0", "unkept 1 4", 0),
    (ANSWER, "accepted SenderFull", "accepted Full", 0),
    (ANSWER, "NotExpired 61 accepted", "NotExpired accepted", 0),
    (ANSWER, "bbb", "BBB", 0),
    (ASKED, "sent 0", "sent 256", 0),
    (ASKED, "by 30 until 40", "until 40 by 30", 0),
    (ASKED, "agreed f", "agreed F", 0),
    (ASKED, "ledger 1 2", "ledger 1 1", 2),
    (ASKED, "ledger 1 2", "ledger 1", 0),
    (ASKED, "seed e", "seed E", 0),
    (ROW, "row alice", "row al.ice", 0),
    (ROW, "bbb", "BBB", 0),
    (TERMS, "0 of 3", "0 of", 0),
    (TERMS, "agree bb", "agree b", 0),
    (TERMS, "mode hashkeys", "mode keys", 0),
    (TERMS, "back 61", "back", 0),
    (TERMS, "gets 2", "gives 2", 0),
    (TERMS, "claim by 70", "claim 70", 0),
    (TERMS, "awake until 70", "awake 70", 0),
]


@pytest.mark.parametrize(("text", "old", "new", "behind"), ROWS, ids=map(str, range(len(ROWS))))
def test_refused(text: str, old: str, new: str, behind: int) -> None:
    kind, before = type(swap_party.parse(text)), text.index(old)
    with pytest.raises(NotOfTheFormatError) as refused:
        kind.parse(text.replace(old, new, 1))
    assert refused.value.line == text[:before].count("\n") + 1 + behind, refused.value


@pytest.mark.parametrize("text", [REPORT, FOUND, TRANSCRIPT, CLEARED, MANY, REPORTS, ANSWER, ASKED, ROW, TERMS], ids=map(str, range(10)))
def test_edited(text: str) -> None:
    """Of a random edit either a line is refused, or it is read and written as it stands."""
    rng, kind = random.Random(len(text)), type(swap_party.parse(text))
    for _ in range(300):
        at, gone = rng.randrange(len(text)), rng.choice((0, 1, 1, 2, 40))
        other = text[:at] + rng.choice(("", "0", "7", " ", "\n", "a", "-", ",", "\u00e4", "end\n")) + text[at + gone :]
        try:
            told: Text = kind.parse(other)
        except NotOfTheFormatError as why:
            assert 1 <= why.line <= other.count("\n") + 2
        else:
            assert str(told) == other


def test_cut() -> None:
    """A text that is cut anywhere isn't of the format, but for an answer, whose lines stand alone."""
    kinds: list[tuple[str, type[Text]]] = [(REPORT, Report), (TRANSCRIPT, swap_party.Transcript), (REPORTS, Reports)]
    for text, kind in kinds:
        for at in range(0, len(text) - 1, 7):
            with pytest.raises(NotOfTheFormatError):
                kind.parse(text[:at])


def test_bytes() -> None:
    with pytest.raises(NotOfTheFormatError) as refused:
        Report.parse(REPORT.encode().replace(b"ledger 1", b"ledger \xff"))
    assert refused.value.line == 7


def test_kinds() -> None:
    assert swap_party.parse("wait\n") == Answer((swap_party.Wait(),))
    assert swap_party.parse("bad 0 1\ndone\n") == Answer((swap_party.Bad(0, 1), swap_party.Done()))
    assert isinstance(swap_party.parse(ASKED), Asked)
    assert isinstance(swap_party.parse(ASKED.split("\n", 1)[1]), Asked)
    for text in ("", "swap\n", "bad 0 1\n", "wait\nwait\n", "done\nbad 0 1\n"):
        with pytest.raises(NotOfTheFormatError):
            swap_party.parse(text)


def test_made() -> None:
    """What is put together by hand is written as the program reads it."""
    cleared = Cleared.parse(CLEARED)
    plain = cleared.groups[0].plain
    assert '"seed":"%s"' % ("07" * 32) in plain.with_seeds({name: bytes([7]) * 32 for name in plain.parties})
    many = Many.parse(MANY)
    assert Many.parse(str(many)) == many
    header = Header.of(TRANSCRIPT.splitlines()[1])
    assert header.horizon == 70
    assert header.ends == ((0, 1), (1, 2), (2, 0))
