"""The transcripts of examples/vectors, told in short, with the signer's hashkeys in them."""
from __future__ import annotations

import re
import sys
from functools import cache
from typing import Any

sys.dont_write_bytecode = True
from program import must
from vector_rows import headers, key_of, line_of

# ---- transcripts: the deal, who conforms, and per ledger its entries; what is changed of the text then

STORIES = """
== everybody_paid of three: alice bob carol
0: publish by alice; t 2; KEY 0 via bob,carol,alice; claim by bob; t 69
1: publish by bob; t 1; KEY 0 via carol,alice; claim by carol; t 70
2: publish by carol; t 1; KEY 0 via alice; claim by alice; t 70
== walks_away of three: alice carol
0: publish by alice; t 61; refund by alice; t 10
1: t 71
2: t 71
== late of three: alice bob
0: publish by alice; t 61; KEY 0 via bob,carol,alice = TooLate 60; refund by alice; t 10
1: publish by bob; t 50; KEY 0 via carol,alice; claim by carol; t 21
2: publish by carol; KEY 0 via alice; claim by alice; t 71
== forged of three: alice
0: publish by alice; t 61; refund by alice; t 10
1: publish by bob; KEY 0 via carol,alice; t 71
2: t 71
== broke of three: alice bob carol
0: transfer 1 to bob by alice; t 71
1: t 71
2: t 71
== unfinished of three: alice bob carol
0: publish by alice; t 2
1: t 1
2: t 71
== every_reply of three: nobody
0: claim by bob = NoContract; refund by alice = NoContract; KEY 0 via bob,carol,alice = NoContract; publish by bob = NotParty;
 publish 10 10 2 0 101 LOCKS by alice = NoFunds 100; transfer 1 to bob by alice; publish by alice = NoFunds 99;
 transfer 2 to alice by bob = NoFunds 1; transfer 1 to alice by bob; publish by alice; publish by alice = AlreadyPublished;
 transfer 1 to bob by alice = NoFunds 0; claim by alice = NotCounterparty; refund by bob = NotParty; claim by bob = StillLocked 0;
 KEY 0 via bob,carol,alice by alice = NotCounterparty; KEY 0 via bob,carol,alice, another secret = WrongSecret;
 KEY 0 via carol,alice by bob = WrongPath; KEY 0 via bob,carol,alice, a bit of the last signature = WrongSignature; t 60;
 refund by alice = NotExpired 61; KEY 0 via bob,carol,alice; KEY 0 via bob,carol,alice = AlreadyUnlocked; t 1; refund by alice = NothingLocked;
 claim by bob; claim by bob = Settled; refund by alice = Settled; KEY 0 via bob,carol,alice = Settled; publish by alice = AlreadyPublished; t 10
1: publish 10 10 3 0 5 LOCKS by bob; t 61; KEY 0 via carol,alice = TooLate 60; refund by bob = NotExpired 81; t 20; refund by bob
2: transfer 1 to carol by carol; t 71
== every_reply_timelocks of three_timelocks: nobody
0: KEY 0 via alice, the secret alone by bob = NoContract; publish by alice; KEY 0 via alice, another secret alone by bob = WrongSecret;
 KEY 0 via bob,carol,alice = WrongPath; t 61; KEY 0 via alice, the secret alone by bob = TooLate 60; claim by bob = StillLocked 0;
 refund by alice; KEY 0 via alice, the secret alone by bob = Settled; t 10
1: publish by bob; t 50; refund by bob = NotExpired 51; KEY 0 via alice, the secret alone by carol; refund by bob = NothingLocked;
 KEY 0 via alice, the secret alone by carol = AlreadyUnlocked; claim by carol; t 21
2: publish 10 10 2 71 1 LOCKS by carol; t 71; KEY 0 via alice, the secret alone; refund by carol = NothingLocked; claim by alice
== two_locks of two_leaders: nobody
0: publish by alice; claim by bob = StillLocked 0; KEY 1 via bob; claim by bob = StillLocked 0; t 52; KEY 0 via bob,alice;
 refund by alice = NothingLocked; claim by bob; t 21
1: publish by bob; KEY 0 via alice; claim by alice = StillLocked 1; t 62; refund by bob = NotExpired 63; t 1; refund by bob; t 10
2: t 73
3: t 73
== own_expiry of two_payments: nobody
0: publish by alice; t 40; refund by alice = NotExpired 41; t 1; refund by alice; t 10
1: publish by alice; t 40; KEY 0 via bob,alice; claim by bob; t 11
2: publish by bob; t 30; refund by bob = NotExpired 31; t 1; refund by bob; t 20
== wrong_reply of three: alice bob carol; c 0 publish 10 10 2 0 100 LOCKS = accepted => c 0 publish 10 10 2 0 100 LOCKS = NoContract
0: publish by alice; t 2
1: t 71
2: t 71
== zero_before_a_number of three: alice bob carol; t 71 => t 071
0: t 71
1: t 71
2: t 71
== others_ledger of three: alice bob carol; c 0 claim => c 2 claim
0: claim by alice = NoContract; t 71
1: t 71
2: t 71
== cut_short of three: alice bob carol; \\nend\\n => \\n
0: t 71
1: t 71
2: t 71
== bound_too_small of three: alice bob carol; "bound":2 => "bound":1
0: t 71
1: t 71
2: t 71
== told_seed of three: alice bob carol; "name":"alice"} => "name":"alice","seed":"00"}
0: t 71
1: t 71
2: t 71
"""


def transcript_header(made: dict[str, Any], conforming: list[str]) -> str:
    """The header as a transcript tells it."""
    told = {field: value for field, value in made.items() if field != "finish"}
    names = [party["name"] for party in made["parties"]]
    return line_of(told | {"parties": [{"name": it, "actor": "conforming" if it in conforming else "manual"} for it in names]})


def entry_of(name: str, made: dict[str, Any], arc: int, words: str) -> str:
    """The line of an entry: a tick, or a call with who makes it (the one that may, if none is
    named) and its reply (`accepted`, if none is)."""
    if words.startswith("t "):
        return words
    call, _, reply = words.partition(" = ")
    call, _, sender = call.partition(" by ")
    names = [party["name"] for party in made["parties"]]
    locks = " ".join(it["hashlock"] for it in made["leaders"])
    if found := re.fullmatch(r"KEY (\d) via ([a-z,]*[a-z])(?:, (.*))?", call):
        secret, path, sigs = key_of(name, int(found[1]), found[2], found[3] or "")
        lists = ",".join(map(str, path)) or "-", ",".join(sig.hex() for sig in sigs) or "-"
        call, sender = " ".join(["unlock", found[1], secret.hex(), *lists]), sender or found[2].split(",")[0]
    elif found := re.fullmatch(r"transfer (\d+) to (\w+)", call):
        call = f"transfer {names.index(found[2])} {found[1]}"
    elif call == "publish":
        terms = [made[it] for it in ("start", "delta", "bound")] + [made["arcs"][arc].get("timelock", 0), made["arcs"][arc]["amount"]]
        call = f"publish {' '.join(map(str, terms))} LOCKS"
    return f"c {names.index(sender)} {call} = {reply or 'accepted'}".replace("LOCKS", locks)


def story(text: str) -> tuple[str, str]:
    """The name of a transcript and its text."""
    head, *ledgers = re.sub(r"\n ", " ", text.strip()).split("\n")
    found = re.fullmatch(r"(\w+) of (\w+): ([\w ]+)(; (.*) => (.*))?", head)
    assert found is not None
    name, of, conforming, _, old, new = found.groups()
    made = headers()[of][1]
    lines = ["swap transcript 1", transcript_header(made, conforming.split())]
    for arc, ledger in enumerate(ledgers):
        entries = [entry_of(of, made, arc, words.strip()) for words in ledger.partition(":")[2].split(";")]
        lines += [f"ledger {arc} {len(entries)}", *entries]
    whole = "\n".join([*lines, "end", ""])
    if old:
        old, new = (it.replace("\\n", "\n").replace("LOCKS", made["leaders"][0]["hashlock"]) for it in (old, new))
        must(old in whole, f"an edit of what stands nowhere: {old}")
        whole = whole.replace(old, new, 1)
    return name, whole


@cache
def stories() -> dict[str, str]:
    return dict(story(it) for it in re.split(r"(?m)^== ", STORIES) if it.strip())
