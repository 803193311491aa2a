"""What the program `party` answers: each reason, and each line that it writes, as rows of
tables/party; words, faults and the most bytes; deals of rows beside those that `make` makes; and
any moments of runs, for which the model says what is due.
"""
from __future__ import annotations

import json
import random
import re
import sys
from functools import partial
from hashlib import sha256
from pathlib import Path
from typing import Any, Dict

sys.dont_write_bytecode = True
from program import HERE, Failed, Program, Tests, must
from tables import tests_in
from texts import deal, signed, stored

sys.path[1:1] = [str(Path(HERE).parent), str(Path(HERE).parent / "python")]
from model.agreeing import MOST_SHORT  # noqa: E402
from model.commands import answer  # noqa: E402
from model.hashes import Hashkey, extended, secret_of  # noqa: E402
from model.judging import MOST_JUDGED  # noqa: E402
from model.ledger import UNLOCK, Call  # noqa: E402
from model.offer import STATED, header_of  # noqa: E402
from model.texts import call_words  # noqa: E402
from model.wallet import MOST_ASKED  # noqa: E402
from swap_party import Judgement, Transcript  # noqa: E402

Offer = Dict[str, Any]

USAGE = b"swap: wrong words\nusage: party keys NAME | deal | terms NAME | next NAME | judge [--json]\n"


def lines() -> bytes:
    return signed(stored("alice.asked")).encode()


def takes_its_words(program: Program) -> None:
    wrong: list[list[str]] = [[], ["alice"], [""], ["next"], ["keys"], ["terms"], ["deal", "alice"], ["judge", "alice"]]
    wrong += [["judge", "--JSON"], ["judge", "--json", "--json"], ["--json", "judge"], ["deal", "--json"]]
    wrong += [["next", "alice", "bob"], ["Next", "alice"]]
    wrong += [["alice", "next"]]
    for words in wrong:
        found = program.run(words, lines())
        must(found == (2, b"", USAGE), f"{words}: {found}")
    must(program.run(["next", ""], lines()) == (3, b"", b"swap: refused: Unknown 5 \n"), "an empty word is a name that nobody has")


def reads_the_most(program: Program) -> None:
    """As many bytes as the largest deal needs, and one more."""
    text = lines()
    for more, wanted in (0, b"swap: refused: BadLine 14\n"), (1, b"swap: too long\n"):
        found = program.run(["next", "alice"], text + b"x" * (MOST_ASKED + more - len(text) - 1) + b"\n")
        must((found.out, found.err) == (b"", wanted), f"{more}: {found}")


def reads_short_inputs(program: Program) -> None:
    """As many bytes of an input that makes a deal, and one more."""
    for words in ["keys", "alice"], ["deal"], ["terms", "alice"]:
        for more, wanted in (0, b"swap: refused: CutShort\n"), (1, b"swap: too long\n"):
            found = program.run(words, b"x" * (MOST_SHORT + more))
            must((found.out, found.err) == (b"", wanted), f"{words} {more}: {found}")


def reads_whole_cases(program: Program) -> None:
    """As many bytes as what is judged may have, and one more."""
    text = (Path(HERE) / "deals" / "by_hand.case").read_bytes()
    for more, wanted in (0, b"swap: refused: BadLine 20\n"), (1, b"swap: too long\n"):
        found = program.run(["judge"], text.ljust(MOST_JUDGED + more - 1, b"x") + b"\n")
        must((found.out, found.err) == (b"", wanted), f"{more}: {found}")


def is_cut_short(program: Program) -> None:
    """Each beginning of the lines is refused, within a line and behind it."""
    text = lines()
    for end in [*range(0, len(text), 97), *(at.end() for at in re.finditer(b"\n", text))][:-1]:
        found = program.run(["next", "alice"], text[:end])
        must(found == (3, b"", b"swap: refused: CutShort\n"), f"{end}: {found}")


def reads_pieces(program: Program) -> None:
    text = lines()
    whole = program.run(["next", "alice"], text)
    must(whole.status == 0 and whole.out.startswith(b"call 2 0 by 14 until 40 unlock 0 "), f"{whole}")
    for length in None, 1000:
        found = program.run_unread(["next", "alice"], text, length)
        must(found == (4, b"", b"swap: read fault\n"), f"{length}: {found}")


def writes_a_prefix(program: Program) -> None:
    text = lines()
    whole = program.run(["next", "alice"], text).out
    for room in 0, 1, len(whole) - 1:
        found = program.run_unwritten(["next", "alice"], text, room)
        must(found == (5, whole[:room], b"swap: write fault\n"), f"{room}: {found}")


# ---- deals of rows

OFFERED = "examples/three_way.job", "examples/two_payments.job", "tests/deals/plain_timelocks.made", "tests/deals/plain.made"


def rowed(program: Program, header: Offer) -> tuple[str, list[str]]:
    """A plain offer of a job's header, without seeds, and the rows that the parties' seeds give."""
    kept = {"parties": ("name", "actor"), "arcs": ("from", "to", "amount"), "leaders": ("party",)}
    plain = {field: header[field] for field in ("swap", "mode", "start", "delta", "bound")}
    plain |= {field: [{it: member[it] for it in names if it in member} for member in header[field]] for field, names in kept.items()}
    offer = json.dumps(plain) + "\n"
    return offer, [program.run(["keys", it["name"]], f"seed {it['seed']}\n{offer}".encode()).out.decode() for it in header["parties"]]


def is_the_made_deal(job: str, program: Program) -> None:
    """The header line of a deal of rows is that of a transcript of the job which has the parties'
    seeds."""
    header, transcript = transcript_of(job)
    offer, rows = rowed(program, header)
    random.Random(job).shuffle(rows)
    found = program.run(["deal"], (offer + "".join(rows)).encode())
    must(found == (0, transcript.header.line.encode() + b"\n", b""), f"{found}")


def largest_offer() -> Offer:
    """An offer of version 2 with as many parties, arcs and leaders as there may be, and as long
    names and amounts."""
    names = [f"party-of-name-{it:02}" for it in range(32)]
    ends = [(it, (it + 1) % 32) for it in range(32)] + [(it % 8, 8 + it % 24) for it in range(96)]
    arcs = [{"from": names[at], "to": names[to], "amount": 10**12} for at, to in ends]
    parties = [{"name": it} for it in names]
    return {"swap": 2, "mode": "hashkeys", "start": 1000, "delta": 100, "bound": 64, "parties": parties, "arcs": arcs,
            "leaders": [{"party": it} for it in names[:8]]}  # fmt: skip


def takes_the_longest_header(program: Program) -> None:
    offer, seed = largest_offer(), "5e" * 32
    plain = json.dumps(offer) + "\n"
    rows = [program.run(["keys", it["name"]], f"seed {seed}\n{plain}".encode()).out.decode() for it in offer["parties"]]
    header = program.run(["deal"], (plain + "".join(rows)).encode()).out
    must(28_000 < len(header) < 32_768, f"the longest header: {len(header)}")
    must(program.run(["terms", offer["parties"][0]["name"]], header).status == 0, "the longest header isn't taken")
    limit = "swap: refused: OverLimit 1 header 65537\n"
    for more, wanted in (0, "swap: refused: BadLine 1\n"), (1, limit):
        found = program.run(["terms", offer["parties"][0]["name"]], b" " * (65_536 + more - len(header) + 1) + header)
        must((found.out, found.err.decode()) == (b"", wanted), f"{more}: {found}")
    for more, wanted in (0, ""), (1, limit):
        found = program.run(["deal"], b" " * (65_536 + more - len(plain) + 1) + (plain + "".join(rows)).encode())
        must(found.err.decode() == wanted and (found.out == header) == (not wanted), f"{more}: {found}")
    for size, told in (1_000_000, b"refused: OverLimit 2 header 1000000"), (1_048_576 - 71, b"refused: OverLimit 2 header 1048505"), (1_048_576, b"too long"):
        found = program.run(["keys", "a"], b"seed " + seed.encode() + b"\n" + b"[" * size + b"\n")
        must((found.out, found.err) == (b"", b"swap: " + told + b"\n"), f"{found}")


def takes_the_most_context(program: Program) -> None:
    header = stored("three_way.agreed").split("\n")[0] + "\n"
    for count, wanted in (1024, b""), (1025, b"swap: refused: OverLimit 1026 about 1025\n"):
        found = program.run(["terms", "alice"], (header + "about 0 x\n" * count).encode())
        must(found.err == wanted and found.out.count(b"about 0 x\n") == (0 if wanted else count), f"{count}: {found}")
    found = program.run(["terms", "alice"], (header + "about 0 x\n" * 1024 + "abouts 0 x\n").encode())
    must(found == (3, b"", b"swap: refused: BadLine 1026\n"), f"a further line of another word: {found}")
    # (a further one that is no line of context has the same reason in both)
    said = header + "about 0 x\n" * 1024 + "about 9\n"
    found = program.run(["terms", "alice"], said.encode())
    must(found == (3, b"", b"swap: refused: OverLimit 1026 about 1025\n"), f"{found}")
    found = program.run(["next", "alice"], f"seed {'5e' * 32}\nagreed {'5e' * 32}\n{said}end\n".encode())
    must(found == (3, b"", b"swap: refused: OverLimit 1028 about 1025\n"), f"{found}")


# ---- enemies on one's ledgers


ALICE = "call 2 0 by 14 until 40 unlock 0 <secret> 0 <alice>\n"


def flooded(flood: str, count: int, text: str, arc: int = 2) -> str:
    """The lines of alice with that line of somebody else, so many times, on a ledger of hers."""
    head = re.search(rf"(?m)^ledger {arc} (\d+)\n", text)
    if head is None:
        raise Failed(f"no ledger {arc}")
    return text[: head.start()] + f"ledger {arc} {int(head[1]) + count}\n" + (flood + "\n") * count + text[head.end() :]


def must_answer(program: Program, text: str, wanted: str, status: int = 0) -> None:
    found = program.run(["next", "alice"], signed(text).encode())
    must(found == (status, signed(wanted).encode(), b""), f"status {found.status}, {found.err!r} {found.out[:300]!r}")


def isnt_flooded_by_long_unlocks(program: Program) -> None:
    """Refused unlocks of 32 signatures, of which 16 MiB stand on each ledger of hers."""
    long = "c %d unlock 0 <secret> {} {} = WrongPath".format(",".join("0" * 32), ",".join(["0" * 4288] * 32))
    text = flooded(long % 1, 123, flooded(long % 2, 123, stored("alice.asked")), 0)
    must(len(signed(text)) > 2 << 24, "it isn't long")
    must_answer(program, text, ALICE)


def isnt_flooded_by_many_calls(program: Program) -> None:
    """As many refused calls as anybody likes, by parties and by strangers, and transfers."""
    for flood in "c 2 claim = NotCounterparty", "c 2 transfer 2 0 = accepted", "c 77 publish 1 = NoFunds 1", "c 2 refund = NotExpired 61":
        for count in 33, 20_100:
            must_answer(program, flooded(flood, count, stored("alice.asked")), ALICE)
            must_answer(program, flooded("c 1" + flood[3:], count, stored("alice.asked"), 0), ALICE)


def bounds_its_own_calls(program: Program) -> None:
    """What she was refused doesn't count, however often; of her other calls an entry beyond 32 on a
    ledger is bad. Ticks are one, in however many lines."""
    text = stored("alice.asked")
    unpublished = text.replace("c 0 publish", "c 1 publish").replace("f421 = accepted", "f421 = NotParty", 1)
    unlock = "c 0 unlock 0 <secret> 0 <alice> = NoContract"
    for refused in "c 0 claim = NoContract", "c 0 refund = NoContract", "c 0 publish 1 = NoFunds 7", unlock:
        for count in 33, 300:
            must_answer(program, flooded(refused, count, unpublished, 0), ALICE + "landing 0 by 10 until 30\n")
    for count, warned in (32, ""), (33, "bad 0 32 NoFunds SenderFull\n"):
        found = flooded("c 0 transfer 1 1000000000000 = NoFunds 100", count, unpublished, 0)
        must_answer(program, found, warned.replace("NoFunds", "NoFunds 100") + ALICE + "landing 0 by 10 until 30\n", int(bool(warned)))
    for count in 20_000, 20_001:
        ticked = text.replace("ledger 0 2", f"ledger 0 {count + 1}").replace("t 3\n", "t 1\n" * count)
        must_answer(program, ticked, ALICE + "call 0 0 by 70 refund\n")


# ---- a follower that is late


def paid_twice() -> Offer:
    """Two leaders pay and are paid by v, who leads nothing and is paid on two arcs."""
    ends = [("v", "w"), ("v", "l"), ("w", "v"), ("l", "v")]
    return {"swap": 1, "mode": "hashkeys", "start": 10, "delta": 10, "bound": 2, "parties": [{"name": it} for it in "vwl"],
            "arcs": [{"from": at, "to": to, "amount": 1} for at, to in ends], "leaders": [{"party": it} for it in "wl"]}  # fmt: skip


def withholds_of_a_follower(program: Program) -> None:
    """Nothing that leaves v is opened whole: a hashkey that one of its arcs would refuse is presented
    on none; where both take it, it is answered on both."""
    offer, seeds = paid_twice(), {"v": "01" * 32, "w": "02" * 32, "l": "03" * 32}
    line = json.dumps(offer) + "\n"
    rows = [program.run(["keys", name], f"seed {seed}\n{line}".encode()).out.decode() for name, seed in seeds.items()]
    header = program.run(["deal"], (line + "".join(rows)).encode()).out.decode()
    dealt = header_of(header.strip().encode(), 1, STATED).deal
    publish = "publish 10 10 2 0 1 " + " ".join(it.hex() for it in dealt.hashlocks)
    key = extended(dealt.id, Hashkey(0, secret_of(bytes.fromhex(seeds["w"])), (), ()), 1, bytes.fromhex(seeds["w"]))
    unlock = call_words(Call(UNLOCK, key))

    def asked(heights: tuple[int, int], note: str = "", more: str = "") -> str:
        """The lines of v, whose ledgers 2 and 3 stand at such heights, and whose arc to w is opened
        for lock 0."""
        told = [f"ledger 0 2\nc 0 {publish} = accepted\nc 1 {unlock} = accepted\n", f"ledger 1 1\nc 0 {publish} = accepted\n"]
        told += [f"ledger {arc} 2\nc {payer} {publish} = accepted\nt {height}\n" for arc, payer, height in zip((2, 3), (1, 2), heights)]
        digest = sha256(header.encode()).hexdigest()
        return f"seed {seeds['v']}\nagreed {digest}\n{note}{header}{''.join(told)}{more}end\n"

    kept = program.run(["next", "v"], asked((1, 1)).encode()).out.decode()
    must(kept.startswith("keep 0 by ") and kept.count("\n") == 1, f"a hashkey for both: {kept}")
    last = int(kept.split(" ")[5])
    cases = [((last, last), "", 2), ((last, last + 1), "", 0), ((75, 75), "", 0), ((1, 1), f"now 3 {last + 1}\n", 0), ((1, 1), f"margin 2 {last}\n", 0)]
    for heights, more, count in cases:
        for note in "", kept:
            found = program.run(["next", "v"], asked(heights, note, more).encode()).out.decode()
            lines = [it for it in found.splitlines() if it.startswith("keep" if not note else "call") and (not note or " unlock " in it)]
            must(len(lines) == (min(count, 1) if not note else count), f"{heights} {more} {note[:6]}: {found}")


# ---- moments of runs


def transcript_of(job: str) -> tuple[Offer, Transcript]:
    """The transcript of a job's run, by the model."""
    job = deal(job) if "/" not in job else (Path(HERE).parent / job).read_text()
    return json.loads(job.split("\n")[0]), Transcript.parse(answer(["run", "--transcript"], job.encode()).out)


def cut(chance: random.Random, entries: list[str]) -> list[str]:
    """The entries up to one, mostly up to a call or behind it."""
    calls = [at + behind for at, entry in enumerate(entries) if entry.startswith("c ") for behind in (0, 1)]
    return entries[: chance.choice([0, len(entries), chance.randint(0, len(entries)), *calls])]


NOISE = (
    "c {0} claim = StillLocked 0", "c 77 refund = Settled", "c {0} transfer {1} 0 = accepted", "c {0} publish 1 = NotParty", "c  = x",
    "c {0} unlock x y = accepted z",
)  # fmt: skip
BAD = (
    "x", "t 0", "c {0} claim = accepted", "c {1} claim = accepted", "c {0} publish x = accepted", "c {1} refund = Settled",
    "c {1} unlock 0 = accepted",
)  # fmt: skip


def sent_in_pieces(chance: random.Random, entry: str) -> list[str]:
    """An entry, a tick perhaps in two pieces."""
    heights = int(entry[2:]) if entry.startswith("t ") else 0
    first = chance.randint(1, heights) if heights and chance.random() < 0.3 else heights
    return [entry] if first == heights else [f"t {first}", f"t {heights - first}"]


def troubled(chance: random.Random, entries: list[str], me: int) -> list[str]:
    """What a party's wallet tells of a ledger on which others do as they like."""
    told: list[str] = []
    for entry in entries:
        if entry.startswith(f"c {1 - me} publish") and chance.random() < 0.1:
            entry = entry.replace(" publish ", " publish 1", 1)
        told += sent_in_pieces(chance, entry)
        told += [chance.choice(NOISE).format(chance.choice([it for it in range(4) if it != me]), me)] * chance.choice([0, 0, 0, 1, 3])
        told += [chance.choice(BAD).format(chance.choice([it for it in range(4) if it != me]), me)] * (chance.random() < 0.03)
    return told


def notes_of(chance: random.Random, me: int, seen: list[list[str]]) -> list[str]:
    """What a wallet wrote down of what it did there, or most of it."""
    kept: dict[str, str] = {}
    sent: list[str] = []
    for arc, entries in enumerate(seen):
        for entry in entries:
            words = entry.split(" ")
            if words[:3] == ["c", str(me), "unlock"] and chance.random() < 0.95:
                heights = f"by {chance.randint(0, 99)} until {chance.randint(0, 99)}"
                kept.setdefault(words[3], f"keep {words[3]} {heights} {' '.join(words[4:7])}")
            if words[:3] == ["c", str(me), "publish"] and chance.random() < 0.7:
                sent.append(f"sent {arc}")
    noted = [f"seen {chance.randrange(len(seen))} {chance.randint(0, 60)}" for _ in range(chance.choice([0, 0, 0, 1, 2]))]
    noted += [f"never {it.split(' ')[1]}" for it in sent if chance.random() < 0.2]
    torn = [it[: chance.randint(6, len(it))] for it in kept.values() if chance.random() < 0.05]
    notes = [*kept.values(), *sent, *noted, *torn] * chance.randint(1, 2)
    chance.shuffle(notes)
    return notes


def heights_of(chance: random.Random, arcs: int) -> list[str]:
    """Tips of chains, and in how many heights calls land there."""
    found = [f"now {arc} {chance.randint(0, 80)}" for arc in range(arcs) if chance.random() < 0.2]
    found += [f"margin {arc} {chance.randint(0, 15)}" for arc in range(arcs) if chance.random() < 0.2]
    chance.shuffle(found)
    return found


def moment(chance: random.Random, header: Offer, ledgers: list[list[str]], me: int) -> tuple[list[str], list[str], list[str]]:
    """What a party's wallet hands over before the header's line and behind it: each of its ledgers
    up to somewhere, the hashkeys that it shows there and perhaps later ones, and some publishes."""
    names = [party["name"] for party in header["parties"]]
    touching = [names[me] in (arc["from"], arc["to"]) for arc in header["arcs"]]
    told = [cut(chance, entries) if is_near else [] for entries, is_near in zip(ledgers, touching)]
    notes = notes_of(chance, me, ledgers if chance.random() < 0.5 else told)
    told = [troubled(chance, entries, me) for entries in told]
    context = [f"about {chance.randrange(len(told))} ledger {it}" for it in range(chance.randint(0, 2))]
    behind = [line for arc, entries in enumerate(told) if entries or chance.random() < 0.5 for line in (f"ledger {arc} {len(entries)}", *entries)]
    return notes, context, behind + heights_of(chance, len(told))


def asked_at(chance: random.Random, header: Offer, line: str, ledgers: list[list[str]], me: int) -> str:
    notes, context, behind = moment(chance, header, ledgers, me)
    agreed = "".join(it + "\n" for it in (line, *context))
    digest = sha256(agreed.encode()).hexdigest()
    return "\n".join([f"seed {header['parties'][me]['seed']}", f"agreed {digest}", *notes, agreed + "\n".join([*behind, "end", ""])])


def answers_at_any_moment(job: str, program: Program) -> None:
    header, transcript = transcript_of(job)
    ledgers, chance = [list(map(str, it)) for it in transcript.ledgers], random.Random(job)
    for _ in range(60):
        me = chance.randrange(len(header["parties"]))
        text = asked_at(chance, header, transcript.header.line, ledgers, me)
        found = program.run(["next", header["parties"][me]["name"]], text.encode())
        must(found.status in (0, 1) and found.out, f"{found.err!r}: {text[:2000]}")


def judges_in_json(program: Program) -> None:
    """The JSON of a judgement says what its lines say, with the same status."""
    texts = [(Path(HERE) / "deals" / f"{name}.case").read_bytes() for name in ("by_hand", "useless")]
    texts += [it.replace(b'"manual"', b'"conforming"') for it in texts]
    stored = sorted((Path(HERE).parent / "examples" / "vectors" / "transcripts").glob("*.transcript"))
    texts += [it.read_bytes().partition(b"\n")[2] for it in stored]
    for text in texts:
        told, written = program.run(["judge"], text), program.run(["judge", "--json"], text)
        must(told.status == written.status, f"the status is {told.status}, and as JSON {written.status}")
        must(told.err == written.err, f"the reason is {told.err!r}, and as JSON {written.err!r}")
        if told.status < 2:
            must(Judgement.parse(told.out).json().encode() == written.out, f"the JSON is {written.out!r}")


ENEMIES = isnt_flooded_by_long_unlocks, isnt_flooded_by_many_calls, bounds_its_own_calls, withholds_of_a_follower
LIMITS = (
    takes_its_words, takes_the_longest_header, takes_the_most_context, reads_the_most, reads_short_inputs, reads_whole_cases, is_cut_short, reads_pieces,
    writes_a_prefix, judges_in_json,
)  # fmt: skip


TABLES = tuple(f"party/{name}" for name in ("keys", "deal", "terms", "answers", "landing", "notes", "enemies", "refusals", "judge"))


def tests() -> Tests:
    for job in OFFERED:
        yield f"party: the deal of rows of {job}", partial(is_the_made_deal, job)
    for job in "examples/three_way.job", "examples/two_payments.job", "two_leaders", "tests/deals/plain_timelocks.made":
        yield f"party: at any moment of {job}", partial(answers_at_any_moment, job)
    for name in TABLES:
        yield from tests_in(name)
    for it in (*LIMITS, *ENEMIES):
        yield f"party: {it.__name__}", partial(it)
