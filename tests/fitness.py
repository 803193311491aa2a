"""The kit of examples/vectors: that it refuses every wrong contract and every wrong signer that
mutants.py makes, that good ones keep its rules, and that an audit by the program gives its replies
and balances."""
from __future__ import annotations

import re
import shutil
import subprocess
import sys
import tempfile
from functools import cache, partial
from pathlib import Path
from typing import Iterable, Sequence

sys.dont_write_bytecode = True
TOP = Path(__file__).resolve().parent.parent
KIT = TOP / "examples" / "vectors"
# (both folders have a `contract`: that of the wallets comes first)
sys.path[1:1] = [str(TOP / "examples" / "wallets"), str(TOP / "python"), str(KIT)]
import kit_rows  # noqa: E402
import mutants  # noqa: E402
from contract import Contract  # noqa: E402
from program import HERE, Program, Tests, must  # noqa: E402
from stories import transcript_header  # noqa: E402
from texts import asked  # noqa: E402

from swap_party.calls import call_of  # noqa: E402
from swap_party.header import Header  # noqa: E402

CC = shutil.which("cc")
SENDER = re.compile(r"call (\d+) ")


# ---- over the pipe


def run(*words: object) -> tuple[int, str]:
    """What the runner says of a command, and its status."""
    found = subprocess.run([KIT / "run", *map(str, words)], capture_output=True, text=True, check=False, timeout=300)
    return found.returncode, found.stdout + found.stderr


def keeps_all(words: Sequence[object], _: Program) -> None:
    status, told = run(*words)
    must(status == 0 and re.fullmatch(r"all \d+ rules are kept\n", told), f"status {status}:\n{told}")


def keeps_all_in_c(_: Program) -> None:
    with tempfile.TemporaryDirectory() as room:
        made = Path(room, "contract")
        subprocess.run([str(CC), "-std=c11", "-O2", "-Wall", "-Wextra", "-Werror", "-o", made, Path(HERE, "contract.c")], check=True)
        keeps_all([made], _)


def is_told(_: Program) -> None:
    """The runner says of a wrong contract which rule it breaks."""
    with tempfile.TemporaryDirectory() as room:
        wrong = Path(room, "contract.py")
        wrong.write_text(next(it.source for it in mutants.named() if it.what == "NotCounterparty comes before Settled"))
        status, told = run(sys.executable, wrong)
    wanted = "broken: where nothing is left every other call is Settled, whoever makes it: to 'call 0 claim' "
    wanted += "it answered NotCounterparty for Settled, as a claim or a refund was accepted\n"
    must(status == 1 and wanted in told, f"status {status}:\n{told}")


def is_silent(command: str, wanted: str, _: Program) -> None:
    """The runner says where a command can't be asked."""
    status, told = run(*command.split())
    must(status == 2 and wanted in told, f"status {status}:\n{told}")


# ---- wrong versions


def is_refused(mutant: mutants.Mutant, _: Program) -> None:
    must(mutants.contract_refused(mutant), "no vector refuses it")


def are_refused(path: Path, number: int, _: Program) -> None:
    """No vector takes a wrong version of a function, but for those that are as good."""
    refused = mutants.contract_refused if path == mutants.CONTRACT else mutants.signer_refused
    found = [mutants.wrong_with(it, refused(it)) for it in mutants.made_of(path, mutants.functions(path)[number])]
    must(not any(found), "\n".join(filter(None, found)))


def are_made(_: Program) -> None:
    """What is said to be as good is made; and they are as many as the pages say."""
    made = [it.what for it in [*mutants.contracts(), *mutants.signers()]]
    must(mutants.AS_GOOD.keys() <= set(made), f"not made: {mutants.AS_GOOD.keys() - set(made)}")
    must(len(made) > 700, f"{len(made)} are made")


# ---- the program


@cache
def cases() -> tuple[list[kit_rows.Case], dict[str, str]]:
    """The cases, and the signatures by the names that stand for them."""
    signatures: dict[bytes, str] = {}
    found = list(kit_rows.cases(signatures))
    return found, {name: sig.hex() for sig, name in signatures.items()}


class Audited:
    """A case as a transcript of its ledger, as far as a transcript can tell it. An account that has
    less than the arc's amount paid it to the other first."""

    def __init__(self, case: kit_rows.Case) -> None:
        has, gets = case.first
        lacks = max(0, case.amount - has)
        self.case, self.height, self.entries = case, 0, list[str]()
        self.beside = has - case.amount + lacks, gets - lacks
        if lacks:
            self.entries.append(f"c {case.ends[0]} transfer {case.ends[1]} {lacks} = accepted")

    def add(self, said: str, answer: str) -> None:
        """Adds a height or a call; a call that isn't one of the arc's two, or doesn't fit the deal,
        leaves no entry."""
        if said.startswith("height "):
            self.entries += [f"t {int(said[7:]) - self.height}"]
            self.height = int(said[7:])
        elif (found := SENDER.match(said)) and int(found[1]) in self.case.ends and answer != "BadCall":
            self.entries.append(f"c {said[5:]} = {answer}")

    def balances(self, program: Program) -> str:
        """What an audit says that the two accounts have, and the contract holds."""
        made = self.case.made
        lines = ["swap transcript 1", transcript_header(made, [])]
        for arc in range(len(made["arcs"])):
            lines += [f"ledger {arc} {len(self.entries)}", *self.entries] if arc == self.case.arc else [f"ledger {arc} 0"]
        text = "\n".join([*lines, "end", ""])
        report = asked(program, ["audit"], re.sub(r"<s\d+>", lambda found: cases()[1][found[0]], text))
        found = re.findall(r"(?m)^end height \d+ \S+ (\d+) \S+ (\d+) held (\d+)$", report)
        must(len(found) == len(made["arcs"]), f"{self.case.rule}: {report}")
        party, counterparty, held = map(int, found[self.case.arc])
        return f"{party + self.beside[0]} {counterparty + self.beside[1]} {held}"


def is_audited(case: kit_rows.Case, program: Program) -> None:
    """The proved ledger gives each reply of a case, and the balances behind each accepted call."""
    audited, is_due = Audited(case), True
    for said, answer in case.lines:
        if said == "balances":
            found = audited.balances(program) if is_due or (said, answer) == case.lines[-1] else answer
            must(found == answer, f"the balances {found} for {answer}")
        else:
            audited.add(said, answer)
            is_due = answer == "accepted"


# ---- the wallets' contract


class OfWallets:
    """The contract of examples/wallets behind the lines of the runner."""

    def __init__(self, case: kit_rows.Case) -> None:
        self.contract = Contract(Header.of(transcript_header(case.made, [])), case.arc)
        self.contract.balances = dict(zip(case.ends, case.first))
        self.height = 0

    def answer(self, line: str) -> str:
        word, *words = line.split(" ")
        it = self.contract
        if word == "height":
            self.height = int(words[0])
            return "ok"
        if word == "call":
            return str(it.reply(self.height, int(words[0]), call_of(words[1:])))
        held = it.published.amount if it.published and not it.settled else 0
        return f"{it.balances[it.party]} {it.balances[it.counterparty]} {held}"


def is_kept_by_wallets(case: kit_rows.Case, _: Program) -> None:
    """The contract of examples/wallets gives each reply that a transcript can tell."""
    contract = OfWallets(case)
    for said, answer in told_in_transcripts(case):
        found = contract.answer(re.sub(r"<s\d+>", lambda it: cases()[1][it[0]], said))
        must(found == answer, f"{said[:80]}: {found} for {answer}")


def told_in_transcripts(case: kit_rows.Case) -> Iterable[tuple[str, str]]:
    for said, answer in case.lines:
        found = SENDER.match(said)
        if answer != "BadCall" and (not found or int(found[1]) in case.ends):
            yield said, answer


def numbered(found: Iterable[kit_rows.Case]) -> Iterable[tuple[str, kit_rows.Case]]:
    """The cases by their rules; a rule's further ones with a number."""
    count: dict[str, int] = {}
    for case in found:
        count[case.rule] = count.get(case.rule, 0) + 1
        yield case.rule + (f" ({count[case.rule]})" if count[case.rule] > 1 else ""), case


def tests() -> Tests:
    yield "kit: the contract in Python keeps all rules", partial(keeps_all, [KIT / "contract.py"])
    yield "kit: the signer keeps all rules", partial(keeps_all, ["--signer", Path(HERE, "signer.py")])
    if CC:
        yield "kit: a contract in C keeps all rules", keeps_all_in_c
    else:
        print("the contract in C wasn't tested: there is no cc", file=sys.stderr)
    yield "kit: the rule that is broken is told", is_told
    yield "kit: a command that ends is told", partial(is_silent, "true", "it ended, or answered an empty line, at 'deal 0 100 0")
    yield "kit: a command that isn't there is told", partial(is_silent, "no-such-contract", "can't be started")
    for mutant in mutants.named():
        yield f"kit: refused where {mutant.what}", partial(is_refused, mutant)
    for path in (mutants.CONTRACT, mutants.SIGNER):
        for number, function in enumerate(mutants.functions(path)):
            yield f"kit: wrong versions of {path.name}, {function.name}", partial(are_refused, path, number)
    yield "kit: the wrong versions that are as good", are_made
    for name, case in numbered(cases()[0]):
        yield f"kit: audited: {name}", partial(is_audited, case)
        yield f"kit: the wallets' contract: {name}", partial(is_kept_by_wallets, case)
