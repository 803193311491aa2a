#!/usr/bin/env python3
"""Makes the wrong versions of contract.py and of tests/signer.py, and tells which vector refuses
each.

usage: examples/vectors/mutants.py [--list] [--signer]

--list tells of each wrong version what is refused, and by which rule. The status is 1 where the
vectors take one that isn't said to be as good as the original.

They are made from the source's syntax: each statement left out, each two rows of the table
exchanged, each comparison turned or moved by one, each number moved by one, each operand left out,
each tag and order of bytes changed, each field taken from another place. THIRTEEN are named: a
contract with one of these was taken by vectors that were written by hand.
"""
from __future__ import annotations

import argparse
import ast
import copy
import sys
import textwrap
from collections import Counter
from collections.abc import Callable, Iterator
from functools import cache, lru_cache
from pathlib import Path
from types import ModuleType
from typing import NamedTuple, Optional

sys.dont_write_bytecode = True
HERE = Path(__file__).resolve().parent
import kit  # noqa: E402

CONTRACT, SIGNER = HERE / "contract.py", HERE.parent.parent / "tests" / "signer.py"
# What reads lines, and what nothing but a mutant uses
LEFT_OUT = {"Chain", "terms", "Terms", "Hashkey", "BadCall", "hashkey", "answer", "signed_words"}
SIGNATURES = {"is_signed", "digits_of", "digest"}
TABLE = {"publish", "unlock", "claim", "refund"}

OTHER_COMPARISONS: dict[type, list[type]] = {
    ast.Lt: [ast.LtE, ast.Gt],
    ast.LtE: [ast.Lt, ast.Gt],
    ast.Gt: [ast.GtE, ast.Lt],
    ast.GtE: [ast.Gt, ast.Lt],
    ast.Eq: [ast.NotEq],
    ast.NotEq: [ast.Eq],
    ast.In: [ast.NotIn],
    ast.NotIn: [ast.In],
}
OTHER_OPERATORS: dict[type, type] = {ast.Add: ast.Sub, ast.Sub: ast.Add, ast.Mult: ast.Add, ast.RShift: ast.LShift, ast.BitAnd: ast.BitOr}
OTHER_NAMES = {"min": ["max"], "max": ["min"], "any": ["all"], "all": ["any"]}
OTHER_FIELDS = {
    "party": ["counterparty"],
    "counterparty": ["party"],
    "start": ["delta", "bound", "timelock"],
    "delta": ["start", "bound"],
    "bound": ["start", "delta"],
    "timelock": ["start"],
    "is_published": ["is_settled"],
    "is_settled": ["is_published"],
    "amount": ["start"],
}
# Wrong versions that are no worse, each with why
SETTLED = "what is settled was published"
AS_GOOD = {
    "unlock: the rows return 'NoContract' and return 'Settled' exchanged": SETTLED,
    "claim: the rows return 'NoContract' and return 'Settled' exchanged": SETTLED,
    "refund: the rows return 'NoContract' and return 'Settled' exchanged": SETTLED,
    "funds: self.accounts[self.party] and self.correct.amount exchanged": "the lesser of two is the same in either order",
    "chains: 15 as 16": "nobody reads a chain's value after 16 steps",
}
THIRTEEN = {
    "the last signature of a path is never checked": (
        "for at in range(len(key.signatures))",
        "for at in range(max(1, len(key.signatures) - 1))",
    ),
    "a path may repeat parties": ("len(set(path)) != len(path)", "False"),
    "a signature may be longer than 2,144 bytes": ("len(it) != SIGNATURE", "len(it) < SIGNATURE"),
    "signatures are taken with timelocks": ("bool(path or key.signatures)", "bool(path)"),
    "a claim pays the deal's amount": ("self.accounts[self.counterparty] += self.held", "self.accounts[self.counterparty] += self.correct.amount"),
    "a refund pays the deal's amount": ("self.accounts[self.party] += self.held", "self.accounts[self.party] += self.correct.amount"),
    "the hashlock is the deal's": ("self.terms.hashlocks", "self.correct.hashlocks"),
    "the timelock is the deal's": ("self.terms.timelock", "self.correct.timelock"),
    "the greatest expiry of the closed locks counts": ("1 + min(", "1 + max("),
    "opened locks count in an expiry": ("for lock in self.closed())", "for lock in range(len(self.deal.leaders)))"),
    "version 1 has version 2's short expiry": ("self.deal.version == 2 and ", ""),
    "AlreadyPublished comes before NotParty": (
        'if sender != self.party:\n            return "NotParty"\n        if self.is_published:\n            return "AlreadyPublished"',
        'if self.is_published:\n            return "AlreadyPublished"\n        if sender != self.party:\n            return "NotParty"',
    ),
    "NotCounterparty comes before Settled": (
        'if self.is_settled:\n            return "Settled"\n        if sender != self.counterparty:\n            return "NotCounterparty"',
        'if sender != self.counterparty:\n            return "NotCounterparty"\n        if self.is_settled:\n            return "Settled"',
    ),
}


class Mutant(NamedTuple):
    """A wrong version: what is wrong with it, in which function, and its source."""

    what: str
    function: str
    source: str


# A change of a node in place, and what it changes
Change = tuple[str, Callable[[], None]]


# ---- changes of one node


def text(node: ast.AST) -> str:
    return " ".join(ast.unparse(node).split())[:100]


def put(node: ast.AST, field: str, value: object) -> Callable[[], None]:
    return lambda: setattr(node, field, value)


def put_all(node: ast.AST, other: ast.AST) -> Callable[[], None]:
    """Makes a node another one."""

    def change() -> None:
        object.__setattr__(node, "__class__", type(other))
        vars(node).clear()
        vars(node).update(vars(other))

    return change


def of_constant(node: ast.Constant) -> Iterator[Change]:
    value = node.value
    if isinstance(value, bool):
        yield f"{value} turned", put(node, "value", not value)
    elif isinstance(value, int):
        for other in (value + 1, value - 1):
            if other >= 0:
                yield f"{value} as {other}", put(node, "value", other)
    elif isinstance(value, bytes) and value:
        yield f"the tag {value!r} as another", put(node, "value", bytes([value[0] + 1]))
        yield f"the tag {value!r} left out", put(node, "value", b"")
    elif value in ("big", "little"):
        yield "bytes in the other order", put(node, "value", "little" if value == "big" else "big")


def of_operation(node: ast.AST) -> Iterator[Change]:
    if isinstance(node, ast.Compare):
        for other in OTHER_COMPARISONS.get(type(node.ops[0]), []):
            yield f"{text(node)} by {other.__name__}", put(node, "ops", [other()])
    elif isinstance(node, ast.BoolOp):
        other = ast.Or if isinstance(node.op, ast.And) else ast.And
        yield f"{text(node)} by {other.__name__}", put(node, "op", other())
        for at, operand in enumerate(node.values):
            rest = node.values[:at] + node.values[at + 1 :]
            yield f"{text(node)} without {text(operand)}", put(node, "values", rest)
    elif isinstance(node, ast.BinOp):
        if type(node.op) in OTHER_OPERATORS:
            yield f"{text(node)} by {OTHER_OPERATORS[type(node.op)].__name__}", put(node, "op", OTHER_OPERATORS[type(node.op)]())
        yield f"{text(node)} as {text(node.left)}", put_all(node, node.left)
        yield f"{text(node)} as {text(node.right)}", put_all(node, node.right)
    elif isinstance(node, ast.UnaryOp):
        yield f"{text(node)} as {text(node.operand)}", put_all(node, node.operand)
    elif isinstance(node, ast.AugAssign) and type(node.op) in OTHER_OPERATORS:
        yield f"{text(node)} the other way", put(node, "op", OTHER_OPERATORS[type(node.op)]())


def of_place(node: ast.AST) -> Iterator[Change]:
    """Fields and names from another place, and members in another order."""
    if isinstance(node, ast.Attribute):
        for other in OTHER_FIELDS.get(node.attr, []):
            yield f"{text(node)} as {other}", put(node, "attr", other)
        if isinstance(node.value, ast.Attribute) and node.value.attr in ("terms", "correct"):
            other = "correct" if node.value.attr == "terms" else "terms"
            yield f"{text(node)} from {other}", put(node.value, "attr", other)
        if isinstance(node.value, ast.Name) and node.value.id == "terms":
            yield f"{text(node)} from self.correct", put(node, "value", ast.parse("self.correct", mode="eval").body)
        if text(node) == "self.held":
            yield "self.held as the deal's amount", put_all(node, ast.parse("self.correct.amount", mode="eval").body)
    elif isinstance(node, ast.Name):
        for other in OTHER_NAMES.get(node.id, []):
            yield f"{node.id} as {other}", put(node, "id", other)
    elif isinstance(node, ast.FormattedValue):
        yield f"the number {text(node.value)} one more", put(node, "value", ast.BinOp(node.value, ast.Add(), ast.Constant(1)))
    for field in ("args", "elts"):
        members = getattr(node, field, None)
        if isinstance(members, list) and not isinstance(node, ast.arguments):
            yield from of_members(node, field, members)


def of_members(node: ast.AST, field: str, members: list[ast.expr]) -> Iterator[Change]:
    """Each two neighbours exchanged, and of what is hashed each left out."""
    for at in range(len(members) - 1):
        changed = [*members[:at], members[at + 1], members[at], *members[at + 2 :]]
        yield f"{text(members[at])} and {text(members[at + 1])} exchanged", put(node, field, changed)
    if isinstance(node, ast.Call) and text(node.func) == "digest":
        for at, member in enumerate(members):
            yield f"{text(member)} not hashed", put(node, field, members[:at] + members[at + 1 :])


# ---- changes of a block


def is_row(statement: ast.stmt) -> bool:
    return isinstance(statement, ast.If) and not statement.orelse and isinstance(statement.body[0], (ast.Return, ast.Raise))


def row_text(statement: ast.stmt) -> str:
    """A row by its reply, another statement by its text."""
    return text(statement.body[0]) if isinstance(statement, ast.If) else text(statement)


def of_block(function: str, node: ast.AST) -> Iterator[Change]:
    """Each statement left out, and each two rows of the table exchanged."""
    block = getattr(node, "body", None)
    if not isinstance(block, list) or isinstance(node, (ast.Module, ast.ClassDef)):
        return
    for at, statement in enumerate(block):
        is_text = isinstance(statement, ast.Expr) and isinstance(statement.value, ast.Constant)
        if len(block) > 1 and not is_text and not isinstance(statement, ast.AnnAssign):
            yield f"without {'the row ' if is_row(statement) else ''}{row_text(statement)}", put(node, "body", block[:at] + block[at + 1 :])
    rows = [at for at, statement in enumerate(block) if is_row(statement)] if function in TABLE else []
    for place, at in enumerate(rows):
        for other in rows[place + 1 :]:
            changed = list(block)
            changed[at], changed[other] = block[other], block[at]
            yield f"the rows {row_text(block[at])} and {row_text(block[other])} exchanged", put(node, "body", changed)


# ---- all of a source


def changes_of(function: str, node: ast.AST) -> Iterator[Change]:
    if isinstance(node, ast.Constant):
        yield from of_constant(node)
    yield from of_operation(node)
    yield from of_place(node)
    yield from of_block(function, node)


def without_types(function: ast.FunctionDef) -> Iterator[ast.AST]:
    """The nodes of a function but those of its arguments and of types."""
    waiting: list[ast.AST] = list(function.body)
    yield function
    while waiting:
        node = waiting.pop(0)
        yield node
        waiting += [it for name, it in ast.iter_fields(node) if name != "annotation" and isinstance(it, ast.AST)]
        waiting += [it for name, of in ast.iter_fields(node) if isinstance(of, list) for it in of if isinstance(it, ast.AST)]


def functions_in(tree: ast.AST) -> Iterator[ast.FunctionDef]:
    for node in ast.iter_child_nodes(tree):
        if getattr(node, "name", None) in LEFT_OUT:
            continue
        if isinstance(node, ast.FunctionDef):
            yield node
        elif isinstance(node, ast.ClassDef):
            yield from functions_in(node)


@cache
def functions(path: Path) -> list[ast.FunctionDef]:
    """The functions of a source whose wrong versions are made."""
    return list(functions_in(ast.parse(path.read_text())))


def made_of(path: Path, function: ast.FunctionDef) -> Iterator[Mutant]:
    """Every wrong version of a function, as its whole source."""
    lines = path.read_text().split("\n")
    first, last = function.lineno - 1 - len(function.decorator_list), function.end_lineno
    seen, told = {ast.unparse(function)}, Counter[str]()
    for at, node in enumerate(without_types(function)):
        for which, (what, _) in enumerate(changes_of(function.name, node)):
            own = copy.deepcopy(function)
            found = next(it for place, it in enumerate(without_types(own)) if place == at)
            list(changes_of(function.name, found))[which][1]()
            changed = ast.unparse(ast.fix_missing_locations(own))
            if changed not in seen:
                seen.add(changed)
                told[what] += 1
                again = f" ({told[what]})" if told[what] > 1 else ""
                body = textwrap.indent(changed, " " * function.col_offset).split("\n")
                yield Mutant(f"{function.name}: {what}{again}", function.name, "\n".join([*lines[:first], *body, *lines[last:]]))


def named() -> Iterator[Mutant]:
    """THIRTEEN, each an edit of the source."""
    source = CONTRACT.read_text()
    for what, (old, new) in THIRTEEN.items():
        assert old in source, what
        yield Mutant(what, "", source.replace(old, new))


def contracts() -> Iterator[Mutant]:
    yield from named()
    for function in functions(CONTRACT):
        yield from made_of(CONTRACT, function)


def signers() -> Iterator[Mutant]:
    for function in functions(SIGNER):
        yield from made_of(SIGNER, function)


# ---- asking them


def module_of(source: str, name: str) -> ModuleType:
    module = ModuleType(name)
    sys.modules[name] = module
    exec(compile(source, name, "exec"), module.__dict__)
    return module


@cache
def reference() -> ModuleType:
    module = module_of(CONTRACT.read_text(), "contract_as_it_is")
    module.__dict__["is_signed"] = lru_cache(maxsize=4096)(module.__dict__["is_signed"])
    return module


@cache
def contract_cases() -> list[kit.Case]:
    return kit.contract_cases()


@cache
def signer_cases() -> list[kit.Case]:
    return kit.signer_cases()


def contract_refused(mutant: Mutant) -> Optional[kit.Broken]:
    """What refuses a wrong contract, if anything does."""
    try:
        module = module_of(mutant.source, "wrong_contract")
    except Exception as why:
        return kit.Broken(contract_cases()[0], contract_cases()[0].lines[0], type(why).__name__)
    if mutant.function not in SIGNATURES:  # (it checks signatures as the original does)
        module.__dict__["is_signed"] = reference().__dict__["is_signed"]
    return kit.refused_by(module.__dict__["Chain"]().answer, contract_cases())


def signer_refused(mutant: Mutant) -> Optional[kit.Broken]:
    """What refuses a wrong signer, if anything does."""
    try:
        module = module_of(mutant.source, "wrong_signer")
    except Exception as why:
        return kit.Broken(signer_cases()[0], signer_cases()[0].lines[0], type(why).__name__)
    return kit.refused_by(module.__dict__["answer"], signer_cases())


def wrong_with(mutant: Mutant, found: Optional[kit.Broken]) -> Optional[str]:
    """Whether the vectors take a wrong version, or refuse one that is said to be as good."""
    if (found is None) == (mutant.what in AS_GOOD):
        return None
    return f"'{mutant.what}' is said to be as good, and it isn't: {found}" if found else f"no vector refuses '{mutant.what}'"


def main() -> int:
    words = argparse.ArgumentParser(description=(__doc__ or "").split("\n\n")[0])
    words.add_argument("--list", action="store_true")
    words.add_argument("--signer", action="store_true")
    asked = words.parse_args()
    mutants, refused = (signers(), signer_refused) if asked.signer else (contracts(), contract_refused)
    count = wrong = 0
    for mutant in mutants:
        count += 1
        found = refused(mutant)
        if asked.list:
            print(f"{mutant.what}\n    {found.case.rule if found else AS_GOOD.get(mutant.what, 'taken')}")
        if why := wrong_with(mutant, found):
            wrong += 1
            print(why)
    print(f"{count} wrong versions: {f'{wrong} wrongly judged' if wrong else 'none is taken but those that are as good'}")
    return 1 if wrong else 0


if __name__ == "__main__":
    sys.exit(main())
