"""Gives a module of WebAssembly addresses of 32 bits where Debian's binaryen (108), which lowers a
64-bit memory to a 32-bit one, leaves them at 64: in loads and stores of lanes, and in calls by a
table of functions.

It works on the module's text, as wasm-dis writes it. A load or store is an expression in parentheses
whose first operand is the address; a call's last operand is the place in the table.
"""
from __future__ import annotations

import re

ACCESS = re.compile(r"\(v128\.(?:load\d+_(?:splat|zero|lane)|load\d+x\d+_[su]|store\d+_lane)(?: offset=\d+| align=\d+| \d+)*\s+(?=\()")
CALL = re.compile(r"\(call_indirect(?: \$\S+)? \(type [^()]*\)\s+(?=\()")
PARENTHESIS = re.compile(r"[()]")
BEGIN, END = "(i32.wrap_i64 ", ")"


def end_of(text: str, begin: int) -> int:
    """Where the expression ends that begins there."""
    depth, at = 0, begin
    while True:
        found = PARENTHESIS.search(text, at)
        if found is None:
            raise ValueError("an expression without an end")
        depth += 1 if found[0] == "(" else -1
        at = found.end()
        if depth == 0:
            return at


def last_operand(text: str, begin: int) -> int:
    """Where the last of the operands begins, of which the first begins there."""
    while True:
        end = end_of(text, begin)
        after = re.compile(r"\s*").match(text, end)
        assert after is not None
        if text[after.end()] != "(":
            return begin
        begin = after.end()


def with_narrow_addresses(text: str) -> str:
    """The module's text, in which each such address is cut to 32 bits."""
    begins = [it.end() for it in ACCESS.finditer(text)] + [last_operand(text, it.end()) for it in CALL.finditer(text)]
    # (where one ends and another begins, the end comes first)
    marks = sorted([(end_of(text, it), 0, END) for it in begins] + [(it, 1, BEGIN) for it in begins])
    made, last = [], 0
    for at, _, mark in marks:
        made += [text[last:at], mark]
        last = at
    return "".join([*made, text[last:]])
