"""Turns the text of an LLVM module that the kit made for x86-64 into one for another processor
whose sizes and alignments are the same.

Three things of the text name the processor: its data layout, its triple and the attributes of its
functions. A function of LLVM that only x86-64 has is written out where its meaning stands below, and
any function of LLVM that isn't known here is refused.
"""
from __future__ import annotations

import re

# Of each target its data layout, as the kit's clang has it, and its triple
LAYOUTS = {
    "wasm64-unknown-unknown": "e-m:e-p:64:64-p10:8:8-p20:8:8-i64:64-i128:128-n32:64-S128-ni:1:10:20",
    "aarch64-unknown-linux-gnu": "e-m:e-p270:32:32-p271:32:32-p272:64:64-i8:8:32-i16:16:32-i64:64-i128:128-n32:64-S128-Fn32",
}
# The functions of LLVM that mean the same on every processor, without the types in their names
KNOWN = """abs arithmetic.fence assume bitreverse bswap ctlz ctpop cttz expect experimental.noalias.scope.decl fabs fshl fshr
lifetime.end lifetime.start masked.load masked.store memcpy memmove memset memset.inline memcpy.inline objectsize sadd.sat
sadd.with.overflow smax smin smul.with.overflow sqrt ssub.sat ssub.with.overflow trap uadd.sat uadd.with.overflow ubsantrap
umax umin umul.with.overflow usub.sat usub.with.overflow vector.reduce.add vector.reduce.and vector.reduce.or
vector.reduce.umax vector.reduce.umin vector.reduce.xor""".split()
SHUFFLE = "llvm.x86.ssse3.pshuf.b.128"
PROCESSORS = "probe-stack|stack-probe-size|target-cpu|target-features|tune-cpu|frame-pointer|rattle-sig"


class UnknownFunctionError(Exception):
    """A function of LLVM whose meaning elsewhere isn't known here, or assembly."""


def is_known(name: str) -> bool:
    """Whether it is one of those functions, for whatever types."""
    return any(re.fullmatch(rf"llvm\.{re.escape(it)}(\.[a-z]+[0-9]+[a-z0-9]*|\.p[0-9]+)*", name) for it in KNOWN)


def shuffle() -> str:
    """x86's shuffle of bytes, a lane at a time: the lane that the low four bits of the second's byte
    name, or 0 where its highest bit is set."""
    lines, last = ["define internal <16 x i8> @byte_shuffle(<16 x i8> %a, <16 x i8> %b) noinline nounwind {"], "zeroinitializer"
    for it in range(16):
        lines += [
            f"  %i{it} = extractelement <16 x i8> %b, i32 {it}",
            f"  %m{it} = and i8 %i{it}, 15",
            f"  %z{it} = zext i8 %m{it} to i32",
            f"  %v{it} = extractelement <16 x i8> %a, i32 %z{it}",
            f"  %n{it} = icmp slt i8 %i{it}, 0",
            f"  %s{it} = select i1 %n{it}, i8 0, i8 %v{it}",
            f"  %r{it} = insertelement <16 x i8> {last}, i8 %s{it}, i32 {it}",
        ]
        last = f"%r{it}"
    return "\n".join([*lines, f"  ret <16 x i8> {last}", "}", ""])


def line_for(line: str, target: str) -> str:
    """A line of the module's text, for the target."""
    if line.startswith("target datalayout"):
        return f'target datalayout = "{LAYOUTS[target]}"\n'
    if line.startswith("target triple"):
        return f'target triple = "{target}"\n'
    if not line.startswith("attributes #"):
        return line
    bare = re.sub(rf' "({PROCESSORS})"="[^"]*"', "", line)
    bare = re.sub(r"\bsanitize_address\b|\buwtable(\([a-z]+\))?", "", bare)
    return re.sub(r"^(attributes #\d+ = \{)\s*\}", r"\1 nounwind }", bare)


def is_filling(line: str) -> bool:
    """Whether a line fills fresh memory, as the kit's `rt try` does for its sanitiser."""
    return "i8 -86, i64" in line and "memset" in line


def retargeted(text: str, target: str) -> str:
    """The module's text for the target."""
    unknown = sorted({it for it in re.findall(r"(?m)^declare [^\n]*?@(llvm\.[\w.]+)\(", text) if it != SHUFFLE and not is_known(it)})
    assembly = re.findall(r'\basm (?:sideeffect )?(?:alignstack )?"([^"]+)"', text)
    if unknown or assembly:
        raise UnknownFunctionError(f"the module asks for what isn't known here: {', '.join([*unknown, *assembly[:3]])}")
    made = "".join(line_for(line, target) for line in text.splitlines(True) if not is_filling(line))
    if f"@{SHUFFLE}" in made:
        made = re.sub(rf"(?m)^declare [^\n]*@{re.escape(SHUFFLE)}\(.*\n", "", made).replace(f"@{SHUFFLE}", "@byte_shuffle") + "\n" + shuffle()
    return made
