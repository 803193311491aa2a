"""How the kit's compiler is called on a crate of this repository: with the words of `rt run` and
`rt lib`, but over the libraries that `rt ci` left in crates/*/out, which those would prove once more.
It proves the crate itself before it compiles it.
"""
from __future__ import annotations

import os
import re
from pathlib import Path
from typing import Optional

from current import TOP, below_each, reached

# The processors with AVX2 and what came with it, by the kit's name, and what Linux tells of them
V3 = "x86-64-v3"
FLAGS = {"avx", "avx2", "bmi1", "bmi2", "f16c", "fma", "abm", "movbe", "xsave"}


def machine_has_v3() -> bool:
    """Whether this machine's processor is one of those; SWAP_CPU=plain says that it isn't."""
    try:
        told = Path("/proc/cpuinfo").read_text(encoding="utf-8", errors="replace")
    except OSError:
        return False
    found = re.search(r"(?m)^flags\s*:(.*)$", told)
    return os.environ.get("SWAP_CPU") != "plain" and found is not None and FLAGS <= set(found[1].split())


def words(kit: Path, crate: str, cpu: str = "", tools: Optional[Path] = None) -> list[object]:
    """What the compiler is told of a crate: the kit's libraries and logic, the libraries of this
    repository, the processor if it isn't the kit's usual one, and a folder of tools if they aren't
    the kit's own."""
    below = below_each()
    own, found = below[crate], [it for it in reached(below[crate], lambda name: [it for it in below[name] if it in below]) if it in below]
    rlib = {name: TOP / "crates" / name / "out" / "rlib" / f"{name}.rlib" for name in found}
    root = "src/main.rt" if (TOP / "crates" / crate / "src" / "main.rt").is_file() else "src/lib.rt"
    told: list[object] = ["--crate-name", crate, root, "--extern", f"std={kit}/rlibs/std.rlib", "-L", f"dependency={kit}/rlibs"]
    told += [word for name in own for word in ("--extern", f"{name}={rlib.get(name, kit / 'rlibs' / f'{name}.rlib')}")]
    told += [word for name in found for word in ("-L", f"dependency={rlib[name].parent}")]
    told += ["--antt-project", f"{kit}/rattle/logic/antt-project.json", "--logic-built", f"{kit}/logic_built"]
    told += ["--links", f"{crate}=", "--toolchain", tools or f"{kit}/toolchain", "--backend", "llvm"]
    return [*told, *(["--cpu", cpu] if cpu else [])]
