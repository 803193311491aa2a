"""Which built program is one of the sources as they are, by the times of files. `./swap` goes by
the same rules, with fewer looks at files.

A program is as old as the moment at which its build began. Its sources are `crates.txt` and the
`src` of its crate and of those below that; definitions and proofs change nothing that runs, and
stand in `specs` and `proofs`. A folder is newer where a file of it came or went.

usage: python3 .ci/current.py NAME    (writes the paths that the sources of that program stand in)
"""
import re
import sys
from pathlib import Path
from typing import Callable, Iterable, Iterator, Sequence

TOP = Path(__file__).resolve().parent.parent
LIST = "crates.txt"


def below_each() -> dict[str, list[str]]:
    """The libraries that each crate of crates.txt stands on."""
    lines = re.findall(r"(?m)^(\w+)[^:\n#]*:(.*)$", (TOP / LIST).read_text())
    return {name: rest.split() for name, rest in lines}


def reached(first: Sequence[str], uses: Callable[[str], Sequence[str]]) -> list[str]:
    """Everything that the first ones lead to, themselves too."""
    found = list(first)
    for name in found:
        found += [it for it in uses(name) if it not in found]
    return found


def paths_of(program: str) -> list[str]:
    """The paths in which a program's sources stand; those of all crates where it is none of them."""
    below = below_each()
    found = reached([program], lambda name: [it for it in below[name] if it in below]) if program in below else list(below)
    return [LIST, *sorted(f"crates/{it}/src" for it in found)]


def within(paths: Iterable[Path]) -> Iterator[Path]:
    """These paths, and all that stands in them."""
    for path in paths:
        yield path
        yield from path.rglob("*")


def none_is_newer(made: Path, paths: Iterable[Path]) -> bool:
    when = made.stat().st_mtime_ns
    return all(it.stat().st_mtime_ns <= when for it in within(paths))


def is_current(made: Path) -> bool:
    """Whether the program, or a file beside it, is there, and no source of the program came, went or
    changed since its build began."""
    return made.is_file() and none_is_newer(made, [TOP / it for it in paths_of(made.name.partition(".")[0])])


def is_proved(made: Path) -> bool:
    """Whether no crate's sources, definitions and proofs came, went or changed either."""
    return is_current(made) and none_is_newer(made, [it for part in ("src", "specs", "proofs") for it in TOP.glob(f"crates/*/{part}")])


def proved(program: str) -> Path:
    return TOP / "out" / "proved" / program


def unproved(program: str) -> Path:
    return TOP / "out" / "unproved" / program


if __name__ == "__main__":
    print(*paths_of(sys.argv[1]), sep="\n")
