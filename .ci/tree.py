"""The tree that the pages speak of: its crates, their words and definitions, and what the theorem
is stated over.
"""
import os
import re
import textwrap
from functools import lru_cache
from pathlib import Path
from typing import Dict, Iterator, List, Optional, Set, Tuple

from pages import TOP, WIDTH, text_of

WORD = re.compile(r"[A-Za-z_][A-Za-z_0-9]*")
QUALIFIED = re.compile(r"[A-Za-z_][A-Za-z_0-9]*(?:\.[A-Za-z_][A-Za-z_0-9]*)?")
CRATES: List[str] = re.findall(r"(?m)^([a-z_0-9]+)[^:\n#]*:", text_of("crates.txt"))
# the line that begins a definition
HEAD = re.compile(
    r"(?:(?:abbrev|unfoldable|opaque) )?pub (?:record |data )?(?!use )([^\s:(]+)|(?:abbrev|unfoldable) ([^\s:(]+)"
)
# the way to a file, and a name in it
Named = Tuple[str, Optional[str]]


@lru_cache(maxsize=None)
def files_of(crate: str) -> List[Path]:
    """A crate's programs, its definitions, and the proofs that were written by hand."""
    folder = TOP / "crates" / crate
    files = [it for below in ("src", "specs") for it in sorted((folder / below).rglob("*")) if it.suffix in (".rt", ".antt")]
    return files + sorted((folder / "proofs").glob("*.antt"))


@lru_cache(maxsize=None)
def words_of(crate: str) -> Set[str]:
    """Each word of a crate's programs, definitions and laws, and the names of their files and of
    its must-fail edits.
    """
    words = {it.stem for it in files_of(crate)} | {it.stem for it in edits_of(crate)} | {crate}
    for file in files_of(crate):
        words |= set(WORD.findall(file.read_text()))
    return words


@lru_cache(maxsize=None)
def functions_of(crate: str) -> Set[str]:
    return {name for it in files_of(crate) if it.suffix == ".rt" for name in re.findall(r"\bfn (\w+)", it.read_text())}


@lru_cache(maxsize=None)
def programs_of(crate: str) -> Set[str]:
    return {word for it in files_of(crate) if it.suffix == ".rt" for word in WORD.findall(it.read_text())}


def edits_of(crate: str) -> List[Path]:
    return sorted((TOP / "crates" / crate / "must-fail").glob("*.edit"))


@lru_cache(maxsize=None)
def all_words() -> Set[str]:
    return set().union(*map(words_of, CRATES))


@lru_cache(maxsize=None)
def all_files() -> List[str]:
    found = []
    for folder, below, files in os.walk(TOP):
        below[:] = [it for it in below if it not in ("out", ".git", "proofs")]
        found += [os.path.join(folder, it) for it in files]
    return found


@lru_cache(maxsize=None)
def definitions_of(crate: str, file: str) -> Optional[Dict[str, str]]:
    """The definitions of a file, by name, with their text; those that it passes on from another
    file too.
    """
    path = TOP / "crates" / crate / "specs" / f"{file}.antt"
    if not path.exists():
        return None
    found: Dict[str, str] = {}
    name = None
    for line in path.read_text().split("\n"):
        head = HEAD.match(line)
        if head:
            name = head[1] or head[2]
            found.setdefault(name, "")
        if name and not line.startswith(("--", "use ", "pub use ")):
            found[name] += re.sub(r"--.*", "", line) + "\n"
    return found


# ---- what the theorem is stated over


@lru_cache(maxsize=None)
def imports_of(path: Path) -> Dict[str, Named]:
    """The words that a file has from others: each with the way to its file and its name there, or
    None for a whole file.
    """
    found: Dict[str, Named] = {}
    for way, names, alias in re.findall(r"(?m)^(?:ghost |pub )?use Rattle\.([\w.]+?)(?:\.\{([^}]*)\}| as (\w+))", path.read_text()):
        if alias:
            found[alias] = way, None
        for name in filter(None, map(str.strip, names.split(","))):
            first, _, other = name.partition(" as ")
            found[other or first] = way, first
    return found


def named_in(text: str, imports: Dict[str, Named]) -> Iterator[Named]:
    """The ways and names of what a text names of its file's imports."""
    for word in QUALIFIED.findall(text):
        first, _, second = word.partition(".")
        for name in {first, word}:
            if name in imports:
                way, real = imports[name]
                yield way, real or second


def clauses_of(function: str, file: str = "crates/swap_main/src/top.rt") -> str:
    """The contract of a function of the whole program."""
    contract = re.search(rf"(?ms)^(?:pub )?fn {function}<.*?^\{{", text_of(file))
    return re.sub(r"//.*", "", contract[0]) if contract else ""


def roots() -> Iterator[Named]:
    """What the clauses of both calls and of `serve` name, and what the program's own strategies stand
    for.
    """
    top, strategies = TOP / "crates/swap_main/src/top.rt", TOP / "crates/swap_main/src/program.rt"
    yield from named_in(clauses_of("swap_plain") + clauses_of("swap_top"), imports_of(top))
    yield from named_in("is_known by_rule program_rule", imports_of(strategies))
    program = "crates/swap/src/main.rt"
    yield from named_in(clauses_of("serve", program), imports_of(TOP / program))


def read_list() -> Set[Tuple[str, Tuple[str, ...], Optional[str]]]:
    """Per crate the files of definitions and of declared types that the theorem is stated over."""
    left, seen = list(roots()), set()
    while left:
        way, name = left.pop()
        crate, _, *parts = way.split(".")
        if crate not in CRATES or (crate, tuple(parts), name) in seen:
            continue
        seen.add((crate, tuple(parts), name))
        if parts[0] != "declared":
            left += list(named_below(crate, parts[0], name))
    return seen


def named_below(crate: str, file: str, name: Optional[str]) -> Iterator[Named]:
    """What a definition names: of its own file, of others by its imports, or what its file passes
    on.
    """
    defined = definitions_of(crate, file) or {}
    imports = imports_of(TOP / "crates" / crate / "specs" / f"{file}.antt")
    if name not in defined:
        if name in imports:
            yield imports[name]
        return
    yield from named_in(defined[name], imports)
    for word in set(WORD.findall(defined[name])):
        if word in defined and word != name:
            yield f"{crate}.specs.{file}", word


def list_lines() -> Iterator[str]:
    """The list, a paragraph for each crate."""
    seen = read_list()
    yield "What the theorem is stated over: by crate, lowest first, the files of its specs/, and the declared types of its src/ (.rt)."
    yield "Written by .ci/documents --write: what the clauses of swap_plain, swap_top and serve name, what that names, and so on."
    yield ""
    for crate in CRATES:
        files = sorted({parts[0] for at, parts, _ in seen if at == crate and parts[0] != "declared"})
        types = sorted({parts[1] for at, parts, _ in seen if at == crate and parts[0] == "declared"})
        if files or types:
            yield from textwrap.wrap(f"{crate}: {', '.join([*files, *(f'{it}.rt' for it in types)])}", WIDTH, subsequent_indent="  ")
