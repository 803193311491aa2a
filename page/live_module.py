"""The program as a module of WebAssembly, inside a page: what page/live and page/wallet share."""
from __future__ import annotations

import argparse
import base64
import json
import re
import subprocess
import sys
from pathlib import Path
from typing import Optional

sys.dont_write_bytecode = True
HERE = Path(__file__).resolve().parent
TOP = HERE.parent
sys.path.insert(1, str(TOP / "launch"))
import formats  # noqa: E402
import state  # noqa: E402

PARTS, WALLET, SCRIPT = HERE / "live_parts", HERE / "wallet_parts", TOP / "tools" / "wasm_module" / "swap.mjs"
# The first script of the wallet's page
HEAD = '"use strict";\nconst SwapPage = {};\n'


def asked_for(usage: str, about: Optional[str]) -> argparse.Namespace:
    """The words of either script."""
    words = argparse.ArgumentParser(usage=usage, description=about, formatter_class=argparse.RawDescriptionHelpFormatter)
    words.add_argument("--unproved", action="store_true", help="take the module that is built without proofs")
    words.add_argument("--module", type=Path, help="take this module")
    return words.parse_args()


def module_of(asked: argparse.Namespace) -> bytes:
    """The module that is asked for, which is built where it has to be."""
    if asked.module is not None:
        named: Path = asked.module
        return named.read_bytes()
    for build in ["unproved"] if asked.unproved else ["proved", "unproved"]:
        made = TOP / "out" / build / "swap.wasm"
        if build == "proved" and not made.is_file():
            continue
        ended = subprocess.run([str(TOP / "tools" / "wasm"), *["--unproved"] * (build == "unproved")], check=False).returncode
        if ended == 0:
            return made.read_bytes()
    sys.exit(3)


def as_data(text: str) -> str:
    """JSON that holds no character by which a page's markup could begin or end."""
    for character in "<>&":
        text = text.replace(character, f"\\u{ord(character):04x}")
    return text


def reasons() -> str:
    """What the tables of FORMATS say of each reason and of a job's fields, as data of the page."""
    text = formats.FORMATS.read_text(encoding="utf-8")
    rows = [(it.heading, it.pattern, it.meaning.split(";")[0]) for it in formats.reasons_of(text)]
    told = as_data(json.dumps({"job": formats.JOB, "reasons": rows, "fields": formats.fields_of(text)}))
    return f'<script id="reasons" type="application/json">{told}</script>'


def inlined(script: str) -> str:
    """The text of swap.mjs as a script of the page, which has its names in SwapPage.module."""
    names = re.findall(r"(?m)^export (?:class|const) (\w+)", script)
    body = re.sub(r"(?m)^export ", "", script)
    return f"SwapPage.module = (() => {{\n{body}\nreturn {{ {', '.join(names)} }};\n}})();\n"


def script_of(name: str) -> str:
    """A script of a page by its name: one of swap.html's, what calls the module, or a part's."""
    if name in ("state", "drawing"):
        return state.script_of(name)
    if name == "module":
        return inlined(SCRIPT.read_text(encoding="utf-8"))
    if name == "head":
        return HEAD
    return ((WALLET if name == "wallet" else PARTS) / f"{name}.js").read_text(encoding="utf-8")


def scripts(module: bytes, own: str) -> str:
    """The module and the reasons as data, what calls the module, and the page's own script."""
    parts = [f'<script id="module" type="text/plain">{base64.b64encode(module).decode()}</script>', reasons()]
    return "\n".join([*parts, *(f"<script>\n{script_of(it)}</script>" for it in ("module", "reasons", own)), ""])
