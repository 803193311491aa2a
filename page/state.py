"""Runs the page's model, the script `#state` of swap.html, in a JavaScript interpreter where there is one."""
import json
import re
import shutil
import subprocess
import tempfile
from pathlib import Path
from typing import Any, Optional

PAGE = Path(__file__).resolve().parent / "swap.html"
INTERPRETERS = [["node"], ["nodejs"], ["bun"], ["deno", "run"], ["qjs"], ["gjs"]]
NONE = "no JavaScript interpreter is here: node, bun, deno, qjs or gjs"


class ModelFailed(Exception):
    """The model's script failed, which is a fault of the page."""


def interpreter() -> Optional[list[str]]:
    """The words that begin the interpreter's command, or None."""
    return next((words for words in INTERPRETERS if shutil.which(words[0])), None)


def script_of(name: str) -> str:
    """The script of the page with that id."""
    found = re.search(rf'<script id="{name}">\n(.*?)</script>', PAGE.read_text(encoding="utf-8"), re.DOTALL)
    if found is None:
        raise ModelFailed(f"swap.html has no script #{name}")
    return found[1]


def told(words: list[str], driver: str, given: Any) -> Any:
    """What a driver's function `tell` answers for a value, with the model before it."""
    print_all = '(typeof print === "function" ? print : console.log)(JSON.stringify(tell(given)));'
    text = f"{script_of('state')}\n{driver}\nconst given = {json.dumps(given)};\n{print_all}\n"
    with tempfile.TemporaryDirectory() as room:
        script = Path(room) / "model.js"
        script.write_text(text, encoding="utf-8")
        done = subprocess.run([*words, str(script)], capture_output=True, text=True, check=False)
    if done.returncode != 0:
        raise ModelFailed(done.stderr)
    return json.loads(done.stdout)
