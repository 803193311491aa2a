"""The module of WebAssembly in Node, in the place of the library."""
from __future__ import annotations

import json
import shutil
import struct
import subprocess
import sys
import threading
from pathlib import Path
from typing import Any, Optional

sys.dont_write_bytecode = True
TOP = Path(__file__).resolve().parent.parent
sys.path.insert(1, str(TOP / "python"))
from swap_party.wallet import Library, whole_seed  # noqa: E402

FUNCTIONS = ["keys", "deal", "terms", "next", "judge", "check", "answer"]
TRAPPED, TRAP, TOLD, TIMED = 0xFFFFFFFF, 98, 99, 100


def node() -> Optional[str]:
    """Where Node is, or None."""
    return shutil.which("node") or shutil.which("nodejs")


class TrappedError(Exception):
    """The module trapped, or the engine failed."""


class Module(Library):
    """A module's calls, each by one Node process, which does them one after the other."""

    def __init__(self, wasm: Path) -> None:
        words = [node() or "node", str(Path(__file__).with_suffix(".mjs")), str(wasm)]
        self.engine = subprocess.Popen(words, stdin=subprocess.PIPE, stdout=subprocess.PIPE)
        self.lock = threading.Lock()
        self.version = str(self.told()["version"])

    def close(self) -> None:
        assert self.engine.stdin is not None and self.engine.stdout is not None
        self.engine.stdin.close()
        self.engine.wait()
        self.engine.stdout.close()

    def read(self, size: int) -> bytes:
        assert self.engine.stdout is not None
        found = self.engine.stdout.read(size)
        if len(found) != size:
            raise TrappedError("Node ended")
        return found

    def ask(self, which: int, first: bytes = b"", second: bytes = b"", seed: bytes = b"") -> tuple[int, bytes]:
        """The status and the text of a call."""
        assert self.engine.stdin is not None
        with self.lock:
            self.engine.stdin.write(struct.pack("<I", which) + b"".join(struct.pack("<I", len(it)) + it for it in (first, second, seed)))
            self.engine.stdin.flush()
            status, length = struct.unpack("<II", self.read(8))
            text = self.read(length)
        if status == TRAPPED:
            raise TrappedError(text.decode(errors="replace"))
        return status, text

    def told(self) -> dict[str, Any]:
        """What the module is: its version, memory, imports and exports."""
        found: dict[str, Any] = json.loads(self.ask(TOLD)[1])
        return found

    def trap(self) -> str:
        """Has the module read beyond its memory, and tells why it trapped."""
        try:
            return self.ask(TRAP)[1].decode()
        except TrappedError as why:
            return str(why)

    def milliseconds(self, name: str, first: bytes, second: bytes = b"", seed: bytes = b"") -> float:
        """How long a call takes, once the engine has compiled it."""
        return float(self.ask(TIMED + FUNCTIONS.index(name), first, second, seed)[1])

    def keys_said(self, name: bytes, seed: bytes, text: bytes) -> tuple[int, bytes]:
        return self.ask(0, text, name, whole_seed(seed))

    def deal_said(self, text: bytes) -> tuple[int, bytes]:
        return self.ask(1, text)

    def terms_said(self, name: bytes, text: bytes) -> tuple[int, bytes]:
        return self.ask(2, text, name)

    def next_said(self, name: bytes, seed: bytes, text: bytes) -> tuple[int, bytes]:
        return self.ask(3, text, name, whole_seed(seed))

    def judge_said(self, text: bytes) -> tuple[int, bytes]:
        return self.ask(4, text)

    def check_said(self, header: bytes) -> tuple[int, bytes]:
        return self.ask(5, header)

    def answer_said(self, words: bytes, text: bytes) -> tuple[int, bytes]:
        return self.ask(6, words, text)
