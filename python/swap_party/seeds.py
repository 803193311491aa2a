"""What only a wallet may know. Neither is shown where a value of these is printed."""
from __future__ import annotations

import secrets

SEED_SIZE = 32


class Seed:
    """The seed of one party in one swap."""

    __slots__ = ("bytes",)

    def __init__(self, told: bytes) -> None:
        if len(told) != SEED_SIZE:
            raise ValueError(f"a seed has {SEED_SIZE} bytes")
        self.bytes = told

    @classmethod
    def drawn(cls) -> Seed:
        """A fresh one, of the system's own chance."""
        return cls(secrets.token_bytes(SEED_SIZE))

    @classmethod
    def of_hex(cls, told: str) -> Seed:
        return cls(bytes.fromhex(told.strip()))

    def __repr__(self) -> str:
        return "Seed(..)"
