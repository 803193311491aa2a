"""The wallet of one party of an atomic swap across chains, and the texts of `swap` and `party` as
values.

`engine.Wallet` is a wallet to embed: it reads chains, asks what is due, keeps what it must, and
presents what it may. `wallet` asks, by the library or by the programs, and `notes` keeps.
`formats.parse` reads any text, and `str` of what it answers is the same text.
"""
from .answer import (
    Answer,
    Asked,
    Bad,
    Done,
    Due,
    Keep,
    Landing,
    Ledger,
    Margin,
    Never,
    Note,
    Now,
    Seen,
    Sent,
    Stale,
    Stopped,
    Unkept,
    Wait,
    agreed_digest,
)
from .calls import ACCEPTED, Call, Called, Claim, Hashkey, Publish, Refund, Reply, Tick, Transfer, Unlock
from .cleared import Cleared, Plain
from .clocks import Clock, Slow
from .engine import Chains, NotProvedError, Reading, Step, Unreached, Wallet
from .formats import parse
from .header import Header
from .judgement import AgreedDigest, Case, Judgement, Mark
from .lines import NotOfTheFormatError
from .many import Many, Reports
from .notes import Agreement, DisagreedError, InUseError, Notes
from .report import Report
from .seeds import Seed
from .summary import Summary, Times
from .terms import Row, Terms
from .transcript import Transcript
from .wallet import Build, Library, NoAnswerError, Party, Program, RefusedError, TooLongError

__all__ = [
    "ACCEPTED",
    "AgreedDigest",
    "Agreement",
    "Answer",
    "Asked",
    "Bad",
    "Build",
    "Call",
    "Called",
    "Case",
    "Chains",
    "Claim",
    "Cleared",
    "Clock",
    "DisagreedError",
    "Done",
    "Due",
    "Hashkey",
    "Header",
    "InUseError",
    "Judgement",
    "Keep",
    "Landing",
    "Ledger",
    "Library",
    "Many",
    "Margin",
    "Mark",
    "Never",
    "NoAnswerError",
    "NotOfTheFormatError",
    "NotProvedError",
    "Note",
    "Notes",
    "Now",
    "Party",
    "Plain",
    "Program",
    "Publish",
    "Reading",
    "Refund",
    "RefusedError",
    "Reply",
    "Report",
    "Reports",
    "Row",
    "Seed",
    "Seen",
    "Sent",
    "Slow",
    "Stale",
    "Step",
    "Stopped",
    "Summary",
    "Terms",
    "Tick",
    "Times",
    "TooLongError",
    "Transcript",
    "Transfer",
    "Unkept",
    "Unlock",
    "Unreached",
    "Wait",
    "Wallet",
    "agreed_digest",
    "parse",
]
