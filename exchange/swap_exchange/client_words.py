"""The words of `exchange/wallet`, and how it ends."""
from __future__ import annotations

import argparse
import json
import os
import sqlite3
from collections.abc import Sequence
from pathlib import Path

from swap_party import Library, NotProvedError, Party, Program

from .client import Client, Owner, live
from .honest import LieError
from .remote import Http, HttpError
from .settler import Settler
from .tables import RuleError, id_of
from .words import FAULT, INTERRUPTED, REFUSED, TOP, Words, in_range, told

HERE = [f"{folder}/{name}" for folder in ("out/proved", "out/unproved", "model") for name in ("libswap_party.so.1", "party")]


def all_words() -> argparse.ArgumentParser:
    words = Words(prog="exchange/wallet", description="A user's wallet for an exchange's swaps.")
    words.add_argument("--version", action="version", version=f"exchange {(TOP / 'VERSION').read_text().strip()}")
    words.add_argument("--server", required=True, metavar="URL", help="the exchange")
    words.add_argument("--home", required=True, type=Path, metavar="FOLDER", help="the wallet's own folder, with the files `name` and `token`")
    words.add_argument("--party", metavar="PATH", help="the program `party`, or the library libswap_party.so.1; else the best one here")
    commands = words.add_subparsers(required=True, dest="command", metavar="COMMAND")
    wish = commands.add_parser("wish", help="send a wish")
    wish.add_argument("--to", required=True, metavar="NAME")
    wish.add_argument("--units", required=True, type=in_range(1, 10**12), help="of the asset's smallest units")
    wish.add_argument("--asset", required=True)
    wish.add_argument("--value", type=in_range(0, 10**15), help="what it is worth to you, as the exchange counts")
    withdraw = commands.add_parser("withdraw", help="take a wish back while its day is open")
    withdraw.add_argument("wish", type=in_range(1, 2**62), metavar="WISH")
    words.set_defaults(yes=False, allow_unproved=False, least_delta=Owner.least_delta, most_horizon=Owner.most_horizon)
    commands.add_parser("state", help="write what became of the wishes")
    lives = commands.add_parser("live", help="settle the swaps that the exchange offers")
    lives.add_argument("--chains", required=True, metavar="URL", help="the chains")
    lives.add_argument("--yes", action="store_true", help="agree to all terms that fit the owner's wishes and the two words below, without asking")
    lives.add_argument("--least-delta", type=in_range(1, 100), default=5, metavar="HEIGHTS", help="take no swap with fewer to react in, 5 where left out")
    lives.add_argument("--most-horizon", type=in_range(1, 10**6), default=10**6, metavar="HEIGHT", help="take no swap that may lock units up for longer")
    lives.add_argument("--allow-unproved", action="store_true", help="settle by the model too, and don't tell of a build without its proofs")
    lives.add_argument("--until-settled", type=in_range(0, 10**9), metavar="N", help="end once so many swaps are over")
    return words


def party_of(path: str | None) -> Party:
    here = [str(TOP / it) for it in HERE if (TOP / it).is_file()]
    found = path or [*here, "party"][0]
    if ".so" in Path(found).name:
        return Library(found)
    return Program(found)


def run(asked: argparse.Namespace) -> int:
    name, token = ((asked.home / it).read_text(encoding="utf-8").strip() for it in ("name", "token"))
    server, party = Http(asked.server, token), party_of(asked.party)
    owner = Owner(id_of(name, "the name"), asked.yes, asked.allow_unproved, asked.least_delta, asked.most_horizon)
    client = Client(asked.home, server, party, owner)
    try:
        if asked.command == "live":
            return live(client, Settler(asked.home, party, Http(asked.chains), asked.allow_unproved), asked.until_settled)
        if asked.command == "wish":
            print(f"wish {client.wish(id_of(asked.to, 'the name'), asked.units, id_of(asked.asset, 'the asset'), asked.value)}")
        elif asked.command == "withdraw":
            client.withdraw(asked.wish)
        else:
            print(json.dumps(json.loads(server.ask("GET", "/v1/state")), indent=1, ensure_ascii=False))
    finally:
        client.close()
    return 0


def main(arguments: Sequence[str]) -> int:
    os.environ.setdefault("SWAP_PLAIN", "1")
    try:
        return run(all_words().parse_args(arguments))
    except LieError as why:
        told("the exchange isn't believed", why, "wallet")
        return 1
    except (HttpError, NotProvedError, RuleError) as why:
        told("refused", why, "wallet")
        return REFUSED
    except (OSError, sqlite3.Error, RuntimeError, ValueError) as why:
        told("fault", why, "wallet")
        return FAULT
    except KeyboardInterrupt:
        return INTERRUPTED
