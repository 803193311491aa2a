"""Wishes, accounts and assets, read from CSV or from JSON lines."""
from __future__ import annotations

from collections.abc import Iterable, Mapping, Sequence
from dataclasses import dataclass
from decimal import Decimal

from .tables import RuleError, Table, Words, decimal, id_of, rule, whole
from .work import RefusedError

MOST_AMOUNT, MOST_UNITS, MOST_VALUE, DECIMALS, PRICE_DIGITS = 10**12, 10**15, 10**15, 18, 12
WISH, ACCOUNT, ASSET = ("from", "to", "units", "asset", "value"), ("name", "asset", "units"), ("asset", "decimals", "price")


@dataclass(frozen=True)
class Wish:
    """Who would pay whom, how many units of which asset, and what that is worth to the exchange."""

    payer: str
    payee: str
    units: int
    asset: str
    value: int


@dataclass(frozen=True)
class Account:
    name: str
    asset: str
    units: int


@dataclass(frozen=True)
class Asset:
    """An asset whose amounts have so many digits behind the point, and what one of it is worth."""

    name: str
    decimals: int = 0
    price: Decimal | None = None

    @property
    def price_text(self) -> str | None:
        return None if self.price is None else str(self.price)

    def units(self, word: str, least: int, most: int) -> int:
        """The units of an amount as people write it."""
        if not self.decimals:
            return whole(word, "units", least, most)
        units = int(decimal(word, "units", self.decimals).scaleb(self.decimals))
        rule(least <= units <= most, f"units {word} of {self.name} are {units} of its smallest units, and {least} to {most} are allowed")
        return units

    def value(self, units: int) -> int:
        """What units are worth, rounded down."""
        assert self.price is not None
        value = int(self.price * units / 10**self.decimals)
        rule(value <= MOST_VALUE, f"the value {value} is above {MOST_VALUE}")
        return value


Assets = Mapping[str, Asset]


def asset_of(row: Words) -> Asset:
    digits = whole(row.get("decimals") or "0", "decimals", 0, DECIMALS)
    price = decimal(row["price"], "price", PRICE_DIGITS) if row.get("price") else None
    return Asset(id_of(row["asset"], "the asset"), digits, price)


def wish_of(row: Words, assets: Assets) -> Wish:
    payer, payee, asset = id_of(row["from"], "the name"), id_of(row["to"], "the name"), id_of(row["asset"], "the asset")
    known = assets.get(asset) or Asset(asset)
    units = known.units(row["units"], 1, MOST_AMOUNT)
    rule(payer != payee, f"{payer!r} would pay itself")
    if row.get("value"):
        value = whole(row["value"], "value", 0, MOST_VALUE)
    else:
        value = units if known.price is None else known.value(units)
    return Wish(payer, payee, units, asset, value)


@dataclass
class Book:
    """What files tell, and which rows of them are bad."""

    assets: dict[str, Asset]
    wishes: list[Wish]
    accounts: list[Account] | None
    bad: list[str]


def assets_of(table: Table) -> dict[str, Asset]:
    found: dict[str, Asset] = {}

    def put(row: Words) -> None:
        asset = asset_of(row)
        rule(asset.name not in found, f"{asset.name!r} is told twice")
        found[asset.name] = asset

    list(table.each(put))
    return found


def wishes_of(table: Table, assets: Assets) -> list[Wish]:
    """The wishes of a table. Values are compared across assets, so that each wish of several assets
    tells its own or has a price."""
    bare: dict[str, int] = {}
    seen: set[str] = set()

    def put(row: Words) -> Wish:
        wish = wish_of(row, assets)
        seen.add(wish.asset)
        if not row.get("value") and (wish.asset not in assets or assets[wish.asset].price is None):
            bare.setdefault(wish.asset, 1)
            rule(len(seen) == 1, f"a wish of {wish.asset!r} has neither a value nor a price, and units of several assets can't be added")
        else:
            rule(not bare or set(bare) == seen, f"earlier wishes of {next(iter(bare), '')!r} have neither a value nor a price")
        return wish

    found = list(table.each(put))
    if not found and not table.bad:
        table.blame(1, "there is no wish")
    return found


def accounts_of(table: Table, assets: Assets) -> list[Account]:
    found: dict[tuple[str, str], Account] = {}

    def put(row: Words) -> None:
        key = id_of(row["name"], "the name"), id_of(row["asset"], "the asset")
        rule(key not in found, f"{key[0]!r} has an account of {key[1]!r} already")
        found[key] = Account(*key, (assets.get(key[1]) or Asset(key[1])).units(row["units"], 0, MOST_UNITS))

    list(table.each(put))
    return list(found.values())


def book_of(wishes: tuple[str, bytes], accounts: tuple[str, bytes] | None, assets: tuple[str, bytes] | None) -> Book:
    """All that files tell."""
    tables = [Table(*assets, ASSET, ("decimals", "price"))] if assets else []
    known = assets_of(tables[0]) if assets else {}
    tables.append(Table(*wishes, WISH, ("value",)))
    found = wishes_of(tables[-1], known)
    had = None
    if accounts:
        tables.append(Table(*accounts, ACCOUNT))
        had = accounts_of(tables[-1], known)
    return Book(known, found, had, [it for table in tables for it in table.bad])


def good(book: Book) -> Book:
    """The book, if no row of it is bad; else the first bad one is told."""
    if book.bad:
        raise RefusedError(book.bad[0] + (f" (and {len(book.bad) - 1} more: --check lists them)" if len(book.bad) > 1 else ""))
    return book


def known_names(wishes: Sequence[Wish], names: Iterable[str]) -> None:
    """Each name is one of a user."""
    users = {it for wish in wishes for it in (wish.payer, wish.payee)}
    for name in names:
        if name not in users:
            raise RefusedError(f"--away names {name!r}, who has no wish and isn't in anybody's")


__all__ = ["Account", "Asset", "Book", "RuleError", "Wish", "accounts_of", "assets_of", "book_of", "good", "known_names", "wish_of", "wishes_of"]
