"""The tables of a state, and how a state that an earlier version wrote becomes one of this version."""
from __future__ import annotations

from .database import Database, StateError

# Each step leads from the version of its place to the next one
FIRST = (
    "create table day (digest text not null, seed bytea not null, step text not null)",
    "create table wish (number bigint primary key, payer text, payee text, units bigint, asset text, value bigint,"
    " state text not null, reason text not null, swap bigint)",
    "create table account (name text, asset text, began bigint not null, units bigint not null check (units >= 0), primary key (name, asset))",
    "create table swap (number bigint primary key, header text, leaders bigint, refused text, batch bigint, outcomes text, findings text, drawn bytea)",
    "create table batch (number bigint primary key, is_settled bigint not null)",
)
NAMED = (
    *(f"alter table {it} rename to first_{it}" for it in ("day", "wish", "account", "swap", "batch")),
    "create table day (id bigint primary key, name text not null unique, digest text not null, seed bytea not null, step text not null)",
    "create table wish (day bigint, number bigint, payer text, payee text, units bigint, asset text, value bigint,"
    " state text not null, reason text not null, swap bigint, primary key (day, number))",
    "create index wish_of_swap on wish (day, swap, number)",
    "create table account (day bigint, name text, asset text, began bigint not null, units bigint not null check (units >= 0),"
    " primary key (day, name, asset))",
    "create table swap (day bigint, number bigint, header text, leaders bigint, refused text, batch bigint,"
    " outcomes text, findings text, drawn bytea, primary key (day, number))",
    "create index swap_of_batch on swap (day, batch, number)",
    "create table batch (day bigint, number bigint, is_settled bigint not null, primary key (day, number))",
    "create table inside (day bigint, name text, alias text, primary key (day, name))",
    "create table asset (day bigint, asset text, decimals bigint, price text, primary key (day, asset))",
    "create table cutting (day bigint, part bigint, place bigint, at bigint, moves text, primary key (day, part, place))",
    "create table circulation (day bigint, part bigint, state bytea, primary key (day, part))",
    "insert into day select 1, 'day', digest, seed, step from first_day",
    "insert into wish select 1, number, payer, payee, units, asset, value, state, reason, swap from first_wish",
    "insert into account select 1, name, asset, began, units from first_account",
    "insert into swap select 1, number, header, leaders, refused, batch, outcomes, findings, drawn from first_swap",
    "insert into batch select 1, number, is_settled from first_batch",
    *(f"drop table first_{it}" for it in ("day", "wish", "account", "swap", "batch")),
)
SERVED = (
    "create table person (name text primary key, token text not null unique, is_admin bigint not null)",
    "create table sent (id bigint primary key, day text not null, payer text not null, payee text not null, units bigint not null,"
    " asset text not null, value bigint, mark text, is_withdrawn bigint not null)",
    "create index sent_on on sent (day, payer)",
    "create table served (day text primary key, stage text not null, closes double precision, opens double precision)",
    "create table answer (day text, swap bigint, name text, kind text, text text not null, primary key (day, swap, name, kind))",
)
INDEXED = (
    "create unique index sent_mark on sent (payer, mark)",
    "create index wish_of_payer on wish (day, payer, number)",
)
STEPS = (FIRST, NAMED, SERVED, INDEXED)
VERSION = len(STEPS)


def version_of(database: Database) -> int:
    """The version of the tables that a state has."""
    tables = database.tables()
    if "exchange_version" in tables:
        return int(database.rows("select version from exchange_version")[0][0])
    return 1 if "day" in tables else 0


def migrate(database: Database) -> None:
    """Brings a state to this version, each step in one transaction."""
    found = version_of(database)
    if found > VERSION:
        raise StateError(f"the state is of version {found}, and this exchange knows versions up to {VERSION}")
    for version in range(found, VERSION):
        with database.step():
            for change in STEPS[version]:
                database.change(change)
            if "exchange_version" not in database.tables():
                database.change("create table exchange_version (version bigint not null)")
                database.change("insert into exchange_version values (0)")
            database.change("update exchange_version set version = ?", version + 1)
