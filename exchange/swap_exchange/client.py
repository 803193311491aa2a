"""A user's wallet towards an exchange, which it believes nothing that it can check by itself.

What it sends is written down first. Of each swap that the exchange offers it checks, before it shows
anything of a seed, that its own payments are wishes of its owner, each in one swap alone, to whom and
of what the owner wished. It makes the deal itself of everybody's rows, among which its own has to be
the one that it sent, and its owner agrees to that deal's terms.
"""
from __future__ import annotations

import json
import secrets
import time
from dataclasses import dataclass
from pathlib import Path

from swap_party import Party, RefusedError, Terms, Wallet
from swap_party.calls import MOST_NUMBER
from swap_party.terms import About, Gets, Pays

from .honest import LieError, context_of, honest, in_order, member, object_in, plain_of, swaps_in, texts_in, used_wishes
from .remote import Http, HttpError, RemoteChains
from .settler import Settler, engine, say
from .wallet_book import OFFERED, WITHDRAWING, WITHDRAWN, Book, Offer
from .words import told

PAUSE = 0.3
# Statuses of an answer that says nothing of what was sent: it is sent again
AGAIN = (0, 401, 403, 408, 425, 429, 500, 502, 503, 504)


def said_yes() -> bool:
    """Whether the owner agrees; one who can't be asked doesn't."""
    try:
        return input("agree? [y/n] ").strip().lower() == "y"
    except EOFError:
        return False


@dataclass(frozen=True)
class Owner:
    """What the owner told the wallet: the name at the exchange, whether it agrees without being asked
    and whether the model may answer; in how few heights the wallet can react, and up to which height
    units may be locked up."""

    name: str
    is_agreed: bool = False
    allow_unproved: bool = False
    least_delta: int = 5
    most_horizon: int = MOST_NUMBER


class Client:
    """What passes between a wallet and the exchange, up to swaps to which all have agreed."""

    def __init__(self, home: Path, server: Http, party: Party, owner: Owner) -> None:
        self.server, self.party, self.name, self.owner = server, party, owner.name, owner
        self.book = Book(home)
        self.wallets: dict[str, Wallet] = {}
        self.declined: set[str] = set()

    # ---- wishes

    def wish(self, to: str, units: int, asset: str, value: int | None) -> int:
        """Writes a wish down, and sends it. Where it was stopped in between, `resend` sends it."""
        mark = secrets.token_hex(16)
        self.book.step([("insert into wish values (?, ?, ?, ?, ?, null)", (mark, to, units, asset, value))])
        try:
            self.resend()
        except HttpError as why:
            if self.book.rows("select mark from wish where mark = ?", mark):
                raise HttpError(0, f"{why}; the wish is kept, and goes with the next one or with `live`") from None
            raise
        return int(self.book.rows("select wish from sent where mark = ?", mark)[0][0])

    def resend(self) -> None:
        """Sends what was written down and wasn't answered. A mark sent twice is one wish, and a wish
        that the exchange refuses is struck out."""
        ask = "select mark, to_whom, units, asset, value from wish where mark not in (select mark from sent) order by rowid"
        for mark, to, units, asset, value in self.book.rows(ask):
            wish = {"to": to, "units": units, "asset": asset, "mark": mark, **({} if value is None else {"value": value})}
            try:
                number = member(object_in(self.server.ask("POST", "/v1/wishes", json.dumps(wish))), "wish", int)
            except HttpError as why:
                if why.status not in AGAIN:
                    self.book.step([("delete from wish where mark = ?", (mark,))])
                raise
            self.book.step([("insert into sent values (?, ?)", (mark, number))])
        for mark, number in self.book.rows("select wish.mark, sent.wish from wish join sent on wish.mark = sent.mark where swap = ?", WITHDRAWING):
            self.take_back(mark, number)

    def withdraw(self, number: int) -> None:
        """Takes a wish back: from now on no swap may use it, unless the exchange says that it's too
        late."""
        mine = "mark = (select mark from sent where wish = ?)"
        self.book.step([(f"update wish set swap = ? where swap is null and {mine}", (WITHDRAWING, number))])
        found = self.book.rows(f"select mark, swap from wish where {mine}", number)
        if not found:
            raise HttpError(404, "you have no such wish")
        if found[0][1] not in (WITHDRAWING, WITHDRAWN):
            raise HttpError(409, f"swap {found[0][1]} has the wish")
        self.take_back(str(found[0][0]), number)

    def take_back(self, mark: str, number: int) -> None:
        became = WITHDRAWN
        try:
            self.server.ask("DELETE", f"/v1/wishes/{number}")
        except HttpError as why:
            if why.status != 409:
                raise
            became = ""
        self.book.step([("update wish set swap = nullif(?, '') where mark = ?", (became, mark))])
        if not became:
            raise HttpError(409, "the wish's day is closed")

    # ---- a swap, from its offer until all have agreed

    def turn(self) -> None:
        """Does what there is to do in each swap."""
        self.resend()
        for key, name in swaps_in(self.server.ask("GET", "/v1/swaps")):
            stage = self.book.stage(key)
            if stage is None:
                self.take(key, name)
            elif stage == OFFERED and key not in self.declined:
                self.go_on(key)

    def path(self, key: str, word: str) -> str:
        return f"/v1/swaps/{key}/{word}"

    def take(self, key: str, name: str) -> None:
        """Looks at an offer, and writes it down."""
        offer, context = (self.server.ask("GET", self.path(key, it)) for it in ("offer", "context"))
        marks = used_wishes(self.name, name, offer, context, self.book.free_wishes())
        self.book.take(Offer(key, name, offer, tuple(context.splitlines()), secrets.token_bytes(32)), marks)

    def go_on(self, key: str) -> None:
        it = self.book.offer(key)
        if key not in self.wallets:
            # (no chain is read before all have agreed)
            self.wallets[key] = engine(self.party, self.book, it, RemoteChains(self.server), self.owner.allow_unproved)
        wallet = self.wallets[key]
        if wallet.notes.agreement is None:
            self.agree(it, wallet)
        else:
            self.await_all(it, wallet)

    def agree(self, it: Offer, wallet: Wallet) -> None:
        """Sends the row, and agrees to the deal of all rows once these are there."""
        answered = object_in(self.server.ask("GET", self.path(it.key, "rows")))
        texts = texts_in(answered)
        try:
            if it.name not in texts:
                self.server.ask("PUT", self.path(it.key, "row"), wallet.row(it.offer))
            elif member(answered, "whole", bool):
                header = self.party.deal(it.offer, in_order(it.offer, it.name, wallet.row(it.offer), texts)).strip()
                honest(self.server.ask("GET", self.path(it.key, "deal")).strip() == header, "the exchange tells another deal than that of the rows")
                terms = wallet.terms(header, it.context)
                if self.suits(it, terms) and self.shown(it, terms):
                    wallet.agree(header, it.context)
                else:
                    self.declined.add(it.key)
        except RefusedError as why:
            raise LieError(f"what the exchange offers is refused: {why}") from None

    def suits(self, it: Offer, terms: Terms) -> bool:
        """Whether the times are such as the owner takes."""
        if terms.delta < self.owner.least_delta:
            say(f"swap {it.key} isn't taken: it leaves {terms.delta} heights to react, and --least-delta is {self.owner.least_delta}")
        elif terms.horizon > self.owner.most_horizon:
            say(f"swap {it.key} isn't taken: it is over by height {terms.horizon}, and --most-horizon is {self.owner.most_horizon}")
        else:
            return True
        return False

    def shown(self, it: Offer, terms: Terms) -> bool:
        """Shows the owner the terms, and whether the owner agrees."""
        said = context_of("\n".join(it.context), len(plain_of(it.offer)[1]))
        honest({str(line) for line in terms.terms if isinstance(line, About)} <= set(it.context), "the terms have another context")
        say(f"swap {it.key}: deal {terms.deal[:16]}.. of {terms.parties} parties, over by height {terms.horizon}")
        for line in terms.terms:
            if isinstance(line, Pays):
                say(f"  you pay {said[line.arc]['to']} {line.amount} {said[line.arc]['asset']} by {line.publish_by}, back from {line.back} on if not")
            elif isinstance(line, Gets):
                say(f"  {said[line.arc]['from']} pays you {line.amount} {said[line.arc]['asset']}")
        return self.owner.is_agreed or said_yes()

    def await_all(self, it: Offer, wallet: Wallet) -> None:
        """Sends what it agreed to. Once all agreed to the same the swap settles, for which the notes
        are let go."""
        digest = wallet.agreement.digest
        answered = object_in(self.server.ask("GET", self.path(it.key, "agreed")))
        texts = texts_in(answered)
        if it.name not in texts:
            self.server.ask("PUT", self.path(it.key, "agree"), digest)
        elif member(answered, "whole", bool) and member(answered, "settles", bool):
            honest(set(texts.values()) == {digest}, "others agree to another deal")
            self.wallets.pop(it.key).close()
            self.book.settle(it.key)

    def close(self) -> None:
        for it in self.wallets.values():
            it.close()
        self.book.close()


def live(client: Client, settler: Settler, until: int | None) -> int:
    """Goes on until so many swaps are over. A server that doesn't answer is asked again. Once the
    exchange lied, or doesn't know the wallet, what is under way is settled, and nothing else."""
    settler.start()
    status, is_believed = 0, True
    while client.book.settling() if not is_believed else until is None or client.book.count_left() < until:
        try:
            if is_believed:
                client.turn()
        except LieError as why:
            status, is_believed = 1, False
            told("the exchange isn't believed", why, "wallet")
        except HttpError as why:
            # (what isn't there yet, or a server that is being started again)
            if why.status in (401, 403):
                status, is_believed = 3, False
                told("refused", why, "wallet")
        time.sleep(PAUSE)
    settler.is_ending.set()
    settler.join()
    return status
