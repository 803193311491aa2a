"""Hostile requests to the exchange's service, for tests/exchange: each is answered in this process, by the
application itself."""
from __future__ import annotations

import asyncio
import json
import time
from collections.abc import Iterator
from contextlib import contextmanager
from pathlib import Path
from typing import Any

from exchange_service import CONTEXT, OFFER, must

ROW = "row {} - " + ",".join(["0" * 64])
DIGEST = "0" * 64


WISH: dict[str, object] = {"to": "bob", "units": 5, "asset": "coin", "value": 5, "mark": "m"}
# What is bad of a wish, in place of what stands in a good one
BAD: list[dict[str, object]] = [
    {"units": 0}, {"units": -1}, {"units": 1.5}, {"units": True}, {"units": 10**13}, {"units": "1e3"}, {"units": None}, {"to": "alice"}, {"to": ""},
    {"to": " bob"}, {"to": "b\u0007"}, {"to": "x" * 65}, {"asset": "\ud800"}, {"mark": ""}, {"mark": "x" * 65}, {"mark": "\u0000"}, {"mark": "\ud800"},
    {"mark": 5}, {"value": -1}, {"value": 10**16}, {"value": None}, {"from": "bob"}, {"asset": "gold", "units": "1.234"},
]


def wish_with(name: str, value: object) -> dict[str, object]:
    return {**WISH, **{name: value}}


class Served:
    """The application over a state, asked without a network. Its keeper doesn't turn by itself."""

    def __init__(self, state: str, patience: float = 1000) -> None:
        from swap_exchange.api import Api, application
        from swap_exchange.database import opened
        from swap_exchange.keeper import Chains, Keeper
        from swap_exchange.pool import Crew, Workers
        from swap_exchange.progress import Log, Progress
        from swap_exchange.store import Store
        from swap_exchange.wishes import Asset
        from swap_exchange.work import Programs

        self.store = Store(opened(state))
        self.workers = Workers(1)
        crew = Crew(self.workers, Programs("/bin/false", "/bin/false"))
        assets = {"gold": Asset("gold", 2)}
        self.keeper = Keeper(self.store, crew, Chains("http://127.0.0.1:9"), assets, (10, 10), patience, Progress(False, Log(None)))
        self.api = Api(self.store, self.keeper, lambda: False)
        self.app = application(self.api, "1")
        self.tokens = {"root": self.store.put_person("root", True)}
        self.tokens.update({name: self.store.put_person(name, False) for name in ("alice", "bob", "carol")})

    def ask(self, who: str, method: str, path: str, body: object = None, headers: dict[str, str] | None = None) -> tuple[int, str]:
        """The status and the text of an answer. A body that isn't bytes is sent as JSON."""
        sent = body if isinstance(body, bytes) else b"" if body is None else json.dumps(body).encode()
        told = {"authorization": f"Bearer {self.tokens.get(who, who)}"} if headers is None else headers
        return asyncio.run(self.asked(method, path, sent, told))

    async def asked(self, method: str, path: str, body: bytes, headers: dict[str, str]) -> tuple[int, str]:
        answer: list[dict[str, Any]] = []
        given: Iterator[dict[str, Any]] = iter([{"type": "http.request", "body": body, "more_body": False}])

        async def receive() -> dict[str, Any]:
            told = next(given, None)
            if told is None:
                await asyncio.sleep(3600)
            return dict(told or {})

        async def send(told: dict[str, Any]) -> None:
            answer.append(told)

        scope = {"type": "http", "asgi": {"version": "3.0"}, "http_version": "1.1", "method": method, "scheme": "http", "path": path, "raw_path": path.encode(),
                 "query_string": b"", "root_path": "", "headers": [(name.encode(), value.encode("latin-1")) for name, value in headers.items()],
                 "client": ("127.0.0.1", 1), "server": ("127.0.0.1", 80)}
        await self.app(scope, receive, send)
        text = b"".join(it.get("body", b"") for it in answer)
        return int(answer[0]["status"]), text.decode()

    def offer(self, day: str, swap: int) -> None:
        """A swap of alice and bob that is under way."""
        from swap_exchange.keeper import Offered, Running
        from swap_exchange.state import State

        it = Offered({"alice": "alice", "bob": "bob"}, time.monotonic() + 1000, 1)
        self.keeper.days.setdefault(day, Running(State(self.store.database, day))).swaps[swap] = it
        for name in ("alice", "bob"):
            self.keeper.of_user.setdefault(name, {})[day, swap] = name, it

    def close(self) -> None:
        self.workers.close()
        self.store.database.close()


@contextmanager
def served(state: Path | str) -> Iterator[Served]:
    it = Served(str(state))
    try:
        yield it
    finally:
        it.close()


def hostile(it: Served) -> list[tuple[int, str, str, str, object]]:
    """The status that each request has, who sends it, and the request."""
    swap = "/v1/swaps/1/0"
    return [
        (401, "nosuch", "GET", "/v1/state", None),
        (401, "", "GET", "/v1/state", None),
        (401, "' or 1=1 --", "GET", "/v1/state", None),
        (403, "alice", "POST", "/v1/days/close", None),
        (403, "alice", "POST", "/v1/people", {"name": "eve", "admin": True}),
        (422, "root", "POST", "/v1/people", {"name": "e\u202eve\u0000"}),
        (422, "root", "POST", "/v1/people", {"name": "x" * 65}),
        (422, "root", "POST", "/v1/people", {"name": "eve", "admin": 1}),
        (409, "root", "POST", "/v1/days/close", {"day": "7"}),
        (422, "root", "POST", "/v1/days/close", {"night": "7"}),
        (413, "alice", "POST", "/v1/wishes", b" " * 70_000),
        (422, "alice", "POST", "/v1/wishes", b"{" * 60_000),
        (422, "alice", "POST", "/v1/wishes", b"\xff"),
        (422, "alice", "POST", "/v1/wishes", b"[]"),
        (422, "alice", "POST", "/v1/wishes", b'{"to":"bob","to":"carol","units":5,"asset":"coin","value":5,"mark":"m"}'),
        (422, "alice", "POST", "/v1/wishes", b'{"to":"bob","units":' + b"9" * 5000 + b',"asset":"coin","value":5,"mark":"m"}'),
        (422, "alice", "POST", "/v1/wishes", b'{"to":"bob","units":NaN,"asset":"coin","value":5,"mark":"m"}'),
        *((422, "alice", "POST", "/v1/wishes", {**WISH, **it}) for it in BAD),
        (422, "alice", "POST", "/v1/wishes", {name: it for name, it in WISH.items() if name != "value"}),
        (404, "alice", "DELETE", "/v1/wishes/99", None),
        (404, "alice", "DELETE", "/v1/wishes/-1", None),
        (404, "alice", "DELETE", "/v1/wishes/" + "9" * 30, None),
        (422, "alice", "DELETE", "/v1/wishes/1%20or%201=1", None),
        (422, "alice", "DELETE", "/v1/wishes/1 or 1=1", None),
        (404, "alice", "GET", "/v1/days/1' or '1'='1/events", None),
        (404, "alice", "GET", "/v1/days/nosuch/events", None),
        (404, "carol", "GET", f"{swap}/offer", None),
        (404, "carol", "PUT", f"{swap}/row", ROW.format("alice").encode()),
        (404, "alice", "GET", "/v1/swaps/2/0/offer", None),
        (404, "alice", "PUT", "/v1/swaps/2/0/row", (ROW.format("alice") + "\n").encode()),
        (404, "alice", "GET", "/v1/swaps/1/1/rows", None),
        (404, "alice", "GET", f"{swap}/secret", None),
        (425, "alice", "GET", f"{swap}/deal", None),
        (422, "alice", "PUT", f"{swap}/row", b""),
        (422, "alice", "PUT", f"{swap}/row", (ROW.format("bob") + "\n").encode()),
        (422, "alice", "PUT", f"{swap}/row", (ROW.format("alice") + "\n" + ROW.format("bob") + "\n").encode()),
        (422, "alice", "PUT", f"{swap}/row", (ROW.format("alice").replace("0", "\u0660") + "\n").encode()),
        (413, "alice", "PUT", f"{swap}/row", b"0" * 70_000),
        (409, "alice", "PUT", f"{swap}/agree", DIGEST.encode()),
        (422, "alice", "PUT", f"{swap}/agree", b"g" * 64),
        (405, "alice", "PUT", "/v1/wishes", None),
        (404, "alice", "GET", "/v1/../state", None),
    ]


def refuses_hostile_requests(folder: Path) -> str:
    """Each request that isn't good is answered by its status, in one line that isn't long, and changes
    nothing."""
    with served(folder / "state") as it:
        it.offer("1", 0)
        rows = hostile(it)
        for status, who, method, path, body in rows:
            it.api.limiter.buckets.clear()
            found = it.ask(who, method, path, body)
            must(found[0] == status, f"{who}: {method} {path[:60]} {str(body)[:60]} is answered {found}, and {status} is wanted")
            is_line = len(found[1]) <= 300 and "\n" not in found[1] and isinstance(json.loads(found[1])["detail"], str)
            must(is_line, f"{method} {path[:60]} is told {found[1][:300]}")
        must(it.store.database.rows("select count(*) from sent")[0] == (0,), "a wish that was refused is kept")
        must(it.store.database.rows("select count(*) from answer")[0] == (0,), "an answer that was refused is kept")
    return f"{len(rows)} hostile requests"


def takes_each_once(folder: Path) -> str:
    """What is sent again, as after a kill between the commit and the answer, changes nothing; what
    contradicts it is refused."""
    state, row = folder / "state", (ROW.format("alice") + "\n").encode()
    with served(state) as it:
        tokens = it.tokens
        first = it.ask("alice", "POST", "/v1/wishes", WISH)
    with served(state) as it:
        must(it.ask(tokens["alice"], "GET", "/v1/state")[0] == 401, "a token that was replaced counts")
        must(first == it.ask("alice", "POST", "/v1/wishes", WISH) and first[0] == 201, "a wish that is sent twice is two")
        must(it.ask("alice", "POST", "/v1/wishes", wish_with("units", 6))[0] == 409, "another wish with a mark is taken")
        must(it.ask("bob", "POST", "/v1/wishes", wish_with("to", "alice"))[0] == 201, "two users can't have the same mark")
        must(it.ask("bob", "DELETE", "/v1/wishes/1")[0] == 404, "another one's wish is withdrawn")
        must([it.ask("bob", "DELETE", "/v1/wishes/2")[0] for _ in range(2)] == [204, 204], "a wish isn't withdrawn")
        closed = [it.ask("root", "POST", "/v1/days/close", {"day": "1"}) for _ in range(2)]
        must(closed == [(200, '{"closed":"1"}')] * 2 and it.store.open_day() == "2", f"a day that is closed twice is {closed}")
        must(first == it.ask("alice", "POST", "/v1/wishes", WISH), "a wish that is sent again on another day is two")
        must(it.ask("alice", "DELETE", "/v1/wishes/1")[0] == 409, "a wish of a closed day is withdrawn")
        it.offer("1", 0)
        must([it.ask("alice", "PUT", "/v1/swaps/1/0/row", row)[0] for _ in range(2)] == [204, 204], "a row that is sent twice isn't taken")
        must(it.ask("alice", "PUT", "/v1/swaps/1/0/row", row.replace(b"0", b"1"))[0] == 409, "another row is taken")
        it.store.put_answer("1", 0, "", "deal", "the deal\n")
        must([it.ask("alice", "PUT", "/v1/swaps/1/0/agree", DIGEST.encode())[0] for _ in range(2)] == [204, 204], "an agreement isn't taken twice")
        must(it.ask("alice", "PUT", "/v1/swaps/1/0/agree", b"1" * 64)[0] == 409, "an agreement is changed")
        text = it.ask("bob", "GET", "/v1/swaps/1/0/agreed")[1]
        must(json.loads(text) == {"whole": False, "texts": {"alice": DIGEST}, "settles": False}, f"bob is told {text}")
    return "rows, wishes and agreements count once"


def limits_each_user(folder: Path) -> str:
    """A user who asks too much is told so, and nobody else is; nor does one open all streams."""
    from swap_exchange.limiter import BURST, STREAMS_OF_ONE

    with served(folder / "state") as it:
        present = [0.0]
        it.api.limiter.clock = lambda: present[0]
        statuses = [it.ask("alice", "GET", "/v1/days")[0] for _ in range(int(BURST) + 3)]
        must(statuses == [200] * int(BURST) + [429] * 3, f"many requests are answered {statuses[-5:]}")
        must(it.ask("bob", "GET", "/v1/days")[0] == 200, "one user's requests keep another one out")
        must([it.ask(f"nosuch{n}", "GET", "/v1/days")[0] for n in range(300)] == [401] * 300, "strangers are answered otherwise")
        present[0] = 0.1
        must(it.ask("alice", "GET", "/v1/days")[0] == 200, "a user who waited has no room")
        it.api.limiter.streams["alice"] = STREAMS_OF_ONE
        must(it.ask("alice", "GET", "/v1/days/1/events")[0] == 503, "a user opens any number of streams")
        must(it.api.limiter.may_follow("bob"), "one user's streams keep another one out")
        must(it.ask("", "GET", "/v1/days", headers={"authorization": f"bearer {it.tokens['bob']}"})[0] == 200, "the scheme's case counts")
        must(it.ask("", "GET", "/v1/days", headers={"authorization": it.tokens["bob"]})[0] == 401, "a token without its scheme counts")
        it.keeper.fault = "/a/path"
        must(it.ask("", "GET", "/v1/health", headers={}) == (503, '{"healthy":false}'), "strangers are told of a fault")
        page = it.ask("", "GET", "/docs", headers={})[1]
        must("/v1/wishes" in page and "<script" not in page and "//" not in page, "the page of paths loads something")
    return "limits by user"


def tells_each_its_wishes(folder: Path) -> str:
    """What became of wishes on a day that is over is told to their senders in the order in which they
    were sent, withdrawn ones beside them."""
    with served(folder / "state") as it:
        for number, (who, to) in enumerate([("alice", "bob"), ("bob", "alice"), ("alice", "carol"), ("alice", "bob"), ("carol", "bob")]):
            it.ask(who, "POST", "/v1/wishes", {"to": to, "units": number + 1, "asset": "coin", "value": number + 1, "mark": str(number)})
        it.ask("alice", "DELETE", "/v1/wishes/3")
        it.ask("root", "POST", "/v1/days/close", {"day": "1"})
        ends = [("paid", "", 0), ("paid", "", 0), ("dropped", "no cycle", None), ("dropped", "no place", None)]
        rows = [(number, *wish[1:6], *end) for number, (wish, end) in enumerate(zip(it.store.sent_on("1"), ends))]
        it.store.database.change("insert into day values (1, '1', 'digest', x'00', 'packed')")
        it.store.database.change_each("insert into wish values (1, ?, ?, ?, ?, ?, ?, ?, ?, ?)", rows)
        it.store.end_day("1")
        told = json.loads(it.ask("alice", "GET", "/v1/state")[1])["wishes"]
        found = [(wish["wish"], wish["state"], wish["reason"], wish["swap"]) for wish in told]
        must(found == [(1, "paid", "", 0), (3, "withdrawn", "", None), (4, "dropped", "no cycle", None)], f"alice is told {found}")
    return "each is told its own"


def goes_on_beside_a_fault(folder: Path) -> str:
    """A swap that can't go on, or a day, keeps no other one waiting."""
    with served(folder / "state") as it:
        it.keeper.days.clear()
        called: list[str] = []

        def go_on(day: str, touched: object) -> None:
            called.append(day)
            if day == "1":
                raise ValueError("a fault")

        for _ in range(2):
            it.ask("root", "POST", "/v1/days/close")
        it.keeper.go_on = go_on  # type: ignore[assignment]
        it.keeper.tried("", it.keeper.turn)
        must(called == ["1", "2"] and it.keeper.faults == ["day 1: ValueError: a fault"], f"{called} went on, with {it.keeper.faults}")
    with served(folder / "other") as it:
        it.ask("alice", "POST", "/v1/wishes", WISH)
        # (by users in collusion: one can't have so much)
        more = [(number, "1", f"u{number}", "bob", 10**15, "coin", 1, "m", 0) for number in range(2, 9003)]
        it.store.database.change_each("insert into sent values (?, ?, ?, ?, ?, ?, ?, ?, ?)", more)
        it.ask("root", "POST", "/v1/days/close")
        it.keeper.turn()
        must(it.store.stage_of("1") == "over" and not it.keeper.faults, f"a day that is refused isn't over: {it.keeper.faults}")
        must(json.loads(it.ask("alice", "GET", "/v1/state")[1])["wishes"][0]["reason"] == "its day was refused", "a user isn't told of that")
    return "a fault stands alone"


def context_holds_any_name() -> str:
    """Lines of context are ASCII, at most 256 characters long, and give back what they tell."""
    from swap_exchange.context import LINE, about, told_in

    for name in ("alice", "株" * 64, "\U0001f600" * 64, 'a"\\' * 21):
        told = {"asset": name, "from": name, "to": "b"}
        lines = [*about(0, told), *about(127, told)]
        are_lines = all(len(it) <= LINE and it.isascii() and it.isprintable() and it.split(" ", 2)[2][0] != " " for it in lines)
        must(are_lines, f"a line of context is {max(lines, key=len)}")
        both = [*about(0, told), *about(1, told)]
        must(told_in(both, 2) == [told, told], "a context is read otherwise")
        for wrong in (both[1:], [*both, both[-1]], [both[-1], *both], [f"{both[0]} ", *both[1:]]):
            try:
                told_in(wrong, 2)
            except (ValueError, IndexError, AttributeError):
                continue
            raise AssertionError(f"a context is taken that isn't one: {wrong[:2]}")
    return f"{len(CONTEXT)} and more lines of context, for {OFFER['mode']}"


TESTS = (refuses_hostile_requests, takes_each_once, limits_each_user, tells_each_its_wishes, goes_on_beside_a_fault)
