"""The service over HTTP: FastAPI's application. Each answer is JSON, but for texts of a swap."""
from __future__ import annotations

import asyncio
import json
from collections.abc import AsyncIterator, Callable
from typing import Any

from fastapi import FastAPI, HTTPException, Request
from fastapi.exceptions import RequestValidationError
from starlette.concurrency import run_in_threadpool
from starlette.responses import HTMLResponse, JSONResponse, PlainTextResponse, Response, StreamingResponse

from swap_party import Row
from swap_party.lines import WordError

from .keeper import Keeper, Offered
from .limiter import BODY, RATE, Limiter
from .paths import page_of
from .store import AGREE, CONTEXT, DEAL, MARK, OFFER, OVER, ROW, ConflictError, Person, Store
from .tables import RuleError, clipped, id_of, members_of, rule
from .told import amount
from .wishes import wish_of
from .work import FaultError

WISH = {"to": "bob", "units": "5", "asset": "coin", "value": 5, "mark": "a text of yours"}
CLOSE = {"day": "1"}


async def body_of(request: Request) -> bytes:
    """The body, which is read as far as it may be long."""
    found = b""
    async for part in request.stream():
        found += part
        if len(found) > BODY:
            raise HTTPException(413, f"a body has at most {BODY} bytes")
    return found


async def object_in(request: Request, fields: dict[str, tuple[type, ...]], needed: set[str]) -> dict[str, Any]:
    """The body's JSON object, whose members are known and of their kinds, each told once. No body is
    an empty one."""
    text = await body_of(request)
    try:
        found = json.loads(text or b"{}", object_pairs_hook=members_of)
        rule(isinstance(found, dict), "the body is no JSON object")
        for name, value in found.items():
            rule(name in fields, f"{name!r} is no field; the fields are {', '.join(fields)}")
            rule(type(value) in fields[name], f"{name!r} is of another kind")
        for name in sorted(needed):
            rule(name in found, f"{name!r} is missing")
    except RuleError as why:
        raise HTTPException(422, clipped(str(why))) from None
    except (ValueError, RecursionError):
        raise HTTPException(422, "the body is no JSON in UTF-8") from None
    return dict(found)


class Api:
    """What each path does. `is_ending` tells streams that the service ends."""

    def __init__(self, store: Store, keeper: Keeper, is_ending: Callable[[], bool]) -> None:
        self.store, self.keeper, self.is_ending, self.limiter = store, keeper, is_ending, Limiter()

    # ---- who asks

    async def person(self, request: Request) -> Person:
        scheme, _, token = request.headers.get("authorization", "").partition(" ")
        found = self.store.person(token) if scheme.lower() == "bearer" else None
        if found is None:
            raise HTTPException(401, "a token is wanted: Authorization: Bearer TOKEN", {"WWW-Authenticate": "Bearer"})
        if not self.limiter.has_room(found.name):
            raise HTTPException(429, f"a user has {RATE:.0f} requests a second", {"Retry-After": "1"})
        return found

    async def admin(self, request: Request) -> Person:
        found = await self.person(request)
        if not found.is_admin:
            raise HTTPException(403, "an admin's token is wanted")
        return found

    async def kept(self, call: Callable[..., Any], *words: object) -> Any:
        """What the store answers, in a thread of its own."""
        try:
            return await run_in_threadpool(call, *words)
        except ConflictError as why:
            raise HTTPException(409, clipped(str(why))) from None
        except (RuleError, WordError) as why:
            raise HTTPException(422, clipped(str(why))) from None

    # ---- an admin's paths

    async def put_person(self, request: Request) -> dict[str, object]:
        await self.admin(request)
        told = await object_in(request, {"name": (str,), "admin": (bool,)}, {"name"})
        name = await self.kept(id_of, told["name"], "the name")
        return {"name": name, "token": await self.kept(self.store.put_person, name, bool(told.get("admin")))}

    async def close_day(self, request: Request) -> dict[str, object]:
        await self.admin(request)
        told = await object_in(request, {"day": (str,)}, set())
        return {"closed": await self.kept(self.store.close_day, False, told.get("day"))}

    # ---- a user's wishes

    async def send(self, request: Request) -> Response:
        person = await self.person(request)
        told = await object_in(request, {"to": (str,), "units": (int, str), "asset": (str,), "value": (int,), "mark": (str,)}, {"to", "units", "asset", "mark"})
        wish, day = await self.kept(self.put_wish, person.name, told)
        return JSONResponse({"wish": wish, "day": day}, 201)

    def put_wish(self, payer: str, told: dict[str, Any]) -> tuple[int, str]:
        words = {"from": payer, **{name: str(told[name]) for name in ("to", "units", "asset", "value") if name in told}}
        asset = self.keeper.assets.get(told["asset"])
        if asset is not None and type(told["units"]) is int:
            # (a number counts smallest units, and a text is an amount as people write it)
            words["units"] = amount(max(0, told["units"]), asset.decimals)
        wish = wish_of(words, self.keeper.assets)
        rule("value" in told or asset is not None and asset.price is not None, f"a wish of {wish.asset!r} tells its value, as the asset has no price here")
        rule(1 <= len(told["mark"]) <= MARK and told["mark"].isprintable(), f"a mark has 1 to {MARK} characters that can be printed")
        return self.store.send(wish.payer, wish.payee, wish.units, wish.asset, wish.value, told["mark"])

    async def withdraw(self, wish: int, request: Request) -> Response:
        person = await self.person(request)
        if not 0 < wish < 2**62 or not await self.kept(self.store.withdraw, person.name, wish):
            raise HTTPException(404, "you have no such wish")
        return Response(status_code=204)

    async def told(self, request: Request) -> dict[str, object]:
        person = await self.person(request)
        result: dict[str, object] = await self.kept(self.state_of, person.name)
        return result

    def state_of(self, name: str) -> dict[str, object]:
        """A user's wishes, oldest first, with what became of them."""
        sent = self.store.sent_by(name)
        stages = {day: self.store.stage_of(day) for day in sorted({str(it[1]) for it in sent})}
        ended = {day: iter(self.store.became(name, day)) for day, stage in stages.items() if stage == OVER}
        wishes = []
        for wish, day, to, units, asset, value, is_withdrawn in sent:
            end: tuple[Any, ...] = ("withdrawn" if is_withdrawn else stages[day], "", None)
            if day in ended and not is_withdrawn:
                end = next(ended[day], ("dropped", "its day was refused", None))
            became = dict(zip(("state", "reason", "swap"), end))
            wishes.append({"wish": wish, "day": day, "to": to, "units": units, "asset": asset, "value": value, **became})
        return {"name": name, "open_day": self.store.open_day(), "wishes": wishes}

    # ---- a wallet's swaps

    def found(self, name: str, day: str, swap: int) -> tuple[str, Offered]:
        """The name inside a swap that a user has, and the swap."""
        it = self.keeper.swaps_of(name).get((day, swap))
        if it is None:
            raise HTTPException(404, "you have no such swap that is under way")
        return it

    async def swaps(self, request: Request) -> dict[str, object]:
        person = await self.person(request)
        found = self.keeper.swaps_of(person.name).items()
        return {"swaps": [{"day": day, "swap": swap, "name": alias, "settles": it.settles is not None} for (day, swap), (alias, it) in found]}

    async def text(self, day: str, swap: int, kind: str, request: Request) -> Response:
        """The offer, its context, or the deal, as it is."""
        person = await self.person(request)
        self.found(person.name, day, swap)
        if kind not in (OFFER, CONTEXT, DEAL):
            raise HTTPException(404, "a swap has offer, context, deal, rows and agreed")
        text = (await self.kept(self.store.answers, day, swap, kind)).get("")
        if text is None:
            raise HTTPException(425, "it isn't there yet", {"Retry-After": "1"})
        return PlainTextResponse(text)

    async def answers(self, day: str, swap: int, kind: str, request: Request) -> dict[str, object]:
        """Everybody's rows, or what they agree to, as far as these are there."""
        person = await self.person(request)
        _, it = self.found(person.name, day, swap)
        found = await self.kept(self.store.answers, day, swap, kind)
        return {"whole": len(found) == len(it.names), "texts": found}

    async def rows(self, day: str, swap: int, request: Request) -> dict[str, object]:
        return await self.answers(day, swap, ROW, request)

    async def agreed(self, day: str, swap: int, request: Request) -> dict[str, object]:
        told = await self.answers(day, swap, AGREE, request)
        running = self.keeper.days.get(day)
        it = running.swaps.get(swap) if running else None
        return {**told, "settles": it is not None and it.settles is not None}

    async def put_row(self, day: str, swap: int, request: Request) -> Response:
        person = await self.person(request)
        alias, _ = self.found(person.name, day, swap)
        text = (await body_of(request)).decode("ascii", "replace")
        try:
            row = Row.parse(text)
        except ValueError:
            raise HTTPException(422, "the body is no row as `party keys` writes it") from None
        if row.name != alias or str(row) != text:
            raise HTTPException(422, f"the row isn't one of {alias}")
        await self.kept(self.store.put_answer, day, swap, alias, ROW, text)
        return Response(status_code=204)

    async def put_agreed(self, day: str, swap: int, request: Request) -> Response:
        person = await self.person(request)
        alias, _ = self.found(person.name, day, swap)
        text = (await body_of(request)).decode("ascii", "replace").strip()
        if len(text) != 64 or set(text) - set("0123456789abcdef"):
            raise HTTPException(422, "the body is no digest of 64 hexadecimal digits")
        if not await self.kept(self.store.answers, day, swap, DEAL):
            raise HTTPException(409, "there is no deal to agree to")
        await self.kept(self.store.put_answer, day, swap, alias, AGREE, text)
        return Response(status_code=204)

    # ---- how far days are

    async def days(self, request: Request) -> dict[str, object]:
        await self.person(request)
        return {"days": [{"day": day, "stage": stage} for day, stage in await self.kept(self.store.days)]}

    def progress(self, day: str) -> dict[str, object] | None:
        stage = self.store.stage_of(day)
        running = self.keeper.days.get(day)
        swaps = list(running.swaps.values()) if running else []
        settling = sum(it.settles is not None for it in swaps)
        return {"day": day, "stage": stage, "offered": len(swaps) - settling, "settling": settling} if stage else None

    async def events(self, day: str, request: Request) -> Response:
        person = await self.person(request)
        if await self.kept(self.progress, day) is None:
            raise HTTPException(404, "there is no such day")
        if not self.limiter.may_follow(person.name):
            raise HTTPException(503, "too many streams of events are open", {"Retry-After": "10"})
        return StreamingResponse(self.stream(person.name, day), media_type="text/event-stream", headers={"Cache-Control": "no-store"})

    async def stream(self, name: str, day: str) -> AsyncIterator[str]:
        self.limiter.streams[name] += 1
        last: dict[str, object] | None = None
        try:
            while not self.is_ending():
                told = await run_in_threadpool(self.progress, day)
                if told != last:
                    yield f"data: {json.dumps(told)}\n\n"
                last = told
                if told is None or told["stage"] == OVER:
                    return
                await asyncio.sleep(0.25)
        finally:
            self.limiter.streams[name] -= 1

    async def health(self) -> Response:
        """(what the fault is stands in the log: anybody may ask here)"""
        return JSONResponse({"healthy": not self.keeper.fault}, 503 if self.keeper.fault else 200)

    async def metrics(self) -> Response:
        try:
            import prometheus_client
        except ImportError:
            raise HTTPException(404, "prometheus_client (Debian: python3-prometheus-client) isn't here") from None
        return PlainTextResponse(prometheus_client.generate_latest().decode())


def body(example: object, kind: str = "application/json") -> dict[str, object]:
    return {"requestBody": {"required": True, "content": {kind: {"example": example}}}}


def application(api: Api, version: str) -> Any:
    """The application, with its page of all paths at /docs, which loads nothing from elsewhere."""
    about = "Wishes come in, and users' wallets settle them elsewhere."
    app = FastAPI(title="swap exchange", version=version, description=about, docs_url=None, redoc_url=None)
    swap = "/v1/swaps/{day}/{swap}"
    for path, method, call, extra, told in [
        ("/v1/people", "POST", api.put_person, body({"name": "alice", "admin": False}), "Admin: a fresh token of somebody"),
        ("/v1/days/close", "POST", api.close_day, body(CLOSE), "Admin: close the open day; one that is named is closed once"),
        ("/v1/days", "GET", api.days, None, "Each day and its stage"),
        ("/v1/days/{day}/events", "GET", api.events, None, "How far a day is, as server-sent events"),
        ("/v1/wishes", "POST", api.send, body(WISH), "Send a wish; the same mark sent again is the same wish"),
        ("/v1/wishes/{wish}", "DELETE", api.withdraw, None, "Withdraw a wish while its day is open"),
        ("/v1/state", "GET", api.told, None, "Your wishes, and what became of them"),
        ("/v1/swaps", "GET", api.swaps, None, "Your swaps that are under way"),
        (f"{swap}/row", "PUT", api.put_row, body("row alice - 00..", "text/plain"), "Send your row"),
        (f"{swap}/rows", "GET", api.rows, None, "Everybody's rows"),
        (f"{swap}/agree", "PUT", api.put_agreed, body("00..", "text/plain"), "Agree to the deal, by the digest of its terms"),
        (f"{swap}/agreed", "GET", api.agreed, None, "What everybody agrees to, and whether the swap settles"),
        (swap + "/{kind}", "GET", api.text, None, "The swap's offer, context or deal"),
        ("/v1/health", "GET", api.health, None, "Whether the service has a fault"),
        ("/metrics", "GET", api.metrics, None, "Numbers for Prometheus"),
    ]:
        app.add_api_route(path, call, methods=[method], summary=told, openapi_extra=extra, response_model=None)
    app.add_api_route("/docs", lambda: HTMLResponse(page_of(app.openapi())), include_in_schema=False, response_model=None)
    app.add_exception_handler(RequestValidationError, bad_path)
    app.add_exception_handler(FaultError, fault)
    return app


async def bad_path(_: Request, why: RequestValidationError) -> Response:
    return JSONResponse({"detail": clipped(f"the path's {why.errors()[0]['loc'][-1]} is no number")}, 422)


async def fault(_: Request, why: FaultError) -> Response:
    """What is kept can't be had just now: whoever asks may ask again."""
    return JSONResponse({"detail": "the state can't be had"}, 503, {"Retry-After": "1"})
