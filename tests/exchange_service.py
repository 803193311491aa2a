"""Tests of the exchange's service, for tests/exchange: wallets in processes that share no file settle a
day, everything is killed at any moment, and an exchange lies."""
from __future__ import annotations

import json
import os
import random
import shutil
import signal
import socket
import subprocess
import sys
import threading
import time
import urllib.error
import urllib.request
from collections.abc import Callable
from contextlib import redirect_stderr, redirect_stdout
from io import StringIO
from pathlib import Path

TOP = Path(__file__).resolve().parent.parent
EXCHANGE = TOP / "exchange"
ENVIRONMENT = {**os.environ, "PYTHONDONTWRITEBYTECODE": "1", "SWAP_PLAIN": "1", "SWAP_QUIET": "1"}
WISHES = [("alice", "bob", 5, "coin", 50), ("bob", "carol", 7, "gold", 70), ("carol", "alice", 1, "art", 90), ("alice", "carol", 3, "coin", 30)]
# How long a test waits for anything, in seconds
PATIENCE = 600.0


def must(holds: object, why: str) -> None:
    if not holds:
        raise AssertionError(why)


def free_port() -> int:
    with socket.socket() as it:
        it.bind(("127.0.0.1", 0))
        return int(it.getsockname()[1])


class Process:
    """A process that can be killed and started again."""

    def __init__(self, folder: Path, name: str, *words: object) -> None:
        self.words, self.log = [sys.executable, *map(str, words)], folder / f"{name}.told"
        self.start()

    def start(self) -> None:
        with self.log.open("ab") as log:
            self.process = subprocess.Popen(self.words, stdin=subprocess.DEVNULL, stdout=log, stderr=log, env=ENVIRONMENT)

    def kill(self, number: int = signal.SIGKILL) -> None:
        self.process.send_signal(number)
        self.process.wait()

    @property
    def has_ended(self) -> bool:
        return self.process.poll() is not None


class Asker:
    """Asks the service as somebody."""

    def __init__(self, url: str, token: str) -> None:
        self.url, self.token = url, token

    def status(self, method: str, path: str, body: bytes | None = None) -> tuple[int, str]:
        asked = urllib.request.Request(self.url + path, body, {"Authorization": f"Bearer {self.token}"}, method=method)
        try:
            with urllib.request.urlopen(asked, timeout=60) as answer:
                return int(answer.status), answer.read().decode()
        except urllib.error.HTTPError as why:
            return why.code, why.read().decode()
        except OSError:
            return 0, ""

    def told(self, method: str, path: str, body: object = None) -> dict[str, object]:
        """A good answer, for which it asks as long as the service isn't there."""
        until = time.monotonic() + PATIENCE
        while True:
            status, text = self.status(method, path, None if body is None else json.dumps(body).encode())
            if 200 <= status < 300:
                return dict(json.loads(text)) if text else {}
            must(status == 0 and time.monotonic() < until, f"{method} {path}: {status} {text}")
            time.sleep(0.2)


class World:
    """The service, chains, and the wallets of three users, each in a folder of its own."""

    def __init__(self, folder: Path, programs: list[str]) -> None:
        self.folder, self.ports = folder, (free_port(), free_port())
        self.url, chains = (f"http://127.0.0.1:{it}" for it in self.ports)
        serve = [EXCHANGE / "serve", "--state", folder / "state", *programs]
        admin = subprocess.run([sys.executable, *map(str, serve), "--new-admin", "root"], capture_output=True, text=True, env=ENVIRONMENT, check=False)
        must(admin.returncode == 0, f"no admin: {admin.stderr}")
        self.admin = Asker(self.url, admin.stdout.strip())
        self.service = Process(folder, "serve", *serve, "--chains", chains, "--port", self.ports[0], "--log", folder / "log")
        self.chains = Process(folder, "chains", EXCHANGE / "chains", "--folder", folder / "chains", "--port", self.ports[1], "--patience", PATIENCE)
        self.users = {name: self.user(name) for name in ("alice", "bob", "carol")}
        self.wallets: dict[str, Process] = {}
        self.chains_url = chains

    def user(self, name: str) -> Asker:
        """A user with a token, and with a folder for its wallet."""
        home = self.folder / name
        home.mkdir()
        token = str(self.admin.told("POST", "/v1/people", {"name": name})["token"])
        (home / "name").write_text(name)
        (home / "token").write_text(token)
        return Asker(self.url, token)

    def wallet(self, name: str, *words: object) -> list[object]:
        return [EXCHANGE / "wallet", "--server", self.url, "--home", self.folder / name, *words]

    def sent(self, name: str, *words: object) -> str:
        done = subprocess.run([sys.executable, *map(str, self.wallet(name, *words))], capture_output=True, text=True, env=ENVIRONMENT, check=False)
        must(done.returncode == 0, f"{name} {words}: {done.stderr}")
        return done.stdout.strip()

    def live(self) -> None:
        for name in self.users:
            words = self.wallet(name, "live", "--chains", self.chains_url, "--yes", "--until-settled", 1, "--allow-unproved")
            self.wallets[name] = Process(self.folder, f"{name}-lives", *words)

    def processes(self) -> list[Process]:
        return [self.service, self.chains, *self.wallets.values()]

    def stop(self) -> None:
        for it in self.processes():
            it.process.kill()
            it.process.wait()

    def settle(self, kills: int, draw: random.Random) -> int:
        """Waits for the wallets, and kills something now and then; how often it did."""
        until, killed = time.monotonic() + PATIENCE, 0
        while not all(it.has_ended for it in self.wallets.values()):
            must(time.monotonic() < until, f"wallets don't end: {self.told()}")
            time.sleep(draw.uniform(0.1, 3.0 if kills else 0.2))
            living = [it for it in self.processes() if not it.has_ended]
            if killed < kills and len(living) > 2:
                it = draw.choice(living)
                it.kill()
                it.start()
                killed += 1
        for name, wallet in self.wallets.items():
            must(wallet.process.returncode == 0, f"the wallet of {name} ends with {wallet.process.returncode}: {self.told()}")
        return killed

    def told(self) -> str:
        return "; ".join(f"{it.log.name}: {it.log.read_text()[-300:]}" for it in self.processes() if it.log.exists())


def settles_a_day(folder: Path, programs: list[str], kills: int) -> str:
    """From wishes over HTTP to judged accounts."""
    world = World(folder, programs)
    try:
        for payer, payee, units, asset, value in WISHES:
            world.sent(payer, "wish", "--to", payee, "--units", units, "--asset", asset, "--value", value)
        world.sent("alice", "withdraw", 4)
        refuses(world)
        must(world.admin.told("POST", "/v1/days/close") == {"closed": "1"}, "another day was closed")
        world.live()
        killed = world.settle(kills, random.Random(kills))
        ends(world)
        ends_beside_a_request(world)
        judged = [sys.executable, str(EXCHANGE / "run"), "judge", "--state", str(folder / "state"), "--day", "1"]
        done = subprocess.run(judged, capture_output=True, text=True, env=ENVIRONMENT, check=False)
        must((done.returncode, done.stdout) == (0, "swap 0 judged again: findings 0\n"), f"the day is judged as {done}")
    finally:
        world.stop()
    return f"three wallets settled a day through the service, with {killed} kills"


def ends(world: World) -> None:
    """The day is over, and each user sees what became of its wishes."""
    until = time.monotonic() + PATIENCE
    while {"day": "1", "stage": "over"} not in world.admin.told("GET", "/v1/days")["days"]:  # type: ignore[operator]
        must(time.monotonic() < until, f"the day isn't over: {world.told()}")
        time.sleep(0.2)
    events = world.admin.status("GET", "/v1/days/1/events")
    must(events == (200, 'data: {"day": "1", "stage": "over", "offered": 0, "settling": 0}\n\n'), f"the events are {events}")
    states = [it["state"] for it in json.loads(world.sent("alice", "state"))["wishes"]]
    must(states == ["paid", "withdrawn", "withdrawn"], f"alice's wishes ended as {states}")


def ends_beside_a_request(world: World) -> None:
    """SIGTERM ends the service, though somebody never ends a request."""
    with socket.create_connection(("127.0.0.1", world.ports[0])) as held:
        token = world.users["alice"].token
        held.sendall(f"POST /v1/wishes HTTP/1.1\r\nHost: x\r\nAuthorization: Bearer {token}\r\nContent-Length: 9\r\n\r\n".encode())
        time.sleep(0.5)
        world.service.process.send_signal(signal.SIGTERM)
        status = world.service.process.wait(PATIENCE)
    told = world.service.log.read_text().splitlines()[-1:]
    must((status, told) == (0, ["exchange: stopped: what was answered is kept"]), f"SIGTERM ends the service with {status}: {world.told()}")


def refuses(world: World) -> None:
    """What the service doesn't take."""
    alice, bob = world.users["alice"], world.users["bob"]
    wish = {"to": "bob", "units": 5, "asset": "coin", "value": 5, "mark": "m"}
    twice = b'{"to":"bob","to":"carol","units":5,"asset":"coin","value":5,"mark":"m"}'
    for status, asker, method, path, body in [
        (401, Asker(world.url, "nosuch"), "GET", "/v1/state", None),
        (403, alice, "POST", "/v1/days/close", None),
        (404, alice, "DELETE", "/v1/wishes/99", None),
        (404, bob, "DELETE", "/v1/wishes/1", None),
        (404, alice, "GET", "/v1/swaps/1/0/offer", None),
        (413, alice, "POST", "/v1/wishes", b" " * 70_000),
        (422, alice, "POST", "/v1/wishes", twice),
        (422, alice, "POST", "/v1/wishes", json.dumps({**wish, "units": 0}).encode()),
        (422, alice, "POST", "/v1/wishes", json.dumps({**wish, "to": "alice"}).encode()),
        (422, alice, "POST", "/v1/wishes", b"{" * 1000),
        (422, alice, "DELETE", "/v1/wishes/x", None),
        (200, alice, "GET", "/openapi.json", None),
    ]:
        found = asker.status(method, path, body)
        must(found[0] == status and len(found[1]) < 500 + 10**5 * (status == 200), f"{method} {path} is answered {found}, and {status} is wanted")
    first, again = (alice.told("POST", "/v1/wishes", wish) for _ in range(2))
    must(first == again, "a wish that is sent twice is two")
    must(alice.status("POST", "/v1/wishes", json.dumps({**wish, "units": 6}).encode())[0] == 409, "another wish with a mark is taken")
    alice.status("DELETE", f"/v1/wishes/{first['wish']}")
    statuses = [alice.status("GET", "/v1/days")[0] for _ in range(260)]
    must(set(statuses) <= {200, 429}, f"many requests are answered {set(statuses)}")


# ---- an exchange that lies

OFFER = {
    "arcs": [{"amount": 5, "from": "alice", "to": "bob"}, {"amount": 7, "from": "bob", "to": "alice"}],
    "bound": 1, "delta": 10, "leaders": [{"party": "alice"}], "mode": "hashkeys", "parties": [{"name": "alice"}, {"name": "bob"}], "start": 10, "swap": 2,
}
CONTEXT = [{"asset": "coin", "from": "alice", "to": "bob"}, {"asset": "gold", "from": "bob", "to": "alice"}]
Told = dict[str, str]


def told_by(swap: int, offer: dict[str, object]) -> Told:
    """What an honest exchange tells alice's wallet of a swap."""
    from swap_exchange.context import about
    from swap_party.header import compact

    context = "".join(f"{line}\n" for arc, it in enumerate(CONTEXT) for line in about(arc, it))
    path = f"/v1/swaps/1/{swap}/"
    return {"/v1/swaps": json.dumps({"swaps": [{"day": "1", "swap": swap, "name": "alice", "settles": False}]}),
            path + "offer": compact(offer) + "\n", path + "context": context, path + "rows": '{"whole":false,"texts":{}}'}


class Liar:
    """An exchange that tells what stands in a dictionary."""

    def __init__(self, party: object, told: Told) -> None:
        self.party, self.told = party, told

    def ask(self, method: str, path: str, body: str | None = None) -> str:
        if method == "PUT" and path.endswith("/row"):
            offer = self.told[path.replace("/row", "/offer")]
            rows = {"alice": str(body), "bob": self.party.keys("bob", bytes(32), offer)}  # type: ignore[attr-defined]
            self.told[path + "s"] = json.dumps({"whole": True, "texts": rows})
            self.told[path.replace("/row", "/deal")] = self.party.deal(offer, rows.values())  # type: ignore[attr-defined]
        return self.told.get(path, "{}")


def changed(told: Told, path: str, old: str, new: str) -> None:
    must(old in told[path], f"{old} isn't in {path}")
    told[path] = told[path].replace(old, new)


def with_other_row(told: Told, party: object) -> None:
    rows = json.loads(told["/v1/swaps/1/0/rows"])
    rows["texts"]["alice"] = party.keys("alice", bytes(32), told["/v1/swaps/1/0/offer"])  # type: ignore[attr-defined]
    told["/v1/swaps/1/0/rows"] = json.dumps(rows)


def with_rows_of(told: Told, name: str) -> None:
    rows = json.loads(told["/v1/swaps/1/0/rows"])
    rows["texts"][name] = rows["texts"].pop("bob")
    told["/v1/swaps/1/0/rows"] = json.dumps(rows)


def lies_of(party: object) -> list[tuple[str, int, Callable[[Told], object]]]:
    """What a wallet finds of an exchange, from which of its turns on the exchange tells it, and the
    lie."""
    offer, context, rows, deal = (f"/v1/swaps/1/0/{it}" for it in ("offer", "context", "rows", "deal"))
    agreed = {"whole": True, "settles": True, "texts": {"alice": "0" * 64, "bob": "1" * 64}}
    return [
        ("no free wish of alice pays bob 6 coin", 1, lambda told: changed(told, offer, '"amount":5', '"amount":6')),
        ("no free wish of alice pays eve 5 coin", 1, lambda told: changed(told, context, '"to":"bob"', '"to":"eve"')),
        ("no free wish of alice pays bob 5 gold", 1, lambda told: changed(told, context, '"coin"', '"gold"')),
        ("an arc has another context", 1, lambda told: changed(told, context, "about 0 {", 'about 0 {"a":"1",')),
        ("an arc has another context", 1, lambda told: changed(told, context, '"bob"', '"\\u001b[2Jbob"')),
        ("an arc has another context", 1, lambda told: changed(told, context, "about 1 {", "about 0 {")),
        ("an arc has another context", 1, lambda told: changed(told, context, "about 1 {", "about 9 {")),
        ("the exchange calls alice bob", 1, lambda told: changed(told, "/v1/swaps", '"alice"', '"bob"')),
        ("the exchange tells a swap of no form", 1, lambda told: changed(told, "/v1/swaps", '"1"', '"../../x"')),
        ("the exchange tells no 'swap'", 1, lambda told: changed(told, "/v1/swaps", '"swap": 0', '"swap": "0"')),
        ("the exchange tells no 'swaps'", 1, lambda told: told.update({"/v1/swaps": "{}"})),
        ("the exchange answers what is no JSON", 1, lambda told: told.update({"/v1/swaps": "[" * 100_000})),
        ("the offer is no plain offer", 1, lambda told: changed(told, offer, '"arcs"', '"ways"')),
        ("arc 1 pays alice, and its context says carol", 1, lambda told: changed(told, context, '"to":"alice"', '"to":"carol"')),
        ("arc 1 is paid by bob, and its context says alice", 1, lambda told: changed(told, context, '"from":"bob"', '"from":"alice"')),
        ("the exchange tells another row than the one that was sent", 3, lambda told: with_other_row(told, party)),
        ("the rows are those of others", 3, lambda told: with_rows_of(told, "carol")),
        ("a row is another one's", 3, lambda told: changed(told, rows, "row bob", "row eve")),
        ("a row isn't of the form", 3, lambda told: changed(told, rows, "row bob", "bow rob")),
        ("the exchange tells another deal than that of the rows", 3, lambda told: changed(told, deal, '"amount":5', '"amount":6')),
        ("no free wish of alice pays bob 5 coin", 4, lambda told: told.update(told_by(1, OFFER))),
        ("others agree to another deal", 6, lambda told: told.update({"/v1/swaps/1/0/agreed": json.dumps(agreed)})),
    ]


def sent_wish(client: object, to: str, units: int, asset: str) -> None:
    """Has a wallet know a wish as one that it sent."""
    step = client.book.step  # type: ignore[attr-defined]
    step([("insert into wish values ('m', ?, ?, ?, null, null)", (to, units, asset)), ("insert into sent values ('m', 1)", ())])


def isnt_believed(folder: Path, party_path: str) -> str:
    """Each lie of an exchange, and the moment at which the wallet finds it."""
    from swap_exchange.client import Client, Owner
    from swap_exchange.honest import LieError
    from swap_party import Program

    party = Program(party_path)
    lies = lies_of(party)
    for number, (why, turn, lie) in enumerate(lies):
        liar = Liar(party, told_by(0, OFFER))
        client = Client(folder / f"home{number}", liar, party, Owner("alice", True, True))  # type: ignore[arg-type]
        sent_wish(client, "bob", 5, "coin")
        liar.told["/v1/swaps/1/0/agreed"] = '{"whole":false,"settles":false,"texts":{"alice":""}}'
        try:
            for at in range(1, 8):
                if at == turn:
                    lie(liar.told)
                with redirect_stdout(StringIO()):
                    client.turn()
        except LieError as found:
            must(why in str(found), f"instead of '{why}' a wallet finds '{found}'")
        else:
            raise AssertionError(f"a wallet doesn't find that {why}")
        client.close()
        shutil.rmtree(folder / f"home{number}")
    declines_times(folder, party)
    return f"a wallet found {len(lies)} lies of an exchange"


def declines_times(folder: Path, party: object) -> None:
    """A wallet doesn't agree, by itself, to times that its owner doesn't take."""
    from swap_exchange.client import Client, Owner

    owners = [Owner("alice", True, True, least_delta=11), Owner("alice", True, True, most_horizon=49), Owner("alice", True, True, 10, 50)]
    for number, owner in enumerate(owners):
        liar = Liar(party, {**told_by(0, OFFER), "/v1/swaps/1/0/agreed": '{"whole":false,"settles":false,"texts":{"alice":""}}'})
        client = Client(folder / f"times{number}", liar, party, owner)  # type: ignore[arg-type]
        sent_wish(client, "bob", 5, "coin")
        with redirect_stdout(StringIO()):
            for _ in range(4):
                client.turn()
        must((client.wallets["1/0"].notes.agreement is None) == (number < 2), f"a wallet agrees otherwise than {owner} takes")
        client.close()


class Turning:
    """An exchange for alice and bob that is honest until both settle. From then on it tells alice what
    is no JSON, and doesn't answer bob."""

    def __init__(self, party: object) -> None:
        self.party, self.offer, self.context = party, told_by(0, OFFER)["/v1/swaps/1/0/offer"], told_by(0, OFFER)["/v1/swaps/1/0/context"]
        self.rows: Told = {}
        self.agreed: Told = {}
        self.settle: set[str] = set()
        self.is_over = threading.Event()

    def told(self, name: str, method: str, path: str, body: str | None) -> str:
        word = path.rpartition("/")[2]
        if self.settle == {"alice", "bob"}:
            self.is_over.wait(PATIENCE if name == "bob" else 0)
            return "no JSON"
        if method == "PUT":
            (self.rows if word == "row" else self.agreed)[name] = str(body)
            return ""
        if word == "agreed" and len(self.agreed) == 2:
            self.settle.add(name)
        texts = {"rows": self.rows, "agreed": self.agreed}.get(word, {})
        if word == "deal":
            return str(self.party.deal(self.offer, self.rows.values()))  # type: ignore[attr-defined]
        if word == "swaps":
            return json.dumps({"swaps": [{"day": "1", "swap": 0, "name": name, "settles": False}]})
        return {"offer": self.offer, "context": self.context}.get(word, json.dumps({"whole": len(texts) == 2, "settles": len(texts) == 2, "texts": texts}))


class Seen:
    """The exchange, as one user sees it."""

    def __init__(self, exchange: Turning, name: str) -> None:
        self.exchange, self.name = exchange, name

    def ask(self, method: str, path: str, body: str | None = None) -> str:
        return self.exchange.told(self.name, method, path, body)


def settles_anyhow(folder: Path, party_path: str) -> str:
    """Wallets that have agreed settle, though the exchange lies, or doesn't answer any more."""
    from swap_exchange.client import Client, Owner, live
    from swap_exchange.remote import Http
    from swap_exchange.settler import Settler
    from swap_exchange.wallet_book import Book
    from swap_party import Program

    party, port, ended = Program(party_path), free_port(), dict[str, int]()
    exchange = Turning(party)
    chains = Process(folder, "chains", EXCHANGE / "chains", "--folder", folder / "chains", "--port", port, "--patience", PATIENCE)

    def lives(name: str, to: str, units: int, asset: str) -> None:
        client = Client(folder / name, Seen(exchange, name), party, Owner(name, True, True))  # type: ignore[arg-type]
        sent_wish(client, to, units, asset)
        ended[name] = live(client, Settler(folder / name, party, Http(f"http://127.0.0.1:{port}"), True), None)

    told = StringIO()
    threads = [threading.Thread(target=lives, args=it, daemon=True) for it in (("alice", "bob", 5, "coin"), ("bob", "alice", 7, "gold"))]
    try:
        with redirect_stdout(StringIO()), redirect_stderr(told):
            for it in threads:
                it.start()
            until = time.monotonic() + PATIENCE
            while not all((folder / name).is_dir() and Book(folder / name).count_left() == 1 for name in ("alice", "bob")):
                must(time.monotonic() < until, f"wallets don't settle: {told.getvalue()}")
                time.sleep(0.2)
            threads[0].join(PATIENCE)
            exchange.is_over.set()
            threads[1].join(PATIENCE)
    finally:
        chains.process.kill()
        chains.process.wait()
    must(ended == {"alice": 1, "bob": 1}, f"wallets end with {ended}: {told.getvalue()}")
    return "two wallets settled with an exchange that lied, and one that didn't answer"
