#!/usr/bin/env python3
"""A service that tells the price of a query before it answers it, and answers none above its budget.

    examples/service/service.py [--script FILE] [--budget N] [--port N]

FILE makes the tables and constraints and adds the rows; a LOAD in it reads a file beside it. It is crates/beas_shell/data/cafes.beas unless
it is named. The service hears this machine alone (127.0.0.1). It answers with JSON:

    GET /cafes?person=0&year=2015&month=5&city=nyc    the cafés of a city where friends of a person dined in a month
    POST /price   {"query": .., "parameters": [..]}   the bound of a query; nothing is read
    POST /query   {"query": .., "parameters": [..]}   its answer, with bound and reads

Status 200 is an answer. 422 says that the query was refused, 400 that the request is none of these, 404 that there is no such path."""
import argparse
import json
import sys
from concurrent.futures import ThreadPoolExecutor
from http.server import BaseHTTPRequestHandler, ThreadingHTTPServer
from pathlib import Path
from time import perf_counter
from typing import Any
from urllib.parse import parse_qsl, urlsplit

TOP = Path(__file__).resolve().parents[2]
sys.path.insert(0, str(TOP / "python"))
import beas

CAFES = TOP / "crates/beas_shell/data/cafes.beas"
LONGEST_REQUEST = 65_536
# at most 5,000 friends with at most 31 cafés a month, of which each has one city: 5,000 + 155,000 + 155,000
CAFES_OF_FRIENDS = """SELECT DISTINCT c.cid FROM friend f, dine d, cafe c WHERE f.pid = :person AND f.fid = d.pid
    AND d.year = :year AND d.month = :month AND d.cid = c.cid AND c.city = :city"""
NUMBERS = ("person", "year", "month")


class BadRequest(Exception):
    """The request is none that the service knows."""


class Keeper:
    """A database in a thread of its own, since only the thread that opened it may use it. Those of the connections wait for their turn."""

    def __init__(self, script: Path, budget: int) -> None:
        self.thread = ThreadPoolExecutor(1, "beas")
        self.db = self.thread.submit(lambda: beas.Database(budget=budget, folder=script.parent)).result()
        self.thread.submit(self.db.run, script.read_text(encoding="utf-8")).result()

    def price(self, query: str, parameters: Any) -> dict[str, Any]:
        price = self.thread.submit(self.db.price, query, parameters).result()
        return {"bound": price.bound, "budget": self.db.budget, "plan": price.plan}

    def answer(self, query: str, parameters: Any) -> dict[str, Any]:
        return self.thread.submit(self.answered, query, parameters).result()

    def answered(self, query: str, parameters: Any) -> dict[str, Any]:
        began = perf_counter()
        answer = self.db.query(query, parameters)
        rows = answer.rows
        seconds = perf_counter() - began
        return {"columns": answer.columns, "rows": rows, "bound": answer.bound, "reads": answer.reads, "seconds": seconds}

    def close(self) -> None:
        self.thread.submit(self.db.close).result()
        self.thread.shutdown()


class Handler(BaseHTTPRequestHandler):
    """One connection. A client may send one request after another on it."""

    protocol_version = "HTTP/1.1"
    # An answer goes at once, and doesn't wait for more to fill a packet.
    disable_nagle_algorithm = True
    server: "Service"

    def do_GET(self) -> None:
        self.respond(self.cafes)

    def do_POST(self) -> None:
        self.respond(self.asked)

    def respond(self, found: Any) -> None:
        try:
            status, body = 200, found()
        except beas.Refused as why:
            status, body = 422, {"error": why.text, "refusal": why.number}
        except (BadRequest, beas.Error, ValueError) as why:
            status, body = 400, {"error": str(why)}
        except KeyError as why:
            status, body = 404, {"error": f"there is no {why.args[0]}"}
        content = json.dumps(body).encode()
        self.send_response(status)
        self.send_header("Content-Type", "application/json")
        self.send_header("Content-Length", str(len(content)))
        self.end_headers()
        self.wfile.write(content)

    def cafes(self) -> dict[str, Any]:
        parts = urlsplit(self.path)
        if parts.path != "/cafes":
            raise KeyError(parts.path)
        given = dict(parse_qsl(parts.query, keep_blank_values=True))
        if sorted(given) != sorted((*NUMBERS, "city")):
            raise BadRequest("wanted: person, year, month and city")
        return self.server.keeper.answer(CAFES_OF_FRIENDS, {name: int(text) if name in NUMBERS else text for name, text in given.items()})

    def asked(self) -> dict[str, Any]:
        ways = {"/price": self.server.keeper.price, "/query": self.server.keeper.answer}
        length = int(self.headers.get("Content-Length", "0"))
        if not 0 <= length <= LONGEST_REQUEST:
            self.close_connection = True
            raise BadRequest(f"a request has at most {LONGEST_REQUEST} bytes")
        content = self.rfile.read(length)
        way = ways[self.path]
        body = json.loads(content)
        if not (isinstance(body, dict) and isinstance(body.get("query"), str) and isinstance(body.get("parameters", []), (list, dict))):
            raise BadRequest('wanted: {"query": .., "parameters": [..]}')
        return way(body["query"], body.get("parameters", []))

    def log_message(self, format: str, *words: Any) -> None:
        """Requests aren't logged."""


class Service(ThreadingHTTPServer):
    """Hears this machine alone. Port 0 is one that is free; `server_port` tells which."""

    daemon_threads = True

    def __init__(self, keeper: Keeper, port: int) -> None:
        self.keeper = keeper
        super().__init__(("127.0.0.1", port), Handler)


def main() -> int:
    given = argparse.ArgumentParser(description=(__doc__ or "").split("\n")[0])
    given.add_argument("--script", type=Path, default=CAFES)
    given.add_argument("--budget", type=int, default=400_000)
    given.add_argument("--port", type=int, default=8080)
    words = given.parse_args()
    keeper = Keeper(words.script, words.budget)
    try:
        with Service(keeper, words.port) as service:
            print(f"http://127.0.0.1:{service.server_port}/cafes?person=0&year=2015&month=5&city=nyc", flush=True)
            service.serve_forever()
    except KeyboardInterrupt:
        pass
    finally:
        keeper.close()
    return 0


if __name__ == "__main__":
    sys.exit(main())
