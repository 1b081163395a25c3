"""The service of examples/service, on a port of this machine, and under load."""
import http.client
import importlib
import json
import subprocess
import sys
import tempfile
import threading
import unittest
from importlib.machinery import SourceFileLoader
from importlib.util import module_from_spec, spec_from_loader
from itertools import islice
from pathlib import Path
from time import perf_counter
from typing import Any
from unittest import mock

from support import IS_TRUE, TOP, Case

from lib import service_load
from lib.benchmark_page import with_part
from lib.place import read
from lib.service_load import Pace

sys.path.insert(0, str(TOP / "examples/service"))
service = importlib.import_module("service")
# over the library of the tests
RUN_SERVICE = (sys.executable, str(TOP / "python/tests/run_service.py"))
FRIENDS = "SELECT DISTINCT fid FROM friend WHERE pid = ?"


class Services(Case):
    def setUp(self) -> None:
        keeper = service.Keeper(service.CAFES, 400_000)
        server = service.Service(keeper, 0)
        thread = threading.Thread(target=server.serve_forever)
        thread.start()
        for call in (keeper.close, server.server_close, thread.join, server.shutdown):
            self.addCleanup(call)
        self.connection = http.client.HTTPConnection("127.0.0.1", server.server_port, timeout=20)
        self.addCleanup(self.connection.close)

    def get(self, path: str) -> tuple[int, Any]:
        self.connection.request("GET", path)
        reply = self.connection.getresponse()
        return reply.status, json.loads(reply.read())

    def post(self, path: str, body: object) -> tuple[int, Any]:
        self.connection.request("POST", path, body if isinstance(body, bytes) else json.dumps(body).encode())
        reply = self.connection.getresponse()
        return reply.status, json.loads(reply.read())

    def test_cafes(self) -> None:
        status, body = self.get("/cafes?person=0&year=2015&month=5&city=nyc")
        self.assertEqual((200, [[10]], 315_000), (status, body["rows"], body["bound"]))
        self.assertGreater(body["reads"], 3)

    def test_queries(self) -> None:
        status, body = self.post("/price", {"query": FRIENDS, "parameters": [0]})
        self.assertEqual((200, 5000, 400_000), (status, body["bound"], body["budget"]))
        status, body = self.post("/query", {"query": FRIENDS, "parameters": [0]})
        self.assertEqual((200, [[1], [2], [3]], 5000), (status, body["rows"], body["bound"]))

    def test_above_the_budget(self) -> None:
        query = "SELECT DISTINCT b.fid FROM friend a, friend b WHERE a.pid = ? AND a.fid = b.pid"
        refused = {"error": "bound 25005000 above budget 400000", "refusal": 21}
        self.assertEqual((422, refused), self.post("/query", {"query": query, "parameters": [0]}))
        self.assertEqual(25005000, self.post("/price", {"query": query, "parameters": [0]})[1]["bound"])
        self.assertEqual(19, self.post("/query", {"query": "SELECT DISTINCT pid FROM friend"})[1]["refusal"])

    def test_other_requests(self) -> None:
        self.assertEqual(404, self.get("/")[0])
        self.assertEqual(404, self.post("/", {"query": FRIENDS})[0])
        for path in ("/cafes", "/cafes?person=0", "/cafes?person=x&year=1&month=1&city=", "/cafes?person=9223372036854775808&year=1&month=1&city="):
            self.assertEqual(400, self.get(path)[0], path)
        wrong = [{"query": FRIENDS}, {"query": FRIENDS, "parameters": "0"}, {"query": FRIENDS, "parameters": [None]}, {"query": "DELETE FROM friend"},
                 {"query": "LOAD friend FROM 'cafes.beas'"},
                 {"query": "@1 " + FRIENDS, "parameters": [0]}, {"query": "SELECT;SELECT"}, {"query": 7}]
        for body in (b"", b"{", b"[]", *wrong):
            self.assertEqual(400, self.post("/query", body)[0], body)
        self.assertEqual(422, self.post("/query", {"query": "SELECT x"})[0])
        self.assertEqual(400, self.post("/query", b" " * 70_000)[0])
        self.connection.close()
        self.assertEqual(200, self.get("/cafes?person=0&year=2015&month=5&city=nyc")[0])


class Load(Case):
    def see_figures(self, figures: dict[str, dict[str, float]]) -> None:
        self.assertEqual(["http", "package"], sorted(figures))
        for it in figures.values():
            self.assertGreater(it["questions"], 0)
            self.assertTrue(0 < it["p50"] <= it["p99"] <= it["greatest"], it)

    def test_few_rows(self) -> None:
        """Few questions, since the stand-in is slow."""
        with tempfile.TemporaryDirectory() as room, mock.patch.object(service_load, "COMPARED", 3):
            self.see_figures(service_load.measured(room, 20, Pace(2, 0.2, 20.0), RUN_SERVICE))

    @unittest.skipUnless(IS_TRUE, "the stand-in is too slow for it")
    def test_the_script(self) -> None:
        """A small load: the figures and the table of the page, and no picture of one size."""
        with tempfile.TemporaryDirectory() as to:
            words = [str(TOP / "scripts/load-test"), "--rows", "1000", "--seconds", "1", "--to", to]
            ran = subprocess.run(words, capture_output=True, text=True, timeout=120, check=False)
            self.assertEqual((0, ""), (ran.returncode, ran.stderr))
            self.assertEqual(["results.json", "table.md"], sorted(it.name for it in Path(to).iterdir()))
            results = json.loads((Path(to) / "results.json").read_text(encoding="utf-8"))
            self.see_figures(results["runs"]["1000"])
            self.assertEqual(2, (Path(to) / "table.md").read_text(encoding="utf-8").count("| 1,000 |"))

    def test_the_page(self) -> None:
        """A picture has a line for each way and share, and the table goes where the page has room for it."""
        found = spec_from_loader("load_test", SourceFileLoader("load_test", str(TOP / "scripts/load-test")))
        assert found is not None and found.loader is not None
        load_test = module_from_spec(found)
        found.loader.exec_module(load_test)
        figures = service_load.figures_of([0.25, 0.001, 0.002], Pace(4, 2.0))
        runs = {rows: {"http": figures, "package": figures} for rows in ("1000", "10000")}
        with tempfile.TemporaryDirectory() as room:
            load_test.write({"taken": "2026-11-30", "machine": "one processor", **Pace(4, 2.0)._asdict(), "runs": runs}, Path(room))
            self.assertEqual(4, (Path(room) / "service-cafes.svg").read_text(encoding="utf-8").count("<polyline"))
            table = (Path(room) / "table.md").read_text(encoding="utf-8")
        runs["10000"] = {"http": {**figures, "p50": 0.003, "p99": 0.5}, "package": figures}
        self.assertEqual("HTTP: over 10,000 rows p50 1.50 times and p99 2.00 times that over 1,000", load_test.growth_of("http", runs))
        self.assertIn("| 10,000 | HTTP | 2 ms | 250 ms | 250 ms | 2 |\n", table)
        self.assertIn(table, with_part(read("docs/library.md"), load_test.MARK, table))

    def test_a_service_that_does_not_start(self) -> None:
        with tempfile.TemporaryDirectory() as room, self.assertRaisesRegex(RuntimeError, "the service didn't start"):
            service_load.measured(room, 20, Pace(1, 0.1), [sys.executable, "-c", "pass"])

    def test_beats(self) -> None:
        """One of three clients that ask 600 times a second together has a beat every 5 ms. A beat that is missed stays when it was due."""
        start = perf_counter()
        beats = Pace(3, 1.0, 600.0).beats(start, 1)
        first = next(beats)
        self.assertGreaterEqual(first, start + 1 / 600)
        missed = list(islice(Pace(3, 1.0, 600.0).beats(start - 1, 1), 3))
        for nth, beat in enumerate(missed):
            self.assertAlmostEqual(start - 1 + (1 + 3 * nth) / 600, beat, delta=1e-9)
        one, other = islice(Pace(3, 1.0).beats(start, 1), 2)
        self.assertTrue(first < one < other)

    def test_what_is_counted(self) -> None:
        """What begins before the first moment isn't counted. What is counted is timed from its beat, and is one question at least."""
        now = perf_counter()
        asked: list[Any] = []
        ask = lambda values: asked.append(values) or []
        times = service_load.times_of(ask, [(1,), (2,), (3,)], iter([now - 10, now - 5, now - 1]), now - 6, now + 60)
        self.assertEqual([(1,), (2,), (3,)], asked)
        self.assertEqual([5, 1], [int(it) for it in times])
        self.assertEqual(1, len(service_load.times_of(ask, [(1,), (2,), (3,)], iter([now - 1, now, now]), now, now)))

    def test_hundredths(self) -> None:
        values = [float(it) for it in range(1, 201)]
        self.assertEqual([1.0, 100.0, 198.0, 200.0], [service_load.hundredth(values, share) for share in (0, 50, 99, 100)])
        self.assertEqual(1.0, service_load.hundredth([1.0], 99))


if __name__ == "__main__":
    unittest.main()
