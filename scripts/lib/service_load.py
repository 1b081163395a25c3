"""The service of examples/service under load, and its query by the package without HTTP, each question timed.

A time is what whoever asks waits, by the clock: from the question to its rows as values of Python."""
import http.client
import json
import math
import re
import subprocess
import sys
from collections.abc import Callable, Iterable, Iterator, Sequence
from concurrent.futures import ThreadPoolExecutor
from contextlib import contextmanager
from itertools import count, cycle
from time import perf_counter, sleep
from typing import Any, NamedTuple
from urllib.parse import urlencode

from .benchmark_sets import SETS, Values, write_files
from .place import TOP

sys.path.insert(0, str(TOP / "examples/service"))
# It finds the package.
from service import CAFES_OF_FRIENDS
import beas

SERVICE = (sys.executable, str(TOP / "examples/service/service.py"))
SCRIPT = "begun.beas"
BUDGET = 400_000
YEAR = 2015
# different questions of a size, which come again when all were asked
DRAWN = 100_000
# of so many the answers by both ways are compared, before anything is timed
COMPARED = 100
SECONDS_OF_AN_ANSWER = 60.0
Rows = list[Any]
Ask = Callable[[Values], Rows]
Figures = dict[str, float]


class Pace(NamedTuple):
    """How many clients ask and for how many seconds: so many questions a second together, or each as soon as it has its answer. What is
    asked in a tenth of the seconds before isn't counted."""

    clients: int
    seconds: float
    rate: float | None = None

    def beats(self, start: float, client: int) -> Iterator[float]:
        """When each question of a client begins, after waiting for it. One that can't be asked in time, since an answer takes long, begins
        when it should have been asked."""
        if self.rate is None:
            while True:
                yield perf_counter()
        for nth in count(client, self.clients):
            due = start + nth / self.rate
            early = due - perf_counter()
            if early > 0:
                sleep(early)
            yield perf_counter() if early > 0 else due


class Cafes(NamedTuple):
    """Tables in a folder: the statements that make them, the files that fill them, and the values of the questions."""

    room: str
    made: list[str]
    files: list[tuple[str, str]]
    draws: list[Values]


def cafes_in(room: str, rows: int) -> Cafes:
    """The cafés of the benchmark with so many meals, and as many pairs of friends."""
    the_set = SETS["cafes"](rows)
    files, _ = write_files(the_set, room)
    made = [*the_set.schema(), *the_set.accesses()]
    with open(f"{room}/{SCRIPT}", "w", encoding="utf-8") as script:
        script.writelines(f"{it};\n" for it in [*made, *(f"LOAD {table} FROM '{file}'" for table, file in files)])
    return Cafes(room, made, files, [the_set.parameters() for _ in range(DRAWN)])


def named(values: Values) -> dict[str, int | str]:
    person, month, city = values
    return {"person": person, "year": YEAR, "month": month, "city": city}


def times_of(ask: Ask, draws: Iterable[Values], beats: Iterator[float], begin: float, end: float) -> list[float]:
    """The seconds of each question that is asked between two moments, and of one at least, however long answers take."""
    times = list[float]()
    for since, values in zip(beats, draws):
        if times and perf_counter() > end:
            break
        ask(values)
        spent = perf_counter() - since
        if since >= begin:
            times.append(spent)
    return times


def times_of_client(ask: Ask, cafes: Cafes, pace: Pace, client: int, start: float) -> list[float]:
    begin = start + pace.seconds / 10
    return times_of(ask, cycle(cafes.draws[client :: pace.clients]), pace.beats(start, client), begin, begin + pace.seconds)


# ---- by HTTP


@contextmanager
def served(words: Sequence[str], room: str) -> Iterator[int]:
    """The port of a service over the tables of a folder, in a process of its own, until the block ends."""
    given = ["--script", f"{room}/{SCRIPT}", "--budget", str(BUDGET), "--port", "0"]
    with subprocess.Popen([*words, *given], stdout=subprocess.PIPE, text=True) as process:
        try:
            assert process.stdout is not None
            said = re.match(r"http://127\.0\.0\.1:(\d+)/", process.stdout.readline())
            if said is None:
                raise RuntimeError("the service didn't start")
            yield int(said[1])
        finally:
            process.terminate()


class Client:
    """One connection to the service, for one thread."""

    def __init__(self, port: int) -> None:
        self.connection = http.client.HTTPConnection("127.0.0.1", port, timeout=SECONDS_OF_AN_ANSWER)

    def ask(self, values: Values) -> Rows:
        self.connection.request("GET", f"/cafes?{urlencode(named(values))}")
        reply = self.connection.getresponse()
        body = json.loads(reply.read())
        if reply.status != 200:
            raise RuntimeError(body["error"])
        rows: Rows = body["rows"]
        return rows


def by_http(words: Sequence[str], cafes: Cafes, pace: Pace) -> tuple[list[float], list[Rows]]:
    """The seconds of each request, and the answers to the first questions."""
    # If something goes wrong, the service ends first, and so clients that still ask do.
    with ThreadPoolExecutor(pace.clients) as threads, served(words, cafes.room) as port:
        clients = [Client(port) for _ in range(pace.clients)]
        try:
            answers = [clients[0].ask(values) for values in cafes.draws[:COMPARED]]
            start = perf_counter()
            each = [threads.submit(times_of_client, it.ask, cafes, pace, nth, start) for nth, it in enumerate(clients)]
            return [seconds for it in each for seconds in it.result()], answers
        finally:
            for it in clients:
                it.connection.close()


# ---- by the package


def by_package(cafes: Cafes, pace: Pace) -> tuple[list[float], list[Rows]]:
    """The same by one thread of this process."""
    with beas.Database(budget=BUDGET) as db:
        for statement in cafes.made:
            db.say(statement)
        for table, file in cafes.files:
            db.load_file(table, f"{cafes.room}/{file}")
        ask: Ask = lambda values: db.query(CAFES_OF_FRIENDS, named(values)).rows
        answers = [list(map(list, ask(values))) for values in cafes.draws[:COMPARED]]
        return times_of_client(ask, cafes, pace._replace(clients=1), 0, perf_counter()), answers


# ---- figures


def hundredth(ordered: Sequence[float], share: int) -> float:
    """The least value that so many hundredths of sorted values don't pass."""
    return ordered[max(0, math.ceil(len(ordered) * share / 100) - 1)]


def figures_of(times: list[float], pace: Pace) -> Figures:
    ordered = sorted(times)
    figures = {"p50": hundredth(ordered, 50), "p99": hundredth(ordered, 99), "greatest": ordered[-1]}
    return {**figures, "questions": len(ordered), "a second": len(ordered) / pace.seconds}


def measured(room: str, rows: int, pace: Pace, words: Sequence[str] = SERVICE) -> dict[str, Figures]:
    """The figures over so many rows, of each way to ask. The service is what these words start."""
    cafes = cafes_in(room, rows)
    requests, answers = by_http(words, cafes, pace)
    queries, wanted = by_package(cafes, pace)
    if answers != wanted:
        raise RuntimeError("the service and the package gave different answers")
    return {"http": figures_of(requests, pace), "package": figures_of(queries, pace)}
