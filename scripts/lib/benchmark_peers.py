"""The benchmark's runs of SQLite and PostgreSQL."""
import csv
import io
import json
import re
import subprocess
import sys
import time

try:
    import sqlite3
except ImportError:
    sqlite3 = None  # type: ignore[assignment]

from .benchmark_beas import PASSES, Files, Found
from .benchmark_sets import Set, Values, literal, mark_of
from .place import TOP
from .postgres_server import DATABASE, USER, Server

# what psql writes after each statement
TIME = re.compile(r"^Time: ([0-9.]+) ms.*\n", re.M)


def run_sqlite(_: str, the_set: Set, files: Files, asked: list[Values], room: str) -> Found:
    """In a process of its own, so that memory is measured."""
    told = subprocess.run([sys.executable, f"{TOP}/scripts/benchmark", "--as-sqlite", room], input=json.dumps(
        {"schema": list(the_set.schema()), "indexes": list(the_set.indexes()), "files": files, "query": the_set.query, "asked": asked}),
        stdout=subprocess.PIPE, text=True, check=True)
    return json.loads(told.stdout)


def memory_here(field: str) -> float:
    """MB of this process: VmRSS is what it has, and VmHWM the most that it had."""
    with open("/proc/self/status", encoding="utf-8") as file:
        return int(re.search(rf"{field}:\s*(\d+)", file.read())[1]) / 1024


def forget_most() -> None:
    """Lets the most begin again at what there is, which else is at least that of the process that started this one."""
    with open("/proc/self/clear_refs", "w", encoding="utf-8") as file:
        file.write("5")


def as_sqlite(room: str) -> None:
    work = json.load(sys.stdin)
    base = sqlite3.connect(":memory:", isolation_level=None)
    forget_most()
    before = memory_here("VmRSS")
    began = time.process_time()
    for statement in work["schema"]:
        base.execute(statement)
    base.execute("BEGIN")
    for table, name in work["files"]:
        with open(f"{room}/{name}", encoding="utf-8", newline="") as file:
            rows = csv.reader(file)
            width = len(next(rows))
            base.executemany(f"INSERT INTO {table} VALUES ({', '.join('?' * width)})", rows)
    base.execute("COMMIT")
    for statement in work["indexes"]:
        base.execute(statement)
    load, best, answers = time.process_time() - began, None, []
    base.execute("ANALYZE")
    for _ in range(PASSES):
        began = time.process_time()
        answers = [base.execute(work["query"], values).fetchall() for values in work["asked"]]
        spent = time.process_time() - began
        best = min(best or spent, spent)
    memory = memory_here("VmHWM") - before
    print(json.dumps({"load": load, "memory": memory, "query": best / len(work["asked"]), "mark": mark_of(answers)}))


class Cluster(Server):
    """A server of its own, which is asked by psql."""

    def __init__(self) -> None:
        super().__init__("postgres", shared_buffers="2GB")

    def psql(self, script: str) -> tuple[str, float]:
        began = time.monotonic()
        ran = subprocess.run(["psql", "-h", self.folder, "-U", USER, "-d", DATABASE, "-q", "-At", "--csv", "-v", "ON_ERROR_STOP=1"],
                             input=script, stdout=subprocess.PIPE, text=True, check=True)
        return ran.stdout, time.monotonic() - began

    def size(self) -> float:
        """The database in MB."""
        return float(self.psql("SELECT pg_database_size(current_database()) / 1048576.0;\n")[0])


def run_postgres(_: str, the_set: Set, files: Files, asked: list[Values], room: str) -> Found:
    with Cluster() as cluster:
        before = cluster.size()
        copies = [f"\\copy {table} FROM '{room}/{file}' WITH (FORMAT csv, HEADER true)" for table, file in files]
        begun = "".join(f"{it};\n" for it in the_set.schema()) + "\n".join(copies) + "\n"
        _, load = cluster.psql(begun + "".join(f"{it};\n" for it in the_set.indexes()) + "VACUUM ANALYZE;\n")
        text, nth = the_set.query, 0
        while "?" in text:
            nth += 1
            text = text.replace("?", f"${nth}", 1)
        prepared = f"PREPARE q AS {text};\n"
        ask = prepared + "\\timing on\n" + "".join(f"EXECUTE q ({', '.join(map(literal, it))});\n" for it in asked)
        out, spent = min(((it, sum(map(float, TIME.findall(it))) / 1000) for it in (cluster.psql(ask)[0] for _ in range(PASSES))), key=lambda it: it[1])
        answers = [list(csv.reader(io.StringIO(part))) for part in TIME.split(out)[::2][:-1]]
        return {"load": load, "memory": cluster.size() - before, "query": spent / len(asked), "mark": mark_of(answers)}
