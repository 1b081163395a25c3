"""Second runs over one session, of which one ran out of memory."""
import os

from .refused_runs import OUT_OF_MEMORY, Ending, Runs

FIRST = """CREATE TABLE friend (pid INTEGER, fid INTEGER)
CREATE TABLE dine (pid INTEGER, cid INTEGER, year INTEGER, month INTEGER)
CREATE TABLE cafe (cid INTEGER, city TEXT)
CREATE ACCESS f1 ON friend (pid) FETCH (fid) LIMIT 3
CREATE ACCESS d1 ON dine (pid, year, month) FETCH (cid) LIMIT 3
CREATE ACCESS c1 ON cafe (cid) FETCH (city) LIMIT 1
CREATE ACCESS c2 ON cafe () FETCH (cid, city) LIMIT 9
INSERT INTO friend VALUES (0, 1), (0, 2), (0, 3), (4, 1)
INSERT INTO dine VALUES (1, 10, 2015, 5), (1, 11, 2015, 5), (2, 10, 2015, 5), (3, 12, 2015, 6), (0, 10, 2015, 5)
INSERT INTO cafe VALUES (10, 'nyc'), (11, 'boston'), (12, 'nyc')"""
JOIN = "c.cid, c.city FROM friend f, dine d, cafe c WHERE f.pid = 0 AND f.fid = d.pid AND d.year = 2015 AND d.month = 5 AND d.cid = c.cid"
SECONDS = [
    "INSERT INTO cafe VALUES (13, 'paris'), (14, 'rome'), (13, 'paris')",
    "INSERT INTO cafe VALUES (13, 'paris'), (14, 'rome'), (10, 'oslo')",
    "INSERT INTO dine VALUES (1, 12, 2015, 5), (7, 1, 1, 1); DELETE FROM dine WHERE cid = 10; INSERT INTO dine VALUES (1, 10, 2015, 5)",
    "LOAD cafe FROM 'more.csv'; LOAD cafe FROM 'wrong.csv'; LOAD cafe FROM 'none.csv'",
    "CREATE TABLE more (a INTEGER, b TEXT); INSERT INTO more VALUES (1, 'x'); CREATE ACCESS m1 ON more (b) FETCH (a) LIMIT 1",
    "CREATE ACCESS c3 ON cafe (city) FETCH (cid) LIMIT 2; CREATE ACCESS c4 ON cafe (city) FETCH (cid) LIMIT 1; DROP ACCESS c1",
    f"SELECT DISTINCT {JOIN}; EXPLAIN SELECT DISTINCT {JOIN} EXCEPT SELECT cid, city FROM cafe",
    f"SELECT {JOIN} EXCEPT SELECT cid, city FROM cafe; SCAN OK SELECT DISTINCT city FROM cafe WHERE city > 'c'",
    f"SELECT c.city, COUNT(DISTINCT c.cid), {JOIN.split(' ', 1)[1].replace('c.city', 'MIN(c.cid)', 1)} GROUP BY c.city",
    "SPECIALISE SELECT DISTINCT cid FROM dine; DISCOVER dine LIMIT 3; DISCOVER cafe (city) FETCH (cid)",
]
THIRD = f"""SCAN OK SELECT DISTINCT * FROM friend
SCAN OK SELECT DISTINCT * FROM dine
SCAN OK SELECT DISTINCT * FROM cafe
SCAN OK SELECT DISTINCT * FROM more
SELECT DISTINCT {JOIN}
SELECT DISTINCT cid, city FROM cafe
SELECT DISTINCT cid FROM cafe WHERE city = 'nyc'
SELECT DISTINCT a FROM more WHERE b = 'x'
INSERT INTO cafe VALUES (10, 'oslo')
INSERT INTO cafe VALUES (20, 'a'), (21, 'b'), (22, 'c'), (23, 'd'), (24, 'e'), (25, 'f'), (26, 'g')
INSERT INTO dine VALUES (1, 20, 2015, 5), (1, 21, 2015, 5)
CREATE ACCESS f1 ON friend () FETCH (pid, fid) LIMIT 4
CREATE ACCESS c3 ON cafe () FETCH (city) LIMIT 9
CREATE TABLE more (a INTEGER)
DELETE FROM friend
DELETE FROM dine
DELETE FROM cafe"""


# no line feed stands in a call, so these files end their lines otherwise
FILES = {"more.csv": "cid,city\r15,bonn\r16,bern", "wrong.csv": "cid,city\r17,ulm\r10,oslo"}


def calls_of(second: list[str]) -> str:
    """The calls that run the three scripts, the second with these statements."""
    scripts = {"first": FIRST.splitlines(), "second": second, "third": THIRD.splitlines()}
    files = FILES | {name: "; ".join(statements) for name, statements in scripts.items()}
    return "".join(f"add {name} {content}\n" for name, content in files.items()) + "".join(f"run {name}\n" for name in scripts)


def last_lines(ending: Ending) -> list[str]:
    """What was told of the second and of the third run."""
    lines = ending.out.decode().splitlines()
    return lines[-2:] if len(lines) > 1 else ["", ""]


def sent_in(line: str) -> str:
    return line.partition(", sent ")[2]


class SecondRuns:
    """Runs of the calls with one second script."""

    def __init__(self, program: str, library: str, room: str, text: str) -> None:
        self.program, self.library, self.room, self.statements = program, library, room, text.split("; ")

    def runs(self, count: int) -> Runs:
        """Runs in which so many statements of the second script are carried out."""
        os.makedirs(f"{self.room}/runs", exist_ok=True)
        with open(f"{self.room}/runs/calls", "w", encoding="utf-8", newline="") as file:
            file.write(calls_of(self.statements[:count]))
        return Runs([self.program, "calls"], f"{self.room}/runs", self.library)

    def faults(self) -> int:
        """How many second runs that ran out of memory left a session that no number of statements leaves."""
        wanted = [last_lines(self.runs(count).run()) for count in range(len(self.statements) + 1)]
        runs = self.runs(len(self.statements))
        whole, tried, faults = runs.run_without_memory(), 0, 0
        for number, lasting, ending in runs.refusals(whole):
            second, third = last_lines(ending)
            if not lasting and second.startswith(f"status {OUT_OF_MEMORY},") and not third.startswith(f"status {OUT_OF_MEMORY},"):
                tried += 1
                if not self.is_left(wanted, second, third):
                    faults += 1
                    print(f"{self.statements}: allocation {number}: {second}; then {third}", flush=True)
        print(f"{self.statements[0]}..: {tried} second runs after a refusal, {faults} faults", flush=True)
        return faults + (tried == 0)

    def is_left(self, wanted: list[list[str]], second: str, third: str) -> bool:
        """Whether the third run is that after the statements that were reported, or after one more."""
        after = [asked for _, asked in wanted]
        return any(third in after[count : count + 2] for count, (told, _) in enumerate(wanted) if sent_in(told) == sent_in(second))
