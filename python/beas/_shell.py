"""The shell: statements from a prompt, a script or a pipe.

    python -m beas [FILE] [-c SCRIPT] [--budget N] [--explain] [--tables]

With neither FILE nor -c it reads statements from a prompt, or from a pipe if the input is one. Of a script the reports are written as
the program beas writes them, and with --tables as at the prompt. LOAD reads files from the folder in which it runs. Ends with 1 where a
statement was refused, 2 where the words are wrong, 3 where FILE can't be read, 4 where the output can't be written, 5 where memory
runs out, 6 where the library isn't there or a statement is too long, 7 where the script isn't UTF-8.
"""
import argparse
import os
import sys
from collections.abc import Callable
from pathlib import Path
from typing import TextIO

from ._database import Database, Outcome
from ._errors import Error, NotAQuery
from ._lexing import BEGIN_A_QUERY, RESERVED, Pending, first_token, statements_of
from ._refusals import Refused
from ._reports import Answer, Changed, Explained
from ._tables import table_of

HELP = """Statements end with a semicolon and may have several lines. Lines that begin with a point are for the shell:
.tables              the tables, with their columns
.constraints         the constraints
.price QUERY         the bound and the plan of a query, without reading anything
.load FILE TABLE     adds the records of a CSV file to a table
.budget [N | off]    refuses queries whose bound is above N
.explain [on | off]  shows the plan of each answer
.read FILE           carries out the statements of a file
.help                this
.quit                ends the shell
"""
HISTORY = "~/.beas_history"
WORDS = sorted(word.upper() for word in RESERVED | {"scan", "ok", "step", "count", "sum", "min", "max", "specialise"})


class Usage(Exception):
    """A line for the shell that isn't as it should be."""


class Shell:
    """Carries out statements and lines for the shell, and writes what comes of them."""

    def __init__(self, db: Database, out: TextIO, has_tables: bool = True) -> None:
        self.db, self.out, self.has_tables = db, out, has_tables
        self.pending = Pending()
        #: Whether a statement was refused.
        self.has_refused = False
        self.is_over = False
        self.commands: dict[str, Callable[[str], None]] = {
            ".tables": self.tables,
            ".constraints": self.constraints,
            ".price": self.price,
            ".load": self.load,
            ".budget": self.budget,
            ".explain": self.explain,
            ".read": self.read,
            ".help": lambda _: self.write(HELP),
            ".quit": self.quit,
        }

    def write(self, text: str) -> None:
        self.out.write(text)

    # ---- statements

    def script(self, script: str) -> None:
        """Carries out a script; it goes on after a refusal."""
        for statement in statements_of(script):
            self.statement(statement.text)

    def statement(self, text: str) -> None:
        if self.has_tables:
            self.announce(text)
        try:
            (outcome,) = self.db.run(text, refusals=True)
        except OSError as why:
            return self.trouble(why)
        self.has_refused |= isinstance(outcome, Refused)
        self.write(self.told(outcome) if self.has_tables else outcome.written)
        self.out.flush()

    def trouble(self, why: Exception) -> None:
        """Says why nothing was carried out. It counts as a refusal."""
        self.has_refused = True
        self.write(f"{why}\n")

    def announce(self, text: str) -> None:
        """Writes the bound of a query before it is run. A query that is refused is announced by its refusal alone, and that of a group
        with its answer."""
        if first_token(text) not in BEGIN_A_QUERY:
            return
        try:
            bound = self.db.price(text).bound
        except (Refused, NotAQuery):
            return
        if self.db.budget is None or bound <= self.db.budget:
            self.write(f"bound {bound}\n")
            self.out.flush()

    def told(self, outcome: Outcome) -> str:
        """What is written at the prompt."""
        if isinstance(outcome, Answer):
            return self.told_answer(outcome)
        if isinstance(outcome, Refused):
            return f"refused ({outcome.number}): {outcome.text}\n"
        if isinstance(outcome, Changed):
            return f"{counted(outcome.rows, 'row')}\n"
        if isinstance(outcome, Explained):
            return f"bound {outcome.bound}\n" + "".join(f"{line}\n" for line in outcome.plan)
        return "".join(line.partition(" ")[2] for line in outcome.written.splitlines(True))

    def told_answer(self, answer: Answer) -> str:
        plan = "".join(f"{line}\n" for line in answer.plan)
        read = f"{counted(answer.count, 'row')}, {answer.reads} of at most {answer.bound} reads"
        return f"{plan}{table_of(answer)}{read}\n"

    # ---- lines of a prompt

    def line(self, line: str) -> None:
        """A line from a prompt: one for the shell, or a part of a statement."""
        if line.startswith(".") and self.pending.is_empty:
            return self.command(line.strip())
        for statement in self.pending.more(line + "\n"):
            self.statement(statement.text)

    def command(self, line: str) -> None:
        name, _, rest = line.partition(" ")
        try:
            if name not in self.commands:
                raise Usage(f"there is no {name}; .help says what there is")
            self.commands[name](rest.strip())
        except (Usage, Error, OSError, UnicodeDecodeError) as why:
            self.trouble(why)

    def tables(self, _: str) -> None:
        for name, columns in self.db.tables.items():
            self.write(f"{name} ({', '.join(it.name + (' TEXT' if it.is_text else ' INTEGER') for it in columns)})\n")

    def constraints(self, _: str) -> None:
        for it in self.db.constraints:
            self.write(f"{it.name} ON {it.table} ({', '.join(it.key)}) FETCH ({', '.join(it.fetched)}) LIMIT {it.limit}\n")

    def price(self, query: str) -> None:
        price = self.db.price(query)
        self.write(f"bound {price.bound}\n" + "".join(f"{line}\n" for line in price.plan))

    def load(self, words: str) -> None:
        file, _, table = words.rpartition(" ")
        if not file:
            raise Usage("wanted: .load FILE TABLE")
        self.write(f"{counted(self.db.load_file(table, file.strip()).rows, 'row')}\n")

    def budget(self, word: str) -> None:
        if word:
            self.db.budget = None if word == "off" else whole_number(word)
        self.write(f"budget {'off' if self.db.budget is None else self.db.budget}\n")

    def explain(self, word: str) -> None:
        if word not in ("", "on", "off"):
            raise Usage("wanted: .explain on, or .explain off")
        if word:
            self.db.explain = word == "on"
        self.write(f"explain {'on' if self.db.explain else 'off'}\n")

    def read(self, file: str) -> None:
        self.script(Path(file).read_bytes().decode())

    def quit(self, _: str) -> None:
        self.is_over = True

    # ---- a prompt

    def completions(self, begun: str, before: str) -> list[str]:
        """What a word that is begun may be: a line for the shell, or a word, table, column or constraint."""
        if before.startswith(".") and " " not in before and self.pending.is_empty:
            return [it for it in self.commands if it.startswith(begun)]
        columns = {column.name for it in self.db.tables.values() for column in it}
        names = sorted({*self.db.tables, *columns, *(it.name for it in self.db.constraints)})
        words = [it if begun.isupper() or not begun else it.lower() for it in WORDS]
        return [it for it in [*names, *words] if it.lower().startswith(begun.lower())]

    def prompt(self) -> str:
        if self.pending.is_in_text:
            return "   '..> "
        return "beas> " if self.pending.is_empty else "   ..> "

    def interact(self) -> None:
        """Reads lines until the input ends. An interrupt gives up what stands at the prompt."""
        self.write("beas; .help says what there is\n")
        while not self.is_over:
            try:
                self.line(input(self.prompt()))
            except EOFError:
                self.write("\n")
                return
            except KeyboardInterrupt:
                self.pending = Pending()
                self.write("\n")
            except Error as why:
                self.trouble(why)


def counted(count: int, what: str) -> str:
    return f"{count} {what}" + ("" if count == 1 else "s")


def whole_number(word: str) -> int:
    if not (word.isascii() and word.isdigit()):
        raise Usage(f"{word} is no number")
    return int(word)


def with_history(shell: Shell) -> Callable[[], None]:
    """Gives a prompt its history and completions, where there is readline, and says how the history is kept at the end."""
    try:
        import readline
    except ImportError:
        return lambda: None

    def complete(begun: str, nth: int) -> str | None:
        found = shell.completions(begun, readline.get_line_buffer()[: readline.get_endidx()])
        return found[nth] if nth < len(found) else None

    def keep() -> None:
        try:
            readline.write_history_file(path)
        except OSError:
            pass

    path = os.path.expanduser(os.environ.get("BEAS_HISTORY", HISTORY))
    try:
        readline.read_history_file(path)
    except OSError:
        pass
    readline.set_completer_delims(" \t\n,;()=<>'@")
    readline.set_completer(complete)
    readline.parse_and_bind("tab: complete")
    return keep


# ---- the words of the command line


def words_of(words: list[str]) -> argparse.Namespace:
    given = argparse.ArgumentParser(prog="python -m beas", description="Statements from a prompt, a script or a pipe.")
    given.add_argument("file", nargs="?", help="a script")
    given.add_argument("-c", dest="script", help="a script as a word")
    given.add_argument("--budget", type=int, help="the greatest bound that a query may have")
    given.add_argument("--explain", action="store_true", help="write the plan of each answer")
    given.add_argument("--tables", action="store_true", help="write a script's answers as tables")
    parsed = given.parse_args(words)
    if parsed.file and parsed.script is not None:
        given.error("FILE, or -c, but not both")
    if parsed.budget is not None and not 0 <= parsed.budget < 2**64:
        given.error("a budget is between 0 and 18446744073709551615")
    return parsed


def script_of(words: argparse.Namespace) -> str | None:
    """The script; at a terminal there is none."""
    if words.script is not None:
        return str(words.script)
    if words.file:
        return Path(words.file).read_bytes().decode()
    return None if sys.stdin.isatty() else sys.stdin.buffer.read().decode()


def carried_out(words: argparse.Namespace, script: str | None) -> int:
    with Database(budget=words.budget, explain=words.explain, folder=".") as db:
        shell = Shell(db, sys.stdout, words.tables or script is None)
        if script is not None:
            shell.script(script)
            return int(shell.has_refused)
        keep = with_history(shell)
        try:
            shell.interact()
        finally:
            keep()
    return 0


def main(given: list[str] | None = None) -> int:
    """Carries out what the words of the command line ask for, and gives the status."""
    words = words_of(sys.argv[1:] if given is None else given)
    try:
        status = carried_out(words, script_of(words))
        sys.stdout.flush()
        return status
    except MemoryError:
        return failed("memory ran out", 5)
    except Error as why:
        return failed(str(why), 6)
    except UnicodeDecodeError:
        return failed("the script is not UTF-8", 7)
    except KeyboardInterrupt:
        return 130
    except BrokenPipeError:
        # What is left in the buffer can't be written, and Python would try once more at its end.
        os.dup2(os.open(os.devnull, os.O_WRONLY), sys.stdout.fileno())
        return 4
    except OSError as why:
        return failed(str(why), 3)


def failed(why: str, status: int) -> int:
    print(f"beas: {why}", file=sys.stderr)
    return status
