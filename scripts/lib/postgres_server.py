"""PostgreSQL servers of our own, in temporary folders, each on a socket that only this user reaches. They are ended always."""
import importlib
import importlib.util
import os
import shutil
import subprocess
import sys
import tempfile
import time
from pathlib import Path
from types import TracebackType
from typing import Any

OTHER_PYTHON = "/usr/bin/python3"
USER, DATABASE = "beas", "postgres"
SECONDS = 120


def tools() -> Path | None:
    """The folder of the server's programs, or None where it isn't installed."""
    said = subprocess.run(["pg_config", "--bindir"], stdout=subprocess.PIPE, text=True).stdout.strip() if shutil.which("pg_config") else ""
    there = sorted(Path("/usr/lib/postgresql").glob("*/bin"), key=lambda it: int(it.parent.name) if it.parent.name.isdigit() else 0)
    places = [*([Path(said)] if said else []), *reversed(there)]
    return next((it for it in places if (it / "initdb").exists()), None)


def other_user() -> list[str]:
    """The words that run a program as another user than root, as which the server doesn't start."""
    return ["setpriv", "--reuid", "postgres", "--regid", "postgres", "--init-groups"] if os.getuid() == 0 else []


def what_lacks() -> str | None:
    """What isn't there that the tests over a server need, or None."""
    if tools() is None:
        return "there is no PostgreSQL server"
    if os.getuid() == 0 and subprocess.run(["id", "postgres"], capture_output=True).returncode != 0:
        return "there is no user postgres, as whom root could run the server"
    if not shutil.which("setpriv"):
        return "there is no setpriv, which ends a server with its script"
    if not drivers():
        return "this Python has no psycopg"
    return None


def drivers() -> list[str]:
    """The drivers that this Python has."""
    return [name for name in ("psycopg2", "psycopg") if importlib.util.find_spec(name)]


def start_with_psycopg() -> None:
    """Starts this script once more under the system's Python, if that has psycopg and this one hasn't."""
    if drivers() or os.path.realpath(sys.executable) == os.path.realpath(OTHER_PYTHON):
        return
    if os.path.exists(OTHER_PYTHON) and subprocess.run([OTHER_PYTHON, "-c", "import psycopg2"], capture_output=True).returncode == 0:
        os.execv(OTHER_PYTHON, [OTHER_PYTHON, *sys.argv])


def connect(folder: str, database: str = DATABASE) -> Any:
    """A connection to the server whose socket is in a folder, of the driver that BEAS_DRIVER names, or of the first that there is."""
    driver: Any = importlib.import_module(os.environ.get("BEAS_DRIVER") or drivers()[0])
    return driver.connect(host=folder, user=USER, dbname=database)


def versions(connection: Any) -> str:
    """The versions of the server and of the driver, in words."""
    number, driver = connection.info.server_version, type(connection).__module__.split(".")[0]
    return f"PostgreSQL {number // 10000}.{number % 10000} and {driver} {sys.modules[driver].__version__.split()[0]}"


class Server:
    """A server that is started at once. Nothing of it is written through to the disk, so that tests are quick. Its files go with it,
    unless they are `kept` in a folder: then this is made if it isn't there, and the next server goes on with it."""

    def __init__(self, name: str = "server", kept: Path | None = None, **settings: str) -> None:
        bin_of = tools()
        assert bin_of is not None
        self.bin, self.user = bin_of, other_user()
        self.process: subprocess.Popen[bytes] | None = None
        self.folder, self.kept = tempfile.mkdtemp(prefix=f"beas-{name}-"), kept
        given = {"shared_buffers": "64MB", "jit": "off", "max_connections": "20", **settings}
        own = {"listen_addresses": "", "unix_socket_directories": self.folder, "fsync": "off"}
        self.settings = [f"--{name}={value}" for name, value in {**own, **given}.items()]
        try:
            if self.user:
                shutil.chown(self.folder, "postgres")
            if not Path(self.data).exists():
                self.make()
            self.start()
        except BaseException:
            self.end()
            raise

    def make(self) -> None:
        if self.kept:
            self.kept.mkdir(parents=True, exist_ok=True)
            if self.user:
                shutil.chown(self.kept, "postgres")
        self.do("initdb", "-D", self.data, "-A", "trust", "-U", USER, "-E", "UTF8", "--locale=C", "--no-sync")

    @property
    def data(self) -> str:
        return f"{self.kept or self.folder}/data"

    @property
    def log(self) -> Path:
        return Path(self.folder, "log")

    def do(self, program: str, *words: str) -> None:
        subprocess.run([*self.user, f"{self.bin}/{program}", *words], check=True, stdout=subprocess.DEVNULL, cwd="/", timeout=SECONDS)

    def start(self) -> None:
        """Starts it as a child that ends with this script, also if that is killed."""
        words = [*(self.user or ["setpriv"]), "--pdeathsig", "INT", f"{self.bin}/postgres", "-D", self.data, *self.settings]
        with open(self.log, "ab") as log:
            self.process = subprocess.Popen(words, stdout=log, stderr=log, stdin=subprocess.DEVNULL, cwd="/", start_new_session=True)
        late = time.monotonic() + SECONDS
        while not self.is_ready():
            if self.process.poll() is not None or time.monotonic() > late:
                raise OSError(f"the server doesn't start: {self.log.read_text(errors='replace')[-1000:]}")
            time.sleep(0.05)

    def is_ready(self) -> bool:
        return subprocess.run([f"{self.bin}/pg_isready", "-q", "-h", self.folder], capture_output=True).returncode == 0

    def stop(self, how: str = "immediate") -> None:
        words = [*self.user, f"{self.bin}/pg_ctl", "-D", self.data, "-m", how, "-w", "stop"]
        subprocess.run(words, capture_output=True, cwd="/", timeout=SECONDS)
        if self.process is not None:
            self.process.wait(SECONDS)

    def connect(self, database: str = DATABASE) -> Any:
        return connect(self.folder, database)

    def end(self) -> None:
        """Files that are kept are made whole first."""
        if self.process is not None and self.process.poll() is None:
            self.stop("fast" if self.kept else "immediate")
        shutil.rmtree(self.folder, ignore_errors=True)

    def __enter__(self) -> "Server":
        return self

    def __exit__(self, kind: type[BaseException] | None, why: BaseException | None, where: TracebackType | None) -> None:
        self.end()
