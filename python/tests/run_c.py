"""Runs a program in C over the stand-in.

    run_c.py HEADER PROGRAM

A library in C has each call of the header, which calls the stand-in's. The program is linked with it, and its main is called from here."""
import ctypes
import re
import subprocess
import sys
import tempfile
from pathlib import Path

from support import STAND_IN

from beas._library import ABI, LONG_CALLS, SHORT_CALLS

PROTOTYPE = re.compile(r"^(\w+) beas_(\w+)\(([^)]*)\);", re.M)


def bridge_of(header: str) -> str:
    """The library's source: for each call a place for a function's address, and the call through it."""
    lines = ['#include "beas.h"']
    for back, name, given in PROTOTYPE.findall(re.sub(r"/\*.*?\*/", "", header, flags=re.S)):
        words = ", ".join(re.findall(r"(\w+)(?:,|$)", given)) if given != "void" else ""
        lines.append(f"{back} (*at_{name})({given});\n{back} beas_{name}({given}) {{ return at_{name}({words}); }}")
    return "\n".join(lines) + "\n"


def compile(header: Path, *words: str) -> None:
    subprocess.run(["cc", "-shared", "-fPIC", f"-I{header.parent}", *words], check=True)


def main(header: Path, program: Path, folder: Path) -> int:
    (folder / "bridge.c").write_text(bridge_of(header.read_text(encoding="utf-8")), encoding="utf-8")
    compile(header, "-o", f"{folder}/libbridge.so", f"{folder}/bridge.c")
    compile(header, "-Dmain=its_main", "-o", f"{folder}/program.so", str(program), f"{folder}/libbridge.so", f"-Wl,-rpath,{folder}")
    bridge = ctypes.CDLL(f"{folder}/libbridge.so")
    library = STAND_IN.library()
    abi = ctypes.CFUNCTYPE(ctypes.c_uint32)(lambda: ABI)
    for name, call in [("abi", abi), *((it, getattr(library, it)) for it in (*SHORT_CALLS, *LONG_CALLS))]:
        ctypes.c_void_p.in_dll(bridge, f"at_{name}").value = ctypes.cast(call, ctypes.c_void_p).value
    status = int(ctypes.CDLL(f"{folder}/program.so").its_main())
    ctypes.CDLL(None).fflush(None)
    return status


if __name__ == "__main__":
    with tempfile.TemporaryDirectory() as room:
        sys.exit(main(Path(sys.argv[1]), Path(sys.argv[2]), Path(room)))
