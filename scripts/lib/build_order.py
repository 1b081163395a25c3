"""The crates that a program is built from, a copy of them, what their proofs take, and the kit that they are proved with."""
import os
import re
import shutil

KIT = re.compile(r"rattle-kit-\S+ logic [0-9a-f]+")
SECONDS_OF_A_CRATE = 60
# of each crate those that it stands on
Order = dict[str, list[str]]


def kit_of(top: str) -> str | None:
    """The line of the kit that the crates are proved with, by the README, or None."""
    try:
        with open(f"{top}/README.md", encoding="utf-8") as file:
            found = KIT.search(file.read())
    except OSError:
        return None
    return found[0] if found else None


def name_in(line: str) -> str:
    """The crate that a line of crates.txt is about, or nothing."""
    words = line.split("#")[0].partition(":")[0].split()
    return words[0] if words else ""


def lines_of_crates(top: str) -> dict[str, str]:
    """The line of each crate in crates.txt."""
    with open(f"{top}/crates.txt", encoding="utf-8") as file:
        return {name_in(line): line.split("#")[0].strip() for line in file if name_in(line)}


def crates_of(top: str) -> Order:
    """Each crate of crates.txt with those of the repository that it stands on."""
    lines = lines_of_crates(top)
    return {it: [low for low in line.partition(":")[2].split() if low in lines] for it, line in lines.items()}


def crates_below(top: str, name: str) -> Order:
    """The crates that this one is built from, itself last, each after those that it stands on."""
    stands_on = crates_of(top)
    order: Order = {}

    def add(crate: str) -> None:
        if crate not in order:
            for it in stands_on[crate]:
                add(it)
            order[crate] = stands_on[crate]

    add(name)
    return order


def crates_and_below(order: Order, names: set[str]) -> set[str]:
    """These crates and all that they stand on."""
    found, new = set(names), set(names)
    while new:
        new = {low for it in new for low in order[it]} - found
        found |= new
    return found


def crates_above(order: Order, names: set[str]) -> set[str]:
    """The crates that stand on one of these, without these."""
    return {it for it in order if names & crates_and_below(order, {it})} - names


def copy_of_crates(top: str, order: Order, to: str) -> None:
    """Makes a repository of these crates alone in a folder, without wrong bodies and without what checks left."""
    # rt looks for the top of a repository by this
    os.mkdir(f"{to}/.git")
    lines = lines_of_crates(top)
    with open(f"{to}/crates.txt", "w", encoding="utf-8") as file:
        file.writelines(f"{lines[it]}\n" for it in order)
    if os.path.exists(f"{top}/HANDLES"):
        shutil.copyfile(f"{top}/HANDLES", f"{to}/HANDLES")
    for crate in order:
        for part in os.listdir(f"{top}/crates/{crate}"):
            one, other = f"{top}/crates/{crate}/{part}", f"{to}/crates/{crate}/{part}"
            if os.path.isdir(one) and part not in ("out", "must-fail"):
                shutil.copytree(one, other, symlinks=True)
            elif os.path.isfile(one):
                os.makedirs(os.path.dirname(other), exist_ok=True)
                shutil.copyfile(one, other)


def seconds_of_crates(top: str) -> dict[str, int]:
    """The processor seconds of each crate's proof, by the table of the gate's cost."""
    try:
        with open(f"{top}/docs/gate-cost.md", encoding="utf-8") as file:
            rows = [re.match(r"\|\s*(\w+)\s*\|\s*(\d+)\*?\s*\|", line) for line in file]
    except OSError:
        rows = []
    return {row[1]: int(row[2]) for row in rows if row}


def minutes_needed(order: Order, seconds: dict[str, int], processors: int) -> int:
    """The longest chain of proofs, or all of them shared out over the processors, whichever is longer. Each crate stands after those below it."""
    cost = {it: seconds.get(it, SECONDS_OF_A_CRATE) for it in order}
    chain: dict[str, int] = {}
    for it in order:
        chain[it] = cost[it] + max([chain[low] for low in order[it]], default=0)
    return max(1, round(max(max(chain.values()), sum(cost.values()) / processors) / 60))
