"""The rooms of crates.txt: a remark `# ROOM: what it has` stands before the crates of each room.

Looked for are a crate in no room, a crate that stands on one of a later room or of its own room further down, a judge that
stands on the solver or the search, and more crates or paths than there are to be. A path is a way from the program down to one
of the crates below it: the toolchain sums up each of them before it checks a crate at the top."""
import re
from functools import cache

from checking.crates import TOP, read, stands_on

ROOMS = ["ground", "reading", "station", "drawing", "texts", "log", "formula", "solver", "judges", "search", "commands", "tests"]
# of the judges it alone finds hints, and so propagates as the solver does
FINDER, SHARED = "log_trim", "watch_arena"
MOST_CRATES, MOST_PATHS = 48, 4000


@cache
def rooms():
    """Each room's name with what it has and its crates, in the order of crates.txt."""
    found = []
    for line in read(TOP / "crates.txt").splitlines():
        remark = re.match(r"# (\w+): (.*)", line)
        if remark:
            found.append((remark.group(1), remark.group(2), []))
        elif found and ":" in line:
            found[-1][2].append(line.partition(":")[0].strip())
    return found


def under(crate, below):
    """All crates that a crate stands on."""
    direct = [other for other in below[crate] if other in below]
    return set(direct).union(*(under(other, below) for other in direct))


def paths(crate, below):
    """How many paths go down from a crate."""
    counted = {}

    def count(name):
        if name not in counted:
            counted[name] = sum(1 + count(other) for other in below[name] if other in below)
        return counted[name]
    return count(crate)


def misplaced():
    """Crates in no room, rooms that aren't those of the map, and edges that go up."""
    below, order = stands_on(), [crate for _, _, crates in rooms() for crate in crates]
    found = [] if [name for name, _, _ in rooms()] == ROOMS else ["crates.txt: its rooms aren't " + ", ".join(ROOMS)]
    folders = {path.name for path in (TOP / "crates").iterdir() if (path / "src").is_dir()}
    found += [f"crates.txt: {crate} is in no room" for crate in sorted((set(below) | folders) - set(order))]
    return found + [f"crates.txt: {crate} stands on {other}, which comes after it" for crate in order
                    for other in below[crate] if other in order and order.index(other) > order.index(crate)]


def judges_that_search():
    """Judges that stand on the solver or the search, in whose place they would judge."""
    of = {name: crates for name, _, crates in rooms()}
    below, found = stands_on(), []
    for crate in of["judges"]:
        near = under(crate, below) & {*of["solver"], *of["search"]}
        found += [f"crates.txt: the judge {crate} stands on {other}" for other in sorted(near)
                  if (crate, other) != (FINDER, SHARED)]
    return found


def too_many():
    below = stands_on()
    used, ways = {"railplan_main"} | under("railplan_main", below), paths("railplan_main", below)
    found = [f"crates.txt: the program has {len(used)} crates, above {MOST_CRATES}"] if len(used) > MOST_CRATES else []
    return found + ([f"crates.txt: {ways} paths go down from the program, above {MOST_PATHS}"] if ways > MOST_PATHS else [])


def table():
    """The table of the rooms, for the map."""
    rows = ["| room | what it has | its crates, each on those before it |", "|---|---|---|"]
    return rows + [f"| {name} | {has} | {', '.join(crates)} |" for name, has, crates in rooms()]


def all_failures():
    """An edge that goes up may close a ring, in which nothing else can be counted."""
    return misplaced() or judges_that_search() + too_many()
