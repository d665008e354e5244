#!/usr/bin/env python3
"""Measures the solver of crates/cdcl_core beside minisat's library (Debian's package minisat, and g++) on the same clauses: 200 formulas
of 150 variables, of 639 drawn clauses each those of three variables, and seven pigeons in six holes. A row has how many formulas have
a model, conflicts, and milliseconds of the quickest of five runs in turn. No log is kept. The crates are proved and built first."""
from __future__ import annotations

from beside_minisat import quickest, read_words
from measuring import Table

CRATES = ["plan_core", "outside_io", "cnf_core", "refute_log", "watch_arena", "pick_heap", "cdcl_learn", "cdcl_core"]
HEAD = ["clauses", "program", "with a model", "conflicts", "ms"]


def main() -> None:
    words = read_words(__doc__, "solver")
    found = quickest("solver", CRATES, ["plan_core", "cnf_core", "refute_log", "cdcl_core"], "`cdcl_core`")
    table = Table("solver", HEAD)
    for name, (models, conflicts, took, _, _) in found.items():
        table.add("200 formulas", name, models, f"{conflicts:,}", f"{took:,}")
    for name, (_, _, _, conflicts, took) in found.items():
        table.add("seven pigeons", name, 0, f"{conflicts:,}", f"{took:,}")
    table.end(words.write)


if __name__ == "__main__":
    main()
