#!/usr/bin/env python3
"""Measures unit propagation alone: forty rounds of decisions over 200,000 made clauses of three literals and 60,000 variables, half of
them links of chains, by crates/watch_arena and by minisat's own propagation on the same clauses and decisions (Debian's
package minisat, and g++). A row has literals that became true, false clauses, and literals a second in the quickest of five runs in
turn. The crates are proved and built first."""
from __future__ import annotations

from beside_minisat import quickest, read_words
from measuring import Table

USES = ["plan_core", "cnf_core", "watch_arena"]
HEAD = ["program", "literals that became true", "clauses found false", "literals a second"]


def main() -> None:
    words = read_words(__doc__, "propagation")
    found = quickest("propagation", USES, USES, "`watch_arena`")
    table = Table("propagation", HEAD)
    for name, (count, clashes, took) in found.items():
        table.add(name, f"{count:,}", clashes, f"{count / 1000 / max(took, 1):.2f} million")
    table.end(words.write)


if __name__ == "__main__":
    main()
