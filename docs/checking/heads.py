"""How long the heads of functions are beside their bodies, and which clauses stand again and again.

A head is the signature of a function with its clauses, without the remark before it. Its body are the lines between its
brackets, with the last; a function of a trait may have none. A clause stands again where another has its kind and its text,
with any run of blanks as one: its label isn't compared, names are. Modules of tests are left out.

python3 docs/checking/heads.py [--clauses N] [CRATE ..]   prints the counts, of these crates or of all, and with N the clauses
                                                          that stand most often
"""
import argparse
import re
import sys
from collections import Counter, namedtuple
from pathlib import Path

sys.dont_write_bytecode = True
sys.path.insert(0, str(Path(__file__).resolve().parent.parent))
from checking.crates import clause_at, crates, read, sources

# from how many places on a clause is counted as one that stands again and again
OFTEN = 3
BEGUN = re.compile(r"( *)(?:(?:pub(?:\(crate\))?|final|const|unsafe) )*fn \w+")
# how many lines a head and a body have; the clauses, each as its kind and text with its lines
Function = namedtuple("Function", "head body clauses")


def function_at(lines, start):
    """The function that begins at a line, and the line after its last one."""
    indent, at, clauses = BEGUN.match(lines[start]).group(1), start, []
    while True:
        clause = clause_at(lines, at)
        if clause:
            held = clause.text.count("\n")
            said = " ".join(clause.text.split()).rstrip(";")
            clauses.append((said.split()[0] + " " + said[said.index("{"):], held))
            at += held
            if lines[at - 1].endswith(";"):
                return Function(at - start, 0, clauses), at
        elif lines[at] == indent + "{}":
            return Function(at - start, 1, clauses), at + 1
        elif lines[at].endswith(("{", ";", "{}")):
            break
        else:
            at += 1
    head = at - start if lines[at] == indent + "{" else at + 1 - start
    if lines[at].endswith((";", "{}")):
        return Function(head, 0, clauses), at + 1
    end = lines.index(indent + "}", at)
    return Function(head, end - at, clauses), end + 1


def functions_of(text):
    """The functions of a file, without those of its modules of tests."""
    lines, found, at = re.sub(r"^#\[cfg\(test\)\]\nmod \w+ \{\n.*?^\}\n", "", text, flags=re.M | re.S).splitlines(), [], 0
    while at < len(lines):
        if BEGUN.match(lines[at]):
            function, at = function_at(lines, at)
            found.append(function)
        else:
            at += 1
    return found


def count(chosen):
    """The functions of these crates, and how often each clause stands in them and on how many lines."""
    functions = [function for crate in chosen for path in sources(crate) for function in functions_of(read(path))]
    often, held = Counter(), Counter()
    for function in functions:
        for said, lines in function.clauses:
            often[said] += 1
            held[said] += lines
    return functions, often, held


def main():
    parser = argparse.ArgumentParser(description=__doc__, formatter_class=argparse.RawDescriptionHelpFormatter)
    parser.add_argument("--clauses", type=int, default=0, help="how many of the clauses that stand most often are printed")
    parser.add_argument("crates", nargs="*")
    asked = parser.parse_args()
    sys.stdout.reconfigure(encoding="utf-8")
    functions, often, held = count(asked.crates or crates())
    again = [said for said in often if often[said] >= OFTEN]
    print(f"functions: {len(functions)}")
    print(f"lines of heads: {sum(function.head for function in functions)}")
    print(f"lines of bodies: {sum(function.body for function in functions)}")
    print(f"clauses: {sum(often.values())}, on {sum(held.values())} lines")
    print(f"clauses that stand {OFTEN} times or more: {sum(often[said] for said in again)}, "
          f"on {sum(held[said] for said in again)} lines, {len(again)} texts")
    for said in sorted(again, key=lambda said: -often[said])[:asked.clauses]:
        print(f"{often[said]:5} {said}")


if __name__ == "__main__":
    main()
