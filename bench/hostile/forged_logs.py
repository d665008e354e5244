#!/usr/bin/env python3
"""Forges the logs of small stations, and holds the other ways of judging them to `check`.

In a Learnt, Query, Refuted or Bound line of a log a literal is dropped, added or exchanged. The lines are accepted where
`check` answers `certified` or `Lacks`. Just then `log_to_drat.py` makes a pair of each Refuted line, and `check_drat.py`
accepts each pair. Where `check` certifies what the sheet claims, `trim` writes hints, and just then `check_lrat.py` accepts
each of their Refuted lines. The same is done to lines of these hints, and `check_lrat.py` accepts the Refuted lines just where
`recheck` accepts all lines. Where `cadical` or `drat-trim` is on the PATH, it judges the pairs too: each formula of a pair that
is accepted has no model, and `drat-trim` verifies its proof.

Each case forges four logs and four hints."""
from __future__ import annotations

import shutil
import sys

sys.dont_write_bytecode = True

from small import drawn  # noqa: E402
from trying import TOP, Case, main  # noqa: E402

sys.path.insert(0, str(TOP / "bench"))

import check_drat  # noqa: E402
import check_lrat  # noqa: E402
import hints_to_lrat  # noqa: E402
import log_to_drat  # noqa: E402

FORGED = 4
SECONDS = 300.0


def forged_clause(case: Case, literals: list[str], others: list[str]) -> list[str]:
    """literals with one of them dropped, another one added, or one exchanged"""
    kind, literals = case.chance.choice(["drop", "add", "exchange"]), list(literals)
    at = case.chance.randrange(len(literals) + 1)
    if kind == "add" or not literals:
        literals.insert(at, case.chance.choice(others))
        return literals
    at = min(at, len(literals) - 1)
    literals[at:at + 1] = [] if kind == "drop" else [case.chance.choice(others)]
    return literals


def others_of(case: Case, lines: list[str]) -> list[str]:
    """literals that may come into a line: of the Learnt, Query and Refuted lines, negated too, and of any clause"""
    found = [field for line in lines if line[:2] in ("l ", "q ", "r ", "b ") for field in line.split(" ")[1:]]
    found += [field for line in case.chance.sample(lines, min(20, len(lines))) for field in line.split(" ")[1:-1]]
    found = [field for field in found if field.lstrip("-").isdigit() and field != "0"]
    return found + [field.removeprefix("-") if field.startswith("-") else "-" + field for field in found]


def forged(case: Case, lines: list[str], words: str) -> list[str]:
    """the lines with a change in one that begins with one of these words, none behind the last Refuted line"""
    last = max(at for at, line in enumerate(lines) if line[:2] == "r ")
    word = case.chance.choice(words)
    places = [at for at, line in enumerate(lines[:last + 1]) if line[:2] == f"{word} "]
    if not places:
        return forged(case, lines, words)
    at = case.chance.choice(places)
    word, *fields = lines[at].split(" ")
    others = others_of(case, lines)
    if word == "b":
        fields = forged_clause(case, fields, others)
    else:
        end = fields.index("0")
        fields[:end] = forged_clause(case, fields[:end], others)
    case.count(f"forged lines that begin with {word}")
    return [*lines[:at], " ".join([word, *fields]), *lines[at + 1:]]


def asks_others(case: Case) -> None:
    """holds that cadical and drat-trim, where they are there, agree with a pair that is accepted"""
    formula, proof = (str(case.path(name)) for name in ("formula", "proof"))
    cadical, drat_trim = shutil.which("cadical"), shutil.which("drat-trim")
    if cadical:
        answer = case.start([cadical, "-q", "-n", formula], SECONDS)
        case.count(f"cadical ends with {answer.status} on the formula of an accepted pair")
        case.hold_that(answer.status == 20, "cadical finds a model of a formula whose proof is accepted")
    if drat_trim:
        answer = case.start([drat_trim, formula, proof], SECONDS)
        case.count(f"drat-trim ends with {answer.status} on an accepted pair")
        case.hold_that(b"s VERIFIED" in answer.printed, "drat-trim refuses a pair that is accepted")


def is_accepted_as_drat(case: Case) -> bool:
    """whether each Refuted line of the log is accepted by its pair"""
    log, formula, proof = (case.path(name) for name in ("log", "formula", "proof"))
    try:
        log_to_drat.compare(log, case.path("written"))
        for one in list(log_to_drat.refuted_lines(log)):
            further = log_to_drat.write_formula(log, one.line, formula)
            log_to_drat.write_proof(log, one.line, further, proof)
            check_drat.judge(formula, proof, one.learnt)
            asks_others(case)
    except (log_to_drat.Refused, check_drat.Refused):
        return False
    return True


def is_accepted_as_lrat(case: Case, hints: str) -> bool:
    """whether each Refuted line of the hints is accepted by its pair, over the clauses of the log that was written"""
    path, formula, proof = (case.path(name) for name in (hints, "formula", "proof"))
    try:
        clauses = hints_to_lrat.formula_of(case.path("written"), hints_to_lrat.caps_of(path))
        lines = list(hints_to_lrat.hints_in(path))
        for line in lines:
            if line.is_refuted:
                hints_to_lrat.write_formula(clauses + [[-literal] for literal in line.literals], formula)
                hints_to_lrat.write_proof(lines, line, len(clauses), proof)
                check_lrat.judge(formula, proof)
    except (hints_to_lrat.Refused, check_lrat.Refused):
        return False
    return True


def judge_log(case: Case) -> None:
    checked = case.run("check", "station", "sheet", "log")
    case.count(f"check: {checked.first_words(2 if checked.status else 1)}")
    are_accepted = checked.printed.startswith((b"certified ", b"check Lacks "))
    if is_accepted_as_drat(case) != are_accepted:
        case.wrong(f"the lines are {'refused' if are_accepted else 'accepted'} by DRAT, and check says {checked.printed!r}")
    case.path("hints").unlink(missing_ok=True)
    case.run("trim", "station", "sheet", "log", "hints")
    is_trimmed = case.path("hints").exists()
    if is_trimmed != (checked.status == 0) or is_trimmed and not is_accepted_as_lrat(case, "hints"):
        case.wrong(f"check says {checked.printed!r}, and the log's hints aren't just then accepted by LRAT")


def judge_hints(case: Case, lines: list[str]) -> None:
    """forges hints, and holds LRAT to what `recheck` says"""
    case.write("forged", ("\n".join(forged(case, lines, "lrr")) + "\n").encode())
    checked = case.run("recheck", "station", "sheet", "forged")
    case.count(f"recheck: {checked.first_words(2 if checked.status else 1)}")
    are_accepted = checked.printed.startswith((b"certified ", b"check Lacks "))
    if is_accepted_as_lrat(case, "forged") != are_accepted:
        case.wrong(f"hints are {'refused' if are_accepted else 'accepted'} by LRAT, and recheck says {checked.printed!r}")


def attempt(case: Case) -> None:
    while True:
        station = drawn(case, 5, ("50000",))
        lines = station.log.decode().splitlines()
        if any(line.startswith("r ") for line in lines):
            break
    case.write("written", station.log)
    judge_log(case)
    hints = case.text_of("hints")
    if hints is None:
        case.wrong("the log that was written isn't trimmed")
        return
    for _ in range(FORGED):
        case.write("log", ("\n".join(forged(case, lines, "llqrrrb")) + "\n").encode())
        judge_log(case)
        hinted = hints.decode().splitlines()
        if any(line.startswith("r ") for line in hinted):
            judge_hints(case, hinted)


if __name__ == "__main__":
    sys.exit(main(__doc__ or "", attempt, 10))
