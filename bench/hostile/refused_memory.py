#!/usr/bin/env python3
"""Refuses memory to a run, and holds how it ends.

Each case is a command on a station by chance. It is run once with the calls for memory counted. Then one of these is refused,
or each from one on; and the room of the process is limited, in steps. Such a run ends with 7, or with 10 where the words
couldn't be had, and what it printed and wrote begins what was due; or it ends as it does otherwise, where it has enough."""
from __future__ import annotations

import sys

sys.dont_write_bytecode = True

import preload  # noqa: E402
from trying import Case, main  # noqa: E402

REFUSED = 20
# kilobytes; below the first one the system's loader has too little itself
LIMITS = [8_000, 12_000, 16_000, 24_000, 32_000, 48_000, 64_000, 128_000, 256_000, 512_000, 1_000_000, 2_000_000]
MEMORY = "12"


def refuse(case: Case, base: preload.Base) -> None:
    """refuses memory once, or from one call on"""
    if not base.memory:
        return
    for _ in range(REFUSED):
        at = case.chance.choice([case.chance.randrange(1, base.memory + 1), case.chance.randrange(1, min(base.memory, 60) + 1)])
        how = {"call": "memory", "at": str(at), "how": MEMORY, **({"on": "1"} if case.chance.random() < 0.5 else {})}
        answer = preload.run(case, base.words, **how)
        case.count(f"memory refused, and the run ended with {answer.status}")
        is_right = answer.status in (7, 10) and preload.are_fronts(case, base, answer) and not answer.said
        if answer.status == 10 and answer.printed or not is_right and not preload.is_same(case, base, answer):
            case.wrong(preload.told(base.words, how, answer))


def limit(case: Case, base: preload.Base) -> None:
    """limits the room of the process"""
    for kilobytes in case.chance.sample(LIMITS, 3):
        preload.clear(case)
        answer = case.start(["/bin/sh", "-c", f'ulimit -v {kilobytes}; exec "$@"', "sh", case.program, *base.words])
        case.count(f"room limited, and the run ended with {answer.status}")
        is_short = answer.status in (7, 10) and preload.are_fronts(case, base, answer)
        if not is_short and not preload.is_same(case, base, answer):
            case.wrong(preload.told(base.words, {"room": f"{kilobytes} KB"}, answer) + f" {answer.said[:100]!r}")


def attempt(case: Case) -> None:
    preload.prepare(case)
    base = preload.base_of(case, preload.RUNS[case.number % len(preload.RUNS)])
    refuse(case, base)
    limit(case, base)


if __name__ == "__main__":
    sys.exit(main(__doc__ or "", attempt, 2 * len(preload.RUNS), lambda words: preload.library()))
