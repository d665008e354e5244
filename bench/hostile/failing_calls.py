#!/usr/bin/env python3
"""Lets one call of the system fail in a run, or each from one on, and holds how the run ends.

Each case is a command on a station by chance. It is run once with all calls listed, and then once for each of its calls. A
read or an opening that fails is told as `read failed I`; a write, a file that can't be created, and a file that can't be synced
end with 6, and what was written begins what was due. A close that fails changes nothing: what was written is synced by then.
Short reads and writes, and reads and writes that are interrupted, change nothing. An input that ends early is answered in the command's form. Where a file
may not grow beyond a limit, the run ends with 6."""
from __future__ import annotations

import errno
import sys

sys.dont_write_bytecode = True

import preload  # noqa: E402
from forms import why_otherwise  # noqa: E402
from trying import Answer, Case, main  # noqa: E402

ERRORS = {
    "open": (errno.EACCES, errno.EMFILE, errno.ENOSPC, errno.EIO),
    "read": (errno.EIO, errno.EISDIR, errno.EAGAIN, errno.EBADF),
    "write": (errno.EIO, errno.ENOSPC, errno.EDQUOT, errno.EPIPE, errno.EFBIG),
    "close": (errno.EIO, errno.ENOSPC, errno.EDQUOT),
    "fsync": (errno.EIO, errno.ENOSPC),
}


def ways_of(case: Case, call: str) -> dict[str, str]:
    """how a call of this name is to fail"""
    others = {"read": ["short", "none", str(errno.EINTR)], "write": ["short", "none", str(errno.EINTR)]}.get(call, [])
    how = case.chance.choice([*map(str, case.chance.sample(ERRORS[call], 2)), *others])
    # a call that is interrupted for ever may be tried again for ever
    goes_on = case.chance.random() < 0.3 and how != str(errno.EINTR) and not (call == "read" and how == "none")
    return {"how": how, **({"on": "1"} if goes_on else {})}


def path_of(base: preload.Base, at: int) -> tuple[str, bool]:
    """the file of the call at this place, and whether it is written; nothing for the output"""
    call = base.calls[at]
    if call[0] == "open":
        return call[2], call[1] != "0"
    for before in reversed(base.calls[:at]):
        if before[0] == "open" and call[1] not in ("0", "1", "2"):
            return before[2], before[1] != "0"
    return "", True


def input_number(base: preload.Base, at: int) -> int:
    """which input, counted from 1, the call at this place is of"""
    return sum(call[0] == "open" and call[1] == "0" for call in base.calls[:at + 1])


def judge(case: Case, base: preload.Base, at: int, how: dict[str, str], answer: Answer) -> None:
    call, (_, is_written) = base.calls[at][0], path_of(base, at)
    said = preload.told(base.words, how, answer)
    same = preload.is_same(case, base, answer)
    if how["how"] == "short":
        case.hold_that(same, f"a short {call} changes the run: {said}")
    elif how["how"] == "none" and call == "read":
        why = why_otherwise(base.words[0], answer)
        case.hold_that(not why, f"an input that ends early: {why}: {said}")
    elif how["how"] == "none":
        case.hold_that(same or answer.status == 6 and preload.are_fronts(case, base, answer), f"nothing is written: {said}")
    elif how["how"] == str(errno.EINTR):
        case.hold_that(same, f"a {call} that is interrupted isn't tried again: {said}")
    elif call == "close":
        case.hold_that(same, f"a close that fails changes the run: {said}")
    elif call == "fsync":
        ends = answer.status == 6 and preload.are_fronts(case, base, answer)
        case.hold_that(ends, f"a file that can't be synced isn't told: {said}")
    elif is_written:
        case.hold_that(answer.status == 6 and preload.are_fronts(case, base, answer), f"a failed {call}: {said}")
    else:
        wanted = b"read failed %d\n" % input_number(base, at)
        case.hold_that((answer.status, answer.printed) == (5, wanted) and not preload.files_of(case), f"a failed {call}: {said}")


def limit_files(case: Case, base: preload.Base) -> None:
    """lets no file grow beyond so many blocks"""
    for blocks in ("0", "1", "8"):
        preload.clear(case)
        answer = case.start(["/bin/sh", "-c", f'ulimit -f {blocks}; exec "$@"', "sh", case.program, *base.words])
        if preload.is_same(case, base, answer):
            continue
        case.count(f"the size of files limited, and the run ended with {answer.status}")
        case.hold_that(answer.status == 6 and preload.are_fronts(case, base, answer),
                       preload.told(base.words, {"blocks": blocks}, answer), "size of files")


def attempt(case: Case) -> None:
    preload.prepare(case)
    base = preload.base_of(case, preload.RUNS[case.number % len(preload.RUNS)])
    numbers: dict[str, int] = {}
    for at, (call, *_) in enumerate(base.calls):
        numbers[call] = numbers.get(call, 0) + 1
        how = ways_of(case, call)
        answer = preload.run(case, base.words, call=call, at=str(numbers[call]), **how)
        case.count(f"{call} failed, and the run ended with {answer.status}")
        if answer.status < 0 or answer.said:
            case.wrong(f"{preload.told(base.words, how, answer)} {answer.said[:100]!r}")
        else:
            judge(case, base, at, {"call": call, "at": str(numbers[call]), **how}, answer)
    limit_files(case, base)


if __name__ == "__main__":
    sys.exit(main(__doc__ or "", attempt, 2 * len(preload.RUNS), lambda words: preload.library()))
