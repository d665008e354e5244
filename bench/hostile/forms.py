"""What each command may answer, by its form alone: its statuses, and the text of each."""
from __future__ import annotations

import re

from trying import Answer

FAULT = rb"(?:old )?(?:text|topology|graph|order|signal) [0-9]+ [A-Za-z0-9]+(?: [^\n]*)?\n"
INPUT = FAULT + rb"|long [123]\n"
SHEET = rb"sheet [1-5] [A-Z][a-z]+ line [0-9]+\n"
END = rb"(?:best|none|(?:conflicts|room) [0-3])\n"
BROKEN = rb"broken law [1-7](?: (?:node|edge) [0-9]+){1,2}\n"
ANY = rb"(?:[^\n]*\n)*?"
REFUSED = rb"check (?:Differs|NewVar|WrongQuery|NotImplied|NotNew|BadHint) line [0-9]+\n|check Lacks place [0-4]\n"
CERTIFIED = rb"certified [0-4]\n"
# where a file couldn't be read; nothing or a prefix behind a failed write, and where there was no memory
ALWAYS = {5: rb"read failed [123]\n", 6: rb"(?s).*", 7: rb"(?s).*", 10: rb""}
DRAWN = rb"railplan 2\n" + ANY + rb"end "
CHECKED = {1: INPUT + b"|" + SHEET + rb"|(?:log|hints) [1-5] [A-Z][a-z]+ line [0-9]+\n", 4: rb"check Room line [0-9]+\n",
           8: BROKEN + b"|" + REFUSED}

# for each command its statuses, and a pattern for the whole of what is then printed
FORMS: dict[str, dict[int, bytes]] = {
    "graph": {0: rb"railgraph 1\n" + ANY, 1: INPUT},
    "draw": {0: DRAWN + rb"best\n", 1: INPUT, 3: DRAWN + rb"none\n", 4: DRAWN + rb"(?:conflicts|room) [0-3]\n"},
    "signals": {0: DRAWN + rb"best\nsignals [0-9]+\n" + ANY, 1: INPUT, 3: DRAWN + rb"none\n",
                4: DRAWN + rb"(?:conflicts|room) [0-3]\n(?:signals [0-9]+\n" + ANY + rb")?"},
    "front": {0: rb"railplan-front 1\n" + ANY + rb"end whole\n", 1: INPUT, 3: rb"railplan-front 1\n" + ANY + rb"end none\n",
              4: rb"railplan-front 1\n" + ANY + rb"end (?:conflicts|room)\n"},
    "explain": {0: rb"railplan-why 1\n" + ANY + rb"end why\n|drawing exists\n", 1: INPUT, 4: rb"why (?:conflicts|room)\n"},
    "redraw": {0: rb"railplan-moved 1\n" + ANY + rb"end best\n", 1: INPUT + b"|" + SHEET,
               3: rb"railplan-moved 1\n" + ANY + rb"end none\n", 4: rb"railplan-moved 1\n" + ANY + rb"end (?:conflicts|room)\n"},
    "verify": {0: rb"lawful(?: [0-9]+){4}\n", 1: INPUT + b"|" + SHEET, 8: BROKEN},
    "check": {0: CERTIFIED, **CHECKED},
    "recheck": {0: CERTIFIED, **CHECKED},
    "trim": {0: rb"trimmed [0-9]+ [0-9]+\n", **CHECKED, 4: rb"(?:check Room line [0-9]+|trim Room)\n"},
    "make": {0: rb"(?s).*"},
    "trial": {0: rb"trial [0-9]+ nodes [0-9]+ edges [0-9]+ height [0-9]+ width [0-9]+\n", 3: rb"trial [0-9]+ none\n",
              4: rb"trial [0-9]+ (?:conflicts|room)\n"},
}


def why_otherwise(command: str, answer: Answer) -> str:
    """what isn't of the form that the command's answers have; nothing where all is"""
    forms = {**ALWAYS, **FORMS[command], 2: rb"words [1-7] [A-Za-z]+ [0-9]+\n"}
    if answer.said:
        return f"{command} says on standard error {answer.said[:200]!r}"
    if answer.status not in forms:
        return f"{command} ends with {answer.status}: {answer.printed[:200]!r}"
    if not re.fullmatch(forms[answer.status], answer.printed):
        return f"{command} ends with {answer.status} and prints {answer.printed[:200]!r}"
    return ""
