"""Changes by chance: of bytes, railML files, sheets, logs and hints. All follow from the chances that are handed in."""
from __future__ import annotations

import random

from opinion import stations

Chance = random.Random
BYTES = [b"\x00", b"\n", b"\r\n", b"\r", b"\t", b" ", b"  ", b"\x7f", b"\xff", b"\xc3", b"\xc2\x80", b"\xef\xbf\xbe",
         b"\xef\xbf\xbf", b"\xed\xa0\x80", b"\xf4\x90\x80\x80", b"\xf0\x9f\x9a\x82", b"\xe2\x80\xae", b"\xef\xbb\xbf", b"0",
         b"-", b"+", b".", b"<", b">", b"&", b'"', b"'", b"=", b"/", b"&#xFFFE;", b"&#0;", b"&#x85;", b"9" * 20, b"-1",
         b"4294967296", b"18446744073709551616"]
NUMBERS = [0, 1, 2, 3, 12, 13, 16, 17, 64, 65, 127, 128, 129, 160, 161, 65535, 65536, 1073741823, 1073741824, 2147483648,
           4294967295, 4294967296, 2 ** 63, 2 ** 64]


def changed_bytes(chance: Chance, text: bytes) -> bytes:
    """a text with one change that knows nothing of its form"""
    at = chance.randrange(len(text) + 1)
    span = chance.choice([1, 1, 2, 3, 8, 40, 200])
    kind = chance.randrange(9)
    if kind == 0 and at < len(text):
        return text[:at] + bytes([text[at] ^ 1 << chance.randrange(8)]) + text[at + 1:]
    if kind == 1:
        return text[:at] + text[at + span:]
    if kind == 2:
        other = chance.randrange(len(text) + 1)
        return text[:at] + text[other:other + span] + text[at:]
    if kind == 3:
        other = chance.randrange(len(text) + 1)
        return text[:at] + text[other:other + span] + text[at + span:]
    if kind == 4:
        return text[:at] + text[at:at + span] * chance.choice([2, 3, 10]) + text[at + span:]
    if kind == 5:
        return text[:at]
    if kind == 6:
        return text[:at] + bytes(chance.randrange(256) for _ in range(min(span, 8))) + text[at:]
    return text[:at] + chance.choice(BYTES) + text[at:]


def changed_number(chance: Chance, text: bytes) -> bytes:
    """a text in which one run of digits is another number"""
    places = [at for at in range(len(text)) if text[at:at + 1].isdigit() and not text[at - 1:at].isdigit()]
    if not places:
        return changed_bytes(chance, text)
    begin = end = chance.choice(places)
    while text[end:end + 1].isdigit():
        end += 1
    there = int(text[begin:end][:40])
    number = chance.choice([there + 1, max(there - 1, 0), there * 10, there // 10, *chance.sample(NUMBERS, 3)])
    front = b"0" * chance.choice([0, 0, 0, 0, 1])
    return text[:begin] + front + b"%d" % number + text[end:]


def changed_file(chance: Chance, text: bytes) -> bytes:
    """a railML file with one change"""
    kind = chance.randrange(8)
    change = changed_bytes if kind == 0 else changed_number if kind == 1 else stations.edited_text
    return change(chance, text) or b"x"


def changed_sheet(chance: Chance, text: bytes) -> bytes:
    """a sheet with one change"""
    kind = chance.randrange(8)
    change = changed_bytes if kind < 2 else changed_number if kind < 4 else stations.edited_lines
    return change(chance, text) or b"x"


def changed_log(chance: Chance, text: bytes) -> bytes:
    """a log with one change, of its Learnt, Query and Refuted lines more often than of the many clauses of the station"""
    kind = chance.randrange(8)
    if kind == 0 or b"\n" not in text:
        return changed_bytes(chance, text)
    if kind == 1:
        at = chance.randrange(len(text))
        return text[:at] + changed_number(chance, text[at:at + 60]) + text[at + 60:]
    return stations.edited_log(chance, text)


HINT_LINES = [b"", b"l 0 1 0", b"r 0 1 0", b"r 0 0", b"l 1 0 1 0", b"l 1 -1 0 1 0", b"l 1 0 1", b"l 01 0 1 0", b"r 0 00 0",
              b"l 1073741823 0 1 0", b"l 1073741824 0 1 0", b"r 0 -1 0", b"x", b"r 0 1 0 ", b" r 0 1 0", b"caps 0 0 0 0"]


def changed_numbers(chance: Chance, numbers: list[bytes], others: list[bytes]) -> list[bytes]:
    """numbers of a line with one of them negated, left out, repeated, exchanged, in another place, or another one"""
    numbers = list(numbers)
    if not numbers:
        return [chance.choice(others)]
    at, kind = chance.randrange(len(numbers)), chance.randrange(7)
    if kind == 0:
        numbers[at] = numbers[at].removeprefix(b"-") if numbers[at].startswith(b"-") else b"-" + numbers[at]
    elif kind == 1:
        del numbers[at]
    elif kind == 2:
        numbers.insert(at, numbers[at])
    elif kind == 3:
        numbers[at] = chance.choice(others)
    elif kind == 4:
        numbers.insert(at, chance.choice(others))
    elif kind == 5:
        chance.shuffle(numbers)
    elif numbers[at].removeprefix(b"-").isdigit():
        numbers[at] = b"%d" % (int(numbers[at]) + chance.choice([-1, 1]))
    return numbers


def changed_hints(chance: Chance, text: bytes) -> bytes:
    """hints with one change"""
    kind = chance.randrange(12)
    lines = text.split(b"\n")[:-1]
    if kind == 0 or len(lines) < 3:
        return changed_bytes(chance, text)
    if kind == 1:
        return changed_number(chance, text)
    at = chance.randrange(2, len(lines))
    if kind == 2:
        del lines[at]
    elif kind == 3:
        lines.insert(chance.randrange(2, len(lines) + 1), lines[at])
    elif kind == 4:
        lines.insert(at, chance.choice(HINT_LINES))
    elif kind == 5:
        lines = lines[:at]
    elif kind == 6:
        lines[at] = (b"r" if lines[at][:1] == b"l" else b"l") + lines[at][1:]
    elif kind == 7:
        other = chance.randrange(2, len(lines))
        lines[at], lines[other] = lines[other], lines[at]
    else:
        lines[at] = changed_line(chance, lines, lines[at])
    return b"\n".join(lines) + b"\n"


def changed_line(chance: Chance, lines: list[bytes], line: bytes) -> bytes:
    """a hinted line with a change of its literals or of its hints"""
    word, *fields = line.split(b" ")
    if b"0" not in fields:
        return line + b" 0"
    end = fields.index(b"0")
    literals, hints = fields[:end], fields[end + 1:-1]
    others = [field for it in lines[1:] for field in it.split(b" ")[1:] if field.lstrip(b"-").isdigit() and field != b"0"]
    others = others or [b"1"]
    if chance.random() < 0.5:
        literals = changed_numbers(chance, literals, others)
    else:
        hints = changed_numbers(chance, hints, [it for it in others if not it.startswith(b"-")] or [b"1"])
    return b" ".join([word, *literals, b"0", *hints, b"0"])
