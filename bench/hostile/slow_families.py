"""Families of hints and of logs that are made to take long, each for any number of bytes.

All are of one station, whose sheet, log and hints are in the folder. A maker gets the material and a number of bytes, and writes
about so many. The lines are good ones, so that all of them are judged: a line `l C PAD 0 n 0` is good where n is the number of
the clause C of the formula, and PAD may be any literals; and a good line stays one where its first clause is named again, and
with PAD, as long as no clause that it names has a variable of that."""
from __future__ import annotations

import random
from collections.abc import Callable, Iterator
from dataclasses import dataclass

# the greatest variable that a line may have
LAST = 1_073_741_823


@dataclass
class Material:
    """what families are made of: the clauses of the formula, its variables, the lines of the hints and those of the log"""
    chance: random.Random
    clauses: list[list[int]]
    variables: int
    hints: list[bytes]
    log: list[bytes]

    def learnt(self) -> tuple[list[int], list[int]]:
        """the literals and the hints of a Learnt line whose hints are clauses of the formula"""
        for line in self.hints[2:]:
            literals, hints = parts_of(line)
            if line.startswith(b"l ") and len(hints) > 2 and max(hints) <= len(self.clauses):
                return literals, hints
        raise ValueError("no Learnt line has such hints")

    def of_clauses(self, numbers: list[int]) -> list[int]:
        """the literals of the formula's clauses of these numbers"""
        return [literal for number in numbers for literal in self.clauses[number - 1]]

    def padding(self, number: int, beyond: bool, taken: list[int]) -> list[int]:
        """so many literals of variables that aren't taken: of the formula, as far as it has some, or beyond it"""
        if beyond:
            return [LAST - at for at in range(number)]
        free = [at for at in range(1, self.variables + 1) if at not in taken and -at not in taken]
        return free[:number]


Maker = Callable[[Material, int], Iterator[bytes]]


def parts_of(line: bytes) -> tuple[list[int], list[int]]:
    """the literals and the hints of a hinted line"""
    numbers = [int(field) for field in line.split(b" ")[1:]]
    end = numbers.index(0)
    return numbers[:end], numbers[end + 1:-1]


def text_of(word: bytes, *parts: list[int]) -> bytes:
    return b" ".join([word, *(b"%d" % number for part in parts for number in [*part, 0])]) + b"\n"


def repeated(lines: list[bytes], size: int) -> Iterator[bytes]:
    """the lines again and again, up to about so many bytes"""
    text = b"".join(lines)
    piece = text * max(1, (1 << 16) // len(text))
    for _ in range(max(1, size // len(piece))):
        yield piece


def front(material: Material) -> bytes:
    """the first line of hints, and their caps"""
    return b"\n".join(material.hints[:2]) + b"\n"


def ordinary_hints(material: Material, size: int) -> Iterator[bytes]:
    """the Learnt lines that trim left, again and again"""
    yield front(material)
    own = [line + b"\n" for line in material.hints[2:] if line.startswith(b"l ")]
    own = [line for line in own if max(parts_of(line[:-1])[1]) <= len(material.clauses)]
    yield from repeated(own, size)


def named_again(material: Material, size: int, beyond: bool) -> Iterator[bytes]:
    """a long clause, and a line that names it again and again"""
    literals, hints = material.learnt()
    clause = material.clauses[hints[0] - 1]
    padding = material.padding(size // (24 if beyond else 12), beyond, [*literals, *material.of_clauses(hints)])
    first = text_of(b"l", clause + padding, [hints[0]])
    own = text_of(b"l", literals + padding, hints[1:])
    number = b"%d " % (len(material.clauses) + 1)
    yield front(material)
    yield first
    # the hints stand behind the first field 0
    at = own.index(b" 0 ") + 3
    yield own[:at] + number * max(1, (size - len(first) - len(own)) // len(number)) + own[at:]


def named_by_lines(material: Material, size: int, beyond: bool) -> Iterator[bytes]:
    """long clauses, as many as each has literals, and as many lines that name each of them once. Those of the formula have no more
    literals than it has variables: so the grid is to be large"""
    literals, hints = material.learnt()
    clause = material.clauses[hints[0] - 1]
    number = max(2, int((size / (30 if beyond else 17)) ** 0.5))
    padding = material.padding(number, beyond, [*literals, *material.of_clauses(hints)])
    yield front(material)
    for at in range(number):
        yield text_of(b"l", clause + padding[at:] + padding[:at], [hints[0]])
    named = list(range(len(material.clauses) + 1, len(material.clauses) + number + 1))
    line = text_of(b"l", literals + padding, named + hints[1:])
    for _ in range(number):
        yield line


def beyond_lines(material: Material, size: int) -> Iterator[bytes]:
    """lines of a thousand literals whose variables the formula lacks"""
    yield front(material)
    padding = material.padding(1000, True, [])
    material.chance.shuffle(padding)
    yield from repeated([text_of(b"l", material.clauses[0] + padding, [1])], size)


def far_clauses(material: Material, size: int) -> Iterator[bytes]:
    """many short clauses, and lines that name them from all over"""
    literals, hints = material.learnt()
    clause = material.clauses[hints[0] - 1]
    short = text_of(b"l", clause, [hints[0]])
    yield front(material)
    number = max(1, size // 2 // len(short))
    yield from (short for _ in range(number))
    left = size // 2
    while left > 0:
        named = [len(material.clauses) + 1 + material.chance.randrange(number) for _ in range(1000)]
        line = text_of(b"l", literals, named + hints[1:])
        left -= len(line)
        yield line


def tiny_lines(material: Material, size: int) -> Iterator[bytes]:
    """Refuted lines as short as they can be"""
    shortest = min(range(len(material.clauses)), key=lambda at: len(material.clauses[at]))
    yield front(material)
    yield from repeated([text_of(b"r", material.clauses[shortest], [shortest + 1])], size)


def one_line(material: Material, size: int) -> Iterator[bytes]:
    """one line, and as many literals as fit"""
    padding = material.padding(size // 11, True, [])
    material.chance.shuffle(padding)
    yield front(material)
    yield text_of(b"l", material.clauses[0] + padding, [1])


def long_lines(material: Material, size: int) -> Iterator[bytes]:
    """lines of 100,000 literals"""
    padding = material.padding(min(100_000, size // 22), True, [])
    material.chance.shuffle(padding)
    line = text_of(b"l", material.clauses[0] + padding, [1])
    yield front(material)
    yield from (line for _ in range(max(1, size // len(line))))


HINTS: dict[str, Maker] = {
    "ordinary": ordinary_hints,
    "a long clause named again": lambda material, size: named_again(material, size, False),
    "one beyond the formula named again": lambda material, size: named_again(material, size, True),
    "long clauses named by many lines": lambda material, size: named_by_lines(material, size, False),
    "ones beyond the formula named by many lines": lambda material, size: named_by_lines(material, size, True),
    "variables beyond the formula": beyond_lines,
    "far clauses": far_clauses,
    "tiny lines": tiny_lines,
    "one line": one_line,
    "lines of 100,000 literals": long_lines,
}


def with_lines(material: Material, lines: Iterator[bytes]) -> Iterator[bytes]:
    """the log that draw wrote, and lines behind it"""
    yield b"\n".join(material.log) + b"\n"
    yield from lines


def long_query(material: Material, number: int) -> list[bytes]:
    """a Query line of so many literals of the formula, and the Refuted line that it allows, which a Refuted line before shows"""
    shown = next([int(field) for field in line.split(b" ")[1:-1]] for line in reversed(material.log) if line.startswith(b"r "))
    more = material.padding(number, False, shown)
    return [text_of(b"q", [-literal for literal in reversed(shown + more)]), text_of(b"r", shown + more)]


def ordinary_log(material: Material, size: int) -> Iterator[bytes]:
    """the station's own log, whatever the size"""
    yield b"\n".join(material.log) + b"\n"


LOGS: dict[str, Maker] = {
    "ordinary": ordinary_log,
    "Model lines": lambda material, size: with_lines(material, repeated([b"m\n"], size)),
    "tiny queries": lambda material, size: with_lines(material, repeated([b"q 0\n"], size)),
    "long queries": lambda material, size: with_lines(material, repeated(long_query(material, 1 << 20)[:1], size)),
    "long queries with their Refuted lines":
        lambda material, size: with_lines(material, repeated(long_query(material, 1 << 20), size)),
    "one line of unknown variables":
        lambda material, size: with_lines(material, iter([text_of(b"q", material.padding(size // 11, True, []))])),
}
