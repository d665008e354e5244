"""Logs of searches: their lines, unit propagation, and what `check` answers. The clauses of a station's drawings are taken
from the log that `draw` wrote: they aren't worked out here."""
import re

from drawing import CRITERIA, read_sheet, verdict
from reading import Refused

LOG_FAULTS = ["", "Header", "Form", "Number", "Twice"]
DIGITS, CANONICAL = re.compile(rb"-?[0-9]+"), re.compile(rb"0|-?[1-9][0-9]*")
GREATEST_VARIABLE = 1073741823


class Unknown(Exception):
    """what is expected can't be told from the log that was written"""


def number(field, greatest):
    return int(field) if CANONICAL.fullmatch(field) and 1 <= abs(int(field)) <= greatest else None


def read_line(text):
    """a line's word and what it has, or the number of its fault"""
    fields = text.split(b" ")
    word = fields[0].decode("latin1")
    if fields == [b"m"]:
        return "m", ()
    if word == "b":
        if len(fields) != 4 or fields[1].decode("latin1") not in CRITERIA or not all(map(DIGITS.fullmatch, fields[2:])):
            return 2
        bound, variable = number(fields[2], 65535), number(fields[3], GREATEST_VARIABLE)
        return 3 if min(bound or 0, variable or 0) < 1 else ("b", (fields[1].decode(), bound, variable))
    literals = fields[1:-1]
    if word not in ("f", "l", "q", "r") or len(fields) < 2 or fields[-1] != b"0":
        return 2
    if not all(map(DIGITS.fullmatch, literals)) or word == "l" and not literals:
        return 2
    found = tuple(number(literal, GREATEST_VARIABLE) for literal in literals)
    if None in found:
        return 3
    return 4 if len({abs(literal) for literal in found}) < len(found) else (word, found)


def read_log(text):
    """the lines behind the first, or the numbers of their faults; none where the first has one"""
    if not text.startswith(b"railplan-log 1\n"):
        return None
    *lines, tail = text.split(b"\n")
    return [read_line(line) for line in lines[1:]] + [2] * bool(tail)


class Propagation:
    """clauses, each of which waits at two of its literals, and the literals that follow"""

    def __init__(self):
        self.waiting, self.values, self.trail, self.done, self.is_falsified = {}, {}, [], 0, False

    def value(self, literal):
        value = self.values.get(abs(literal))
        return None if value is None else value == (literal > 0)

    def set(self, literal):
        self.values[abs(literal)] = literal > 0
        self.trail.append(literal)

    def add(self, clause):
        """adds a clause where nothing is assumed"""
        if self.is_falsified:
            return
        clause = sorted(clause, key=lambda literal: self.value(literal) is False)
        if not clause or self.value(clause[0]) is False:
            self.is_falsified = True
            return
        for literal in clause[:2] if len(clause) > 1 else ():
            self.waiting.setdefault(literal, []).append(clause)
        if len(clause) == 1 or self.value(clause[1]) is False:
            if self.value(clause[0]) is None:
                self.set(clause[0])
                self.is_falsified = not self.spread()

    def spread(self):
        """goes on to the end; whether no clause is falsified"""
        while self.done < len(self.trail):
            false = -self.trail[self.done]
            self.done += 1
            clauses, kept = self.waiting.get(false, []), []
            for at, clause in enumerate(clauses):
                if not self.moves(clause, false):
                    kept.append(clause)
                    if self.value(clause[0]) is False:
                        self.waiting[false] = kept + clauses[at + 1:]
                        return False
                    if self.value(clause[0]) is None:
                        self.set(clause[0])
            self.waiting[false] = kept
        return True

    def moves(self, clause, false):
        """whether a clause that waits at a false literal goes on to wait at another"""
        if clause[0] == false:
            clause[0], clause[1] = clause[1], clause[0]
        if self.value(clause[0]) is not True:
            for at in range(2, len(clause)):
                if self.value(clause[at]) is not False:
                    clause[1], clause[at] = clause[at], clause[1]
                    self.waiting.setdefault(clause[1], []).append(clause)
                    return True
        return False

    def assume(self, literals):
        """whether the literals, and all that follows from them, falsify no clause"""
        for literal in literals:
            value = self.value(literal)
            if value is False:
                return False
            if value is None:
                self.set(literal)
        return self.spread()

    def take_back(self, length):
        while len(self.trail) > length:
            del self.values[abs(self.trail.pop())]
        self.done = length

    def refutes(self, literals):
        length = len(self.trail)
        holds = not self.is_falsified and self.assume(literals)
        self.take_back(length)
        return not holds

    def refusal_of(self, learnt):
        """why a learnt clause is refused; nothing where it isn't"""
        if not self.refutes([-literal for literal in learnt]):
            return "NotImplied"
        if self.is_falsified:
            return "NotNew"
        length = len(self.trail)
        holds = self.assume([-literal for literal in learnt[1:]])
        is_new = holds and self.value(learnt[0]) is not True
        self.take_back(length)
        return None if is_new else "NotNew"


class Written:
    """the Formula and Bound lines of a log that `draw` wrote: those before the first query, and those of each criterion"""

    def __init__(self, graph, lines):
        self.graph, self.first, self.of_criterion, part, has_query = graph, [], {}, [], False
        for word, what in lines:
            has_query = has_query or word == "q"
            if word == "f" and not has_query:
                self.first.append((word, what))
            elif word == "f":
                # a clause behind Bound lines begins another criterion's part
                part = [] if part and part[-1][0] == "b" else part
                part.append((word, what))
            elif word == "b":
                if part and part[-1][0] == "b" and part[-1][1][0] != what[0]:
                    part = []
                part.append((word, what))
                self.of_criterion[what[0]] = part

    def caps(self):
        return {name: sum(word == "b" for word, _ in part) for name, part in self.of_criterion.items()}

    def expected(self, order, caps):
        """the lines that are expected, and whether these are all"""
        lines, own = list(self.first), self.caps()
        for at, name in enumerate(order):
            if caps[name] != own.get(name, 0):
                return lines, caps[name] == 0 and not any(caps[later] for later in order[at + 1:])
            lines += self.of_criterion.get(name, [])
        return lines, True


class Judge:
    """judges the lines of a log in turn"""

    def __init__(self, lines, expected, is_whole=True):
        self.lines, self.expected, self.is_whole = lines, expected, is_whole
        self.propagation, self.at, self.greatest, self.query = Propagation(), 0, 0, None
        self.refuted, self.bounds = [], {}

    @classmethod
    def of_sheet(cls, sheet, lines, written):
        """of the log of a sheet's search"""
        bounds = [line[1][0] for line in lines if not isinstance(line, int) and line[0] == "b"]
        caps = {name: min(bounds.count(name), greatest(sheet, written.graph, name)) for name in CRITERIA}
        return cls(lines, *written.expected(sheet.order, caps))

    def refuse(self, why, number, status=8):
        raise Refused(f"check {why} line {number}".encode(), status)

    def judge(self):
        for number, line in enumerate(self.lines, 2):
            if isinstance(line, int):
                raise Refused(b"log %d %s line %d" % (line, LOG_FAULTS[line].encode(), number))
            word, what = line
            if word in "fb":
                if self.at >= len(self.expected) and not self.is_whole:
                    raise Unknown
                if self.at >= len(self.expected) or self.expected[self.at] != line:
                    self.refuse("Differs", number)
                self.at += 1
            getattr(self, f"take_{word}")(what, number)

    def take_b(self, what, number):
        self.bounds[what[:2]] = what[2]

    def take_f(self, clause, number):
        self.greatest = max([self.greatest, *map(abs, clause)])
        self.propagation.add(clause)

    def take_m(self, what, number):
        pass

    def hold_variables(self, literals, number):
        if any(abs(literal) > self.greatest for literal in literals):
            self.refuse("NewVar", number)

    def take_q(self, literals, number):
        self.hold_variables(literals, number)
        self.query = literals

    def take_r(self, literals, number):
        self.hold_variables(literals, number)
        if self.query is None or any(-literal not in self.query for literal in literals):
            self.refuse("WrongQuery", number)
        if not self.propagation.refutes([-literal for literal in literals]):
            self.refuse("NotImplied", number)
        self.refuted.append(set(literals))

    def take_l(self, clause, number):
        self.hold_variables(clause, number)
        why = self.propagation.refusal_of(clause)
        if why:
            self.refuse(why, number)
        self.propagation.add(clause)

    def lacking(self, sheet):
        """the first place whose value isn't certified as least; none where all that is claimed are"""
        if not sheet.drawing:
            return 0 if sheet.ending == "none" and set() not in self.refuted else None
        values, allowed = dict(zip(CRITERIA, sheet.drawing.values())), set()
        for place, name in enumerate(sheet.order[:sheet.settled], 1):
            least = self.bounds.get((name, values[name]))
            if values[name] and not any(clause <= allowed | {least} for clause in self.refuted):
                return place
            allowed.add(self.bounds.get((name, values[name] + 1)))
        return None


def greatest(sheet, graph, criterion):
    edges = len(graph.edges)
    return {"height": sheet.height, "width": sheet.width, "bends": 2 * edges, "diagonal": edges * sheet.width}[criterion]


def check(graph, sheet_text, log_text, written):
    """the status and the line that `check` answers to a sheet and a log of a station without a fault"""
    try:
        sheet = read_sheet(graph, sheet_text)
        if sheet.drawing and sheet.drawing.broken(sheet):
            return verdict(sheet)
        lines = read_log(log_text)
        if lines is None:
            raise Refused(b"log 1 Header line 1")
        judge = Judge.of_sheet(sheet, lines, written)
        judge.judge()
        place = judge.lacking(sheet)
        return (0, b"certified %d\n" % sheet.settled) if place is None else (8, b"check Lacks place %d\n" % place)
    except Refused as why:
        return why.status, why.line + b"\n"
