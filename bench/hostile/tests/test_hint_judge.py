"""The judge of hints, by the sentences of docs/formats/hints.md."""
import unittest

import hint_judge
from hint_judge import Hinted, caps_of, is_good, line_of

CLAUSES = [(1, 2), (-2, 3), (-3, -1), (1, 2, 3)]


class Lines(unittest.TestCase):
    def test_faults_of_a_line(self) -> None:
        for text, fault in (
                (b"", 2), (b"l", 2), (b"x 1 0 1 0", 2), (b"l 1 0 1", 2), (b"l 1 0 0", 2), (b"l 0 1 0", 2), (b"r 1 2 0", 2),
                (b"l 1 0 1 0 ", 2), (b"l  1 0 1 0", 2), (b"l 1 0 a 0", 2), (b"l 01 0 1 0", 3), (b"l 1 0 01 0", 3),
                (b"l 1 0 -1 0", 3), (b"l 1 0 0 0", 3), (b"r 0 0 5 0", 3), (b"l -0 0 1 0", 3), (b"l 1073741824 0 1 0", 3),
                (b"l 1 0 1073741824 0", 3), (b"l 1 1 0 1 0", 4), (b"l 1 -1 0 1 0", 4)):
            self.assertEqual(line_of(text), fault, text)

    def test_lines_without_a_fault(self) -> None:
        self.assertEqual(line_of(b"l 1 -2 0 3 4 0"), Hinted(True, [1, -2], [3, 4]))
        self.assertEqual(line_of(b"r 0 3 0"), Hinted(False, [], [3]))
        self.assertEqual(line_of(b"r 1073741823 0 1073741823 0"), Hinted(False, [1073741823], [1073741823]))

    def test_caps(self) -> None:
        greatest = [1, 2, 0, 4]
        for text, wanted in (
                (b"caps 1 2 0 4", [1, 2, 0, 4]), (b"caps 0 0 0 0", [0, 0, 0, 0]), (b"caps 1 2 0", 2), (b"caps 1 2 0 x", 2),
                (b"caps 1 2 0 4 ", 2), (b"caps 01 2 0 4", 3), (b"caps 1 -2 0 4", 3), (b"caps 1 65536 0 4", 3),
                (b"caps 2 2 0 4", 5), (b"caps 1 2 1 4", 5), (b"caps 1 2 65535 4", 5)):
            self.assertEqual(caps_of(text, greatest), wanted, text)


class Good(unittest.TestCase):
    def good(self, literals: list[int], hints: list[int]) -> bool:
        return is_good(CLAUSES, Hinted(True, literals, hints))

    def test_hints_that_show_a_clause(self) -> None:
        # 1 and 3 are false: of (1 2) the literal 2 is left, and then of (-2 3) none is
        self.assertTrue(self.good([1, 3], [1, 2]))
        self.assertTrue(self.good([1, 3], [2, 1]))
        self.assertTrue(self.good([1, 3], [1, 1, 2]))
        self.assertTrue(self.good([1, 2], [1]))
        self.assertTrue(self.good([1, 2, 7], [1]))

    def test_hints_that_do_not(self) -> None:
        for literals, hints in (([1, 3], [1]), ([1, 3], [2]), ([1, 3], [1, 5]), ([1, 3], [1, 2, 2]), ([1, -3], [1, 2]),
                                ([1, 2], [1, 1]), ([1], [4, 2]), ([1, 2], [1, 2])):
            self.assertFalse(self.good(literals, hints), (literals, hints))


class Numbers(unittest.TestCase):
    def test_refusals_name_the_line(self) -> None:
        with self.assertRaises(hint_judge.reading.Refused) as refused:
            hint_judge.refuse(4, 17)
        self.assertEqual(refused.exception.line, b"hints 4 Twice line 17")
