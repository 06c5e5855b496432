"""Each call of the binding once, with an answer that is known, and each kind of refusal that it can meet."""

import doctest
import re
import unittest
from fractions import Fraction
from pathlib import Path

import rilvostam
from rilvostam import Number, Refused


class Version(unittest.TestCase):
    def test_the_modules_is_the_librarys(self):
        major, minor, patch = map(int, rilvostam.__version__.split("."))
        self.assertEqual(rilvostam.version(), 10000 * major + 100 * minor + patch)


class Words(unittest.TestCase):
    def test_those_of_the_header(self):
        header = (Path(__file__).parents[3] / "include" / "rilvostam.h").read_text(encoding="utf-8")
        rows = re.findall(r'^ *\{"(.*?)", "(.*?)", "(.*?)"\},$', header, re.M)
        self.assertEqual(len(rows), 14)
        for number, words in enumerate(rows):
            refused = Refused(number, 7)
            if number:
                self.assertEqual((refused.name, refused.sentence, refused.place), words)
                self.assertIn(f"RILVOSTAM_{refused.name} = {number}", header)
        self.assertEqual(Refused(14, 0).name, "UNKNOWN")
        self.assertEqual(str(Refused(2, 1)), "refused 2 NOT_UTF8: the line is not well-formed UTF-8 (offset of the first ill-formed sequence: 1)")


class Documentation(unittest.TestCase):
    def test_examples(self):
        failed, tried = doctest.testmod(rilvostam)
        self.assertEqual(failed, 0)
        self.assertGreater(tried, 2)


class Lines(unittest.TestCase):
    def test_the_marked_lines(self):
        self.assertEqual(rilvostam.numbers_of("一万五"), [Number(15000, 0, 3)])
        self.assertEqual(rilvostam.numbers_of("一万零五"), [Number(10005, 0, 4)])

    def test_a_percentage(self):
        edges = rilvostam.add_numbers("百分之五")
        self.assertEqual([(e.start, e.end, e.txt) for e in edges if not e.numeric], [(0, 4, "5%")])
        self.assertEqual([e.active for e in edges if e.numeric], [False, False])

    def test_numbers_in_a_line_longest_first(self):
        self.assertEqual(rilvostam.numbers_of("墓三号x二十"), [Number(20, 4, 6), Number(3, 1, 2), Number(2, 4, 5), Number(10, 5, 6)])
        self.assertEqual(rilvostam.numbers_of("x二分之一分之一"), [Number(Fraction(1, 2), 1, 5), Number(Fraction(1), 4, 8)])
        self.assertEqual(rilvostam.numbers_of("三x五"), [Number(3, 0, 1), Number(5, 2, 3)])
        self.assertEqual(rilvostam.numbers_of("三分之一"), [Number(Fraction(1, 3), 0, 4)])
        self.assertEqual(rilvostam.numbers_of("-五"), [Number(5, 1, 2)])
        self.assertEqual(rilvostam.numbers_of("百分之五"), [])
        self.assertEqual(rilvostam.numbers_of("甲乙"), [])

    def test_the_formal_table(self):
        self.assertEqual(rilvostam.numbers_of("壹萬伍", rilvostam.formal_table()), [Number(15000, 0, 3)])

    def test_fields_of_an_edge(self):
        edge = rilvostam.add_numbers("五")[0]
        self.assertEqual((edge.type, edge.txt, edge.orig_txt), ("digit", "5", "五"))
        self.assertEqual((edge.value, edge.base, edge.script, edge.active), (5.0, 1, "CJK", True))

    def test_given_edges_stand_first(self):
        given = bytes.fromhex("0100" "0000" "0000" "0100" "0100" "7a" "0100" "71")
        edge = rilvostam.add_numbers("五", edges=given)[0]
        self.assertEqual((edge.type, edge.txt, edge.numeric), ("z", "q", False))

    def test_singles(self):
        self.assertEqual([e.active for e in rilvostam.add_numbers_without_singles("万")], [False])
        self.assertEqual([e.active for e in rilvostam.add_numbers_without_singles("千")], [True])

    def test_decimals(self):
        self.assertEqual([(e.txt, e.value, e.decimals) for e in rilvostam.add_numbers_with_decimals("一.五")], [("1", 1.0, None), ("5", 5.0, None), ("1.5", 1.5, 1)])
        self.assertEqual(rilvostam.add_numbers_with_decimals("二.五千").path()[0].txt, "2500")
        self.assertEqual(bytes(rilvostam.add_numbers_with_decimals("一万五")), bytes(rilvostam.add_numbers("一万五")))
        self.assertEqual([e.txt for e in rilvostam.add_numbers("一.五")], ["1", "5"])

    def test_refusals(self):
        cases = [
            (2, 3, lambda: rilvostam.add_numbers("五".encode() + b"\xff")),
            (3, 768, lambda: rilvostam.add_numbers("五" * 257)),
            (4, 0, lambda: rilvostam.add_numbers("五", b"")),
            (6, 0, lambda: rilvostam.add_numbers("五", edges=b"")),
            (7, 0, lambda: rilvostam.add_numbers("九" * 17)),
        ]
        for number, at, call in cases:
            with self.assertRaises(Refused) as refused:
                call()
            self.assertEqual((refused.exception.number, refused.exception.at), (number, at))
            self.assertTrue(refused.exception.name)
            self.assertIn(" ", str(refused.exception))


class ManyLines(unittest.TestCase):
    def answers(self, lines):
        """Bytes of a listing, or number and place of a refusal."""
        return [(a.number, a.at) if isinstance(a, Refused) else bytes(a) for a in rilvostam.add_numbers_to_lines(lines)]

    def alone(self, lines):
        found = []
        for line in lines:
            try:
                found.append(bytes(rilvostam.add_numbers(line)))
            except Refused as refused:
                found.append((refused.number, refused.at))
        return found

    def test_each_as_the_line_alone(self):
        lines = ["墓三号", "", "一万五", "九" * 17, "x" * 257, "百分之五\r", "無"]
        self.assertEqual(self.answers("\n".join(lines)), self.alone(lines))
        self.assertEqual(self.answers("\n".join(lines) + "\n"), self.alone(lines))
        self.assertEqual(self.answers(b"\xff\nx"), [(2, 0), rilvostam.NO_EDGES])
        self.assertEqual(self.answers(""), [])
        self.assertEqual(self.answers("\n"), [rilvostam.NO_EDGES])
        self.assertEqual(self.answers("\n\n"), [rilvostam.NO_EDGES] * 2)

    def test_the_lines_are_the_listings(self):
        first, second = rilvostam.add_numbers_to_lines("墓三号\nx五")
        self.assertEqual((first.line, second.line), ("墓三号", "x五"))
        self.assertEqual(second.nearest_number(0).value, 5)

    def test_pages_in_a_row(self):
        lines = ["墓一万五号", "墓二百五十六号"] * 3000
        answers = self.answers("\n".join(lines))
        self.assertEqual(answers, self.alone(lines[:2]) * 3000)
        self.assertGreater(sum(map(len, answers)), 2 << 20)

    def test_refusals(self):
        for lines in ("", "x"):
            with self.assertRaises(Refused) as refused:
                rilvostam.add_numbers_to_lines(lines, b"\0\0")
            self.assertEqual((refused.exception.number, refused.exception.at), (4, 2))


class Reading(unittest.TestCase):
    def setUp(self):
        self.listing = rilvostam.add_numbers("三分之一と六分之一")

    def test_best_edge_and_neighbors(self):
        whole = self.listing.best_edge(0, 4)
        self.assertEqual((whole.start, whole.end, whole.fraction), (0, 4, (1, 3)))
        self.assertEqual(self.listing.right_neighbor(0), whole)
        self.assertEqual(self.listing.left_neighbor(4), whole)
        self.assertIsNone(self.listing.best_edge(4, 5))

    def test_nearest(self):
        self.assertEqual(self.listing.nearest_number(4).end, 4)
        self.assertIsNone(rilvostam.add_numbers("と").nearest_number(0))

    def test_path_and_shown_text(self):
        self.assertEqual([e.txt for e in self.listing.path()], ["1/3", "1/6"])
        self.assertEqual(self.listing.shown_text(0), "1/3")
        self.assertEqual(self.listing.shown_text(4), "と")

    def test_shares(self):
        self.assertEqual(self.listing.shares(), Fraction(1, 2))
        self.assertEqual(rilvostam.add_numbers("").shares(), 0)

    def test_decimals(self):
        listing = b"\x01\0\x81\x02\0\0\x02\0\x02\0D1\x03\x001.5\x02\0ab\x01"
        edge = rilvostam.Listing("ab", listing).nearest_number(0)
        self.assertEqual((edge.txt, edge.decimals), ("1.5", 1))
        self.assertIsNone(self.listing[0].decimals)
        for count in (0, 16):
            with self.assertRaises(Refused):
                rilvostam.Listing("ab", listing[:-1] + bytes([count])).nearest_number(0)

    def test_refusals(self):
        with self.assertRaises(Refused) as refused:
            self.listing.best_edge(0, 10)
        self.assertEqual((refused.exception.number, refused.exception.name), (9, "BAD_PLACE"))
        with self.assertRaises(Refused):
            rilvostam.Listing("五", b"\x01\x00").nearest_number(0)
        with self.assertRaises(OverflowError):
            self.listing.best_edge(-1, 1)


class Numerals(unittest.TestCase):
    def test_write_and_read(self):
        self.assertEqual(rilvostam.write_number(10010000), "一千零一万")
        for n in (0, 10, 10005, 15000, rilvostam.TOP):
            self.assertEqual(rilvostam.read_field(rilvostam.write_number(n)), n)
        self.assertIsNone(rilvostam.read_field("十十"))
        with self.assertRaises(Refused) as refused:
            rilvostam.write_number(rilvostam.TOP + 1)
        self.assertEqual(refused.exception.number, 10)

    def test_weights(self):
        self.assertEqual(rilvostam.weights("一万五"), [10000, 1000])
        self.assertEqual(rilvostam.weights("一一一一"), [1000, 100, 10, 1])
        self.assertEqual(rilvostam.weights("と"), [])

    def test_worn(self):
        self.assertEqual(rilvostam.worn_character("□十")[0], ("一", 10))
        for line in ("十", "□□", "□と"):
            with self.assertRaises(Refused) as refused:
                rilvostam.worn_character(line)
            self.assertEqual(refused.exception.number, 12)

    def test_proof_sheet(self):
        rows = list(rilvostam.proof_sheet())
        self.assertEqual(len(rows), 50577)
        self.assertEqual(rows[:2], [("零", 0), ("一", 1)])
        self.assertEqual(list(rilvostam.proof_sheet(50576)), rows[-1:])


class Tables(unittest.TestCase):
    def test_tables(self):
        for table in (rilvostam.plain_table(), rilvostam.formal_table()):
            self.assertEqual(rilvostam.check_table(table), 16)
            self.assertIsNone(rilvostam.regular_table(table))
        with self.assertRaises(Refused) as refused:
            rilvostam.check_table(rilvostam.plain_table() + b"\0")
        self.assertEqual((refused.exception.number, refused.exception.at), (4, 582))


if __name__ == "__main__":
    unittest.main()
