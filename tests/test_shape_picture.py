"""docs/shapes.svg is what is measured and drawn; and the parts of checks/shape_picture.py: exact shapes,
their bounds, the points, and the run against a program, by stand-ins for it."""
import contextlib
import functools
import io
import itertools
import math
import pathlib
import re
import sys
import tempfile
import unittest
import xml.etree.ElementTree as ElementTree
from fractions import Fraction
from unittest import mock

ROOT = pathlib.Path(__file__).resolve().parent.parent
sys.path[:0] = [str(ROOT / "tools"), str(ROOT / "checks")]
import shape_picture as picture          # noqa: E402
from parts import drawing, kernel_pairs, shapes   # noqa: E402

ROWS = ROOT / "crates/cubic_spline/specs/Rows.antt"
TAG = "{http://www.w3.org/2000/svg}"


@functools.cache
def drawn(): return picture.svg()


def few_points(): return mock.patch.multiple(shapes, SPREAD=101, CLOSE=11)


class Shapes(unittest.TestCase):
    def test_exact_ones_by_hand(self):
        for q, weight, slope in (("0", "1", "0"), ("1/4", "23/32", "-15/8"), ("1/3", "5/9", "-2"),
                                 ("1/2", "1/4", "-3/2"), ("2/3", "2/27", "-2/3"), ("3/4", "1/32", "-3/8"),
                                 ("1", "0", "0"), ("5/4", "0", "0"), ("1e-5", "0.999999999400006", "-0.0001199982")):
            at = Fraction(q)
            self.assertEqual((shapes.exact_weight(at), shapes.exact_slope(at)), (Fraction(weight), Fraction(slope)), q)

    def test_the_slope_is_that_of_the_weight(self):
        e = Fraction(1, 100)
        for q, bend in ((Fraction(1, 7), 6), (Fraction(2, 5), 6), (Fraction(4, 7), -2), (Fraction(8, 9), -2)):
            rise = (shapes.exact_weight(q + e) - shapes.exact_weight(q - e)) / (2 * e)
            self.assertEqual(rise, shapes.exact_slope(q) + bend * e**2)      # a cubic's rise, over 2 e

    def test_rows_of_the_specification(self):
        rows = re.findall(r"shape (weight|slope)_shape 0x([0-9A-F]{16}) (?:0x([0-9A-F]{16})|0)\n", ROWS.read_text())
        self.assertEqual(len(rows), len(re.findall("shape (?:weight|slope)_shape 0x", ROWS.read_text())))
        self.assertGreaterEqual(len(rows), 8)
        for name, q, value in rows:
            found = shapes.computed(shapes.double(q))[("weight", "slope").index(name)]
            self.assertEqual(kernel_pairs.bits(found), value or "0" * 16, (name, q))

    def test_large_errors(self):
        self.assertEqual([*map(kernel_pairs.bits, shapes.FARTHEST)], ["3FD6BFFA7D7A1E96", "3FDFFE46B0677C46"])
        weight, slope = (shapes.errors(q)[k] for k, q in enumerate(shapes.FARTHEST))
        self.assertTrue(Fraction(1, 2**53) < weight <= Fraction(1, 2**50))
        self.assertTrue(Fraction(1, 2**51) < slope <= Fraction(1, 2**49))
        r, h = shapes.FARTHEST_PAIR
        self.assertEqual((kernel_pairs.bits(r), kernel_pairs.bits(h)), ("40039ACBA903908E", "401B96BD2E65B5BD"))
        weight = shapes.kernel_error(r, h, drawing.normalizer(h) * shapes.computed(r / h)[0])
        self.assertTrue(Fraction(1, 5) < weight <= 1)      # so 2^-52 normalizers would be too few

    def test_where_the_slope_is_cut(self):
        self.assertEqual(kernel_pairs.bits(shapes.CUT), "3EE4F8B588E368F1")
        self.assertEqual(shapes.computed(shapes.CUT)[1], 0.0)
        self.assertTrue(Fraction("-0.00012") <= shapes.exact_slope(Fraction(shapes.CUT)) < Fraction("-0.00011"))

    def test_a_shape_beyond_its_bound(self):
        """At 0.3 weight and slope are near enough after a change of the last bit, and not after one of
        twice the bound."""
        def errors_with(q, weight, slope):
            right = shapes.computed(q)
            with mock.patch.object(shapes, "computed", lambda q: (right[0] + weight, right[1] + slope)):
                return shapes.errors(q)
        last = 2.0**-53, 2.0**-52
        self.assertNotEqual(errors_with(0.3, *last), shapes.errors(0.3))
        for q, weight, slope, piece in ((0.3, 2.0**-49, 0.0, "the weight at q = 0.3 "), (0.3, -2.0**-49, 0.0, "weight"),
                                        (0.3, 0.0, 2.0**-48, "the slope at q = 0.3 "), (0.3, 0.0, -2.0**-48, "slope"),
                                        (2.0, 2.0**-49, 0.0, "weight"), (2.0, 0.0, 2.0**-48, "slope"),
                                        (1e-5, 0.0, -5e-324, "the slope at q = 1e-05 is not 0")):
            with self.assertRaisesRegex(shapes.Beyond, piece):
                errors_with(q, weight, slope)
        with mock.patch.object(shapes, "LEAST_SLOPE", Fraction("-0.00011")), \
                self.assertRaisesRegex(shapes.Beyond, "or the exact one"):
            shapes.errors(shapes.CUT)

    def test_error_of_a_weight(self):
        r, h = 1.5, 2.0
        scale = 8.0 / (((math.pi * h) * h) * h)
        off = Fraction(5, 2**52) * Fraction(scale)      # the bound
        right = Fraction(scale) / 32
        for share in Fraction(0), Fraction(1), Fraction(-3, 2):
            self.assertEqual(shapes.kernel_error(r, h, right + share * off), abs(share))


class Points(unittest.TestCase):
    def test_spread(self):
        points = shapes.spread()
        self.assertGreaterEqual(len(set(points)), 20000)
        self.assertTrue(shapes.CUT < min(points) and max(points) == 1.0)
        self.assertTrue(all(q * 2.0**36 % 1.0 for q in points[:-1]))

    def test_close_to_zero_and_at_edges(self):
        points = shapes.close()
        self.assertEqual((points[0], points[-1]), (0.0, 2e-5))
        self.assertGreater(min(sum(q <= shapes.CUT for q in points), sum(q > shapes.CUT for q in points)), 90)
        self.assertLessEqual({5e-324, 1e-5, 1.0000000000000003e-05, 0.5, 1.0, 1.0 + 2.0**-52}, set(shapes.edges()))

    def test_pairs_of_all_sizes(self):
        pairs = shapes.sized_pairs(picture.SEED, picture.PAIRS)
        self.assertGreaterEqual(len(pairs), 10000)
        for r, h in pairs:
            self.assertTrue(r <= 1.1 * h and 0.0 < drawing.normalizer(h) < math.inf)
        radii = [h for _, h in pairs]
        self.assertTrue(min(radii) < 2.0**-300 and max(radii) > 2.0**300)
        self.assertGreater(sum(1e-3 < h < 1e3 for h in radii), 5000)
        found = {kernel_pairs.bits(r) for r, _ in pairs}
        self.assertLessEqual({"0" * 16, "8" + "0" * 15}, found)
        self.assertGreater(sum(0.0 < r < 1e-9 * h for r, h in pairs), 1000)
        self.assertGreater(sum(r > h for r, h in pairs), 500)


class Drawing(unittest.TestCase):
    def test_numbers(self):
        for x, places, words in (("0.25", 1, "0.2"), ("0.26", 1, "0.3"), ("120", 1, "120"), ("-1.5", 2, "-1.5"),
                                 ("-0.01", 1, "0"), ("-1/3", 4, "-0.3333"), ("0.0005", 4, "0.0005")):
            self.assertEqual(picture.decimal(Fraction(x), places), words)
        for x, words in (("1", "2^0"), ("3/2", "2^0.58"), ("1/7", "2^-2.81"), ("7/3", "2^1.22"), ("8", "2^3"),
                         ("1/1024", "2^-10")):
            self.assertEqual(picture.power(Fraction(x)), words)

    def test_columns(self):
        wide = picture.WIDE
        found = [(Fraction(k, 4 * wide), Fraction(k)) for k in (4, 7, 5, 6, 8, 4 * wide)]
        self.assertEqual(picture.by_column(found), {1: (4, 7), 2: (8, 8), wide - 1: (4 * wide, 4 * wide)})

    def test_a_larger_error_is_the_one_that_is_marked(self):
        found, known = [(Fraction(1, 4), Fraction(1, 2**52)), (Fraction(3, 4), Fraction(1, 2**53))], Fraction(1, 2)
        for error, words in (("1/3", ["2^-51.58", "0.5"]), ("1/5", ["2^-52", "0.25"])):
            known_one = known, Fraction(error) / 2**50
            lines = " ".join(picture.error_panel(0, "W", shapes.WEIGHT_BOUND, "#000000", found, known_one))
            self.assertEqual(re.findall("largest measured error: (.*?)<.*at q = (.*?)<", lines), [tuple(words)])


def boxes(root):
    """Left, right, top and bottom of each text; letters are as wide as those of DejaVu Sans, a wide font."""
    for text in root.iter(TAG + "text"):
        size, letter = float(text.get("font-size", root.get("font-size"))), 0.67 if text.get("font-weight") else 0.6
        wide, x, y = size * letter * len(text.text), float(text.get("x")), float(text.get("y"))
        left = x - wide * {"middle": 0.5, "end": 1.0}.get(text.get("text-anchor"), 0.0)
        yield text.text, (left, left + wide, y - 0.8 * size, y + 0.25 * size)


class File(unittest.TestCase):
    def test_it_is_what_is_drawn(self):
        self.assertTrue(picture.PICTURE.read_text(encoding="utf-8") == drawn(),
                        "docs/shapes.svg is old; write it again with checks/shape_picture.py")

    def test_labels_stand_apart_and_within(self):
        found = list(boxes(ElementTree.fromstring(drawn())))
        for words, (left, right, top, bottom) in found:
            self.assertTrue(0 < left and right < picture.WIDTH and 0 < top and bottom < picture.HEIGHT, words)
        for (words, one), (others, other) in itertools.combinations(found, 2):
            apart = [one[k + 1] <= other[k] or other[k + 1] <= one[k] for k in (0, 2)]
            self.assertTrue(any(apart), (words, others))

    def test_what_it_shows(self):
        root = ElementTree.fromstring(drawn())
        self.assertEqual(root.find(TAG + "rect").get("fill"), "#ffffff")
        texts = [text.text for text in root.iter(TAG + "text")]
        for words in ("largest measured error: 2^-52.38", "at q = 0.3554674363481153", "proved bound: 2^-50",
                      "largest measured error: 2^-50.54", "at q = 0.4998947832772881", "proved bound: 2^-49",
                      "S* is not below -0.00012", "-0.0001199982"):
            self.assertEqual(texts.count(words), 1, words)
        sizes = [float(size) for e in root.iter() for size in [e.get("font-size")] if size]
        self.assertGreaterEqual(min(sizes), 12)
        numbers = [n for e in root.iter() for key in ("d", "x", "y", "cx", "cy") for n in
                   re.findall("[0-9.]+", e.get(key) or "")]
        self.assertTrue(all(re.fullmatch(r"[0-9]+(\.[0-9])?", n) for n in numbers))
        self.assertLess(len(drawn()), 80000)


STAND_IN = """#!%s -B
import sys
sys.path[:0] = [%r]
from parts.kernel_pairs import kernel_line
from parts.shapes import double
for k, line in enumerate(sys.stdin):
    answer = kernel_line(*map(double, line.split()))
    %s
"""


class Command(unittest.TestCase):
    def setUp(self):
        self.folder = tempfile.TemporaryDirectory()
        self.addCleanup(self.folder.cleanup)
        self.drawn = pathlib.Path(self.folder.name) / "shapes.svg"
        for patch in few_points(), mock.patch.multiple(picture, PICTURE=self.drawn, PAIRS=100):
            patch.start()
            self.addCleanup(patch.stop)

    def called(self, *arguments):
        with contextlib.redirect_stdout(io.StringIO()) as out, contextlib.redirect_stderr(out), \
                mock.patch.object(sys, "argv", ["shape_picture.py", *arguments]):
            return picture.main(), out.getvalue()

    def held(self, last="print(answer)"):
        path = pathlib.Path(self.folder.name) / "program"
        path.write_text(STAND_IN % (sys.executable, str(ROOT / "checks"), last))
        path.chmod(0o755)
        return self.called("--subject", str(path))

    def test_check(self):
        self.assertEqual(self.called("--check")[0], 1)
        self.assertEqual(self.called(), (0, ""))
        self.assertEqual(self.called("--check")[0], 0)
        self.drawn.write_text(self.drawn.read_text().replace("2^-52.38", "2^-52.39"))
        status, said = self.called("--check")
        self.assertEqual((status, "checks/shape_picture.py writes it" in said), (1, True))

    def test_a_wrong_shape_is_not_drawn(self):
        right = shapes.computed
        for q in 7 / 101, 0.5, 1.0, shapes.close()[1], shapes.FARTHEST[1]:
            def wrong(x): return right(x)[0] + 2.0**-49 * (x == q), right(x)[1]
            with mock.patch.object(shapes, "computed", wrong):
                status, said = self.called()
            self.assertEqual((status, "the weight at q = %r is not within" % q in said), (2, True))
            self.assertFalse(self.drawn.exists())

    def test_a_program_that_agrees(self):
        status, said = self.held()
        self.assertEqual((status, said.count("no difference"), said.count("of its bound")), (0, 2, 2), said)
        self.assertIn("\n101 distances, with radii of all sizes", said)
        with mock.patch.object(shapes, "KERNEL_BOUND", Fraction(1, 2**54)):
            status, said = self.held()
            self.assertEqual((status, "above its bound" in said), (1, True))

    def test_a_program_that_differs(self):
        last_bit = "print(answer if k != 50 else answer[:-1] + '%X' % (int(answer[-1], 16) ^ 1))"
        for last in last_bit, "print('refused 11')":
            status, said = self.held(last)
            self.assertEqual((status, "here: " in said and "the program: " in said), (1, True), said)

    def test_a_program_that_cannot_be_asked(self):
        for last, piece in (("k < 9 and print(answer)", "but 9 answers"), ("sys.exit(3)", "ended with status 3")):
            status, said = self.held(last)
            self.assertEqual((status, piece in said), (2, True), said)
        status, said = self.called("--subject", str(self.drawn))
        self.assertEqual((status, "build it as the head of bindings/c/kernel_pairs.c says" in said), (2, True))


if __name__ == "__main__":
    unittest.main()
