"""Flat scenes: their widths and texts, what is drawn, which wrong versions the cases notice, and
checks/flat_twins.py."""
import contextlib
import io
import itertools
import math
import pathlib
import sys
import types
import unittest
from unittest import mock

ROOT = pathlib.Path(__file__).resolve().parent.parent
sys.path[:0] = [str(ROOT / "checks")]
import cases_check      # noqa: E402
import compare          # noqa: E402
import flat_twins       # noqa: E402
import made_scenes      # noqa: E402
import reference        # noqa: E402
import wrong_versions   # noqa: E402
from parts import drawing, flat_cases, flat_faults, kernel_pairs, packing    # noqa: E402
from parts import sides, step_drawn, twins    # noqa: E402
from parts.step_rules import FLAT, SOLID, lines, step, walk    # noqa: E402
from parts.step_scenes import EMPTY, FORMS, fluid, one, particle, rich, scene    # noqa: E402
from parts.step_scenes import scene_a, stone, to, under, wall    # noqa: E402
from parts.wrong_rules import DOT    # noqa: E402

EMPTY_FLAT = flat_cases.FLAT_EMPTY


class Widths(unittest.TestCase):
    def test_packed(self):
        """FORMAT 1.8 for two axes."""
        for solid, bytes_of in (
                (EMPTY, 44), (scene([fluid(1.0)]), 44 + 10), (scene([], [wall()]), 44 + 2),
                (scene([one([])]), 54 + 66), (scene([one()]), 54 + 66 + 26),
                (scene([one([to(0, 0)] * 3, walls=[to(0, 0)] * 2)]), 54 + 66 + 5 * 26),
                (scene([], [wall(stone())]), 46 + 17),
                (scene([], [wall(stone(force=(0.0,) * SOLID), keeps=1)]), 46 + 33)):
            self.assertEqual(len(packing.flat(solid)), bytes_of)
        self.assertEqual(packing.flat(EMPTY), EMPTY_FLAT)

    def test_lines(self):
        text = lines(packing.flat(rich())).splitlines()
        self.assertEqual([(row.split()[0], len(row.split()) - 3) for row in text[2:]],
                         [("fluid", 5), ("fluid", 5), ("wall", 3), ("wall", 1)])

    def test_bytes_0_and_1(self):
        for head, line in (
                ("4000", "accepted"), ("4003", "accepted"), ("4004", "2 1"), ("400F", "2 1"),
                ("4094", "3 1"), ("4083", "1 44"), ("4084", "2 1"), ("4904", "3 0"),
                ("4100", "1 44"), ("3000", "2 0"), ("5000", "2 0"), ("F000", "2 0"),
                ("0000", "2 0"), ("1000", "1 44"), ("2003", "1 44")):
            data = bytes.fromhex(head) + EMPTY_FLAT[2:]
            self.assertEqual(cases_check.line(data), line + "\n", head)
            said = "step settled 2" if line == "accepted" else "refused %s\n" % line
            self.assertIn(said, lines(data), head)

    def test_axes_dropped_and_added(self):
        for data in itertools.islice(made_scenes.made(1, "models", FLAT), 40):
            for axis in range(SOLID):
                twin = packing.solid(data, axis)
                self.assertEqual(packing.axes_of(twin), SOLID)
                self.assertEqual(packing.flat(twin, axis), data)
                self.assertTrue(packing.is_idle(twin, axis))
        self.assertFalse(packing.is_idle(scene([one(velocity=(0.0, 1.0, 0.0))]), 1))
        self.assertFalse(packing.is_idle(scene([one(velocity=(0.0, -0.0, 0.0))]), 1))


class Drawn(unittest.TestCase):
    def test_special_numbers_arise(self):
        """Under each rule, in the cases and in the classes, with kept forces and several fluids."""
        drawn = [data for _, data in step_drawn.drawn_flat()]
        drawn += [data for name in made_scenes.CLASSES
                  for data in itertools.islice(made_scenes.made(1, name, FLAT), 40)]
        for form in FORMS[FLAT]:
            scenes = [data for data in drawn if sides.form(data) == form]
            texts = [text for text in map(lines, scenes) if text.startswith("step")]
            words = {word for text in texts for word in text.split()}
            self.assertLessEqual(
                {"7FF8000000000000", "7FF0000000000000", "FFF0000000000000", "0000000000000000",
                 "8000000000000000", "settled", "ranout", "unswept"}, words, form)
            self.assertTrue(any(row.startswith("wall") and len(row.split()) == 6 for text in texts
                                for row in text.split("\n")), form)
            self.assertTrue(any("\nfluid 1 " in text for text in texts), form)

    def test_lattices_are_of_the_flat_kernel(self):
        drawn = map(packing.unpack, made_scenes.made(1, "lattice", FLAT))
        (numbers, (own, *_), _), *_ = next(s["fluids"][0][1] for s in drawn if s["fluids"][0][1])
        radius = math.sqrt(40.0 / 7.0 / (math.pi * own[2]))
        self.assertAlmostEqual(drawing.normalizer(radius, FLAT), own[2])
        self.assertEqual((len(numbers), len(own)), (3 * FLAT + 2, 3 + FLAT))


class Kernel(unittest.TestCase):
    def test_normalizers(self):
        self.assertEqual(drawing.normalizer(2.0, FLAT), (40.0 / 7.0) / ((math.pi * 2.0) * 2.0))
        self.assertEqual(drawing.normalizer(2.0), 8.0 / (((math.pi * 2.0) * 2.0) * 2.0))

    def test_pairs_notice_other_normalizers(self):
        cases = list(kernel_pairs.pairs(1, 300))
        right = [kernel_pairs.kernel_line(r, h, FLAT) for r, h in cases]
        others = {"three axes": lambda h, _: 8.0 / (math.pi * h * h * h),
                  "10 / 7": lambda h, _: 10.0 / 7.0 / (math.pi * h * h),
                  "40 first, then 7": lambda h, _: 40.0 / (7.0 * ((math.pi * h) * h)),
                  "the square first": lambda h, _: 40.0 / 7.0 / (math.pi * (h * h)),
                  "one axis more": lambda h, _: 40.0 / 7.0 / (math.pi * h * h * h)}
        for name, normalizer in others.items():
            with mock.patch.object(drawing, "normalizer", guarded(normalizer)):
                wrong = [kernel_pairs.kernel_line(r, h, FLAT) for r, h in cases]
            self.assertNotEqual(wrong, right, name)


def guarded(normalizer):
    """A quotient by 0 is infinite."""
    def found(h, axes):
        try:
            return normalizer(h, axes)
        except ZeroDivisionError:
            return math.inf
    return found


class Cases(unittest.TestCase):
    TEXTS = [(data, lines(data)) for _, data, *_ in flat_cases.flat_cases()]

    def test_each_form_is_there(self):
        self.assertLessEqual(set(FORMS[FLAT]), {sides.form(data) for data, _ in self.TEXTS})

    def test_refused_at_each_field(self):
        """Each field of the scene is cut, and each double not finite, at its own place."""
        fields = flat_faults.HEADER + flat_faults.RICH
        ends = [place + size for place, size in fields]
        self.assertEqual(ends, [place for place, _ in fields[1:]] + [flat_faults.END])
        told = {text for _, _, text in flat_faults.flat_faults()}
        self.assertLessEqual({"refused 1 %d\n" % place for place, _ in fields}, told)
        doubles = [place for place, size in fields if size == 8]
        self.assertLessEqual({"refused 6 %d\n" % place for place in doubles}, told)

    def test_a_dot_product_is_not_fused(self):
        """One case tells a dot product whose first product is not rounded."""
        fused = "return float(sum(Fraction(x) * Fraction(y) for x, y in zip(a, b)))"
        edited = wrong_versions.edited(reference.text(), DOT, fused)
        wrong = reference.load("from fractions import Fraction\n" + edited)["lines"]
        dots = [(data, lines(data)) for _, data, *_ in flat_cases.dot_products()]
        self.assertTrue(any(wrong_versions.answer(wrong, data) != text for data, text in dots))


class Twins(unittest.TestCase):
    OPTIONS = types.SimpleNamespace(scenes=180, seed=1, only=None, bytes=300000)

    @staticmethod
    def asked(answer): return lambda scenes: [answer(data) for data in scenes]

    def test_drawn(self):
        found = flat_twins.counted(self.OPTIONS, self.asked(lines))
        self.assertGreater(sum(count["must"] for count in found.values()), 100)
        self.assertEqual(len(list(flat_twins.table(found))), len(made_scenes.CLASSES) + 2)

    def test_others_differ(self):
        only = types.SimpleNamespace(**dict(vars(self.OPTIONS), only="passed over", scenes=60))
        count = flat_twins.counted(only, self.asked(lines))["passed over"]
        self.assertGreater(min(count["must"], count["others"], count["differ"]), 0)

    def test_wrong_versions_are_told(self):
        for new in "return a[-1] * b[-1]", DOT.replace("b))", "b), 1.0 * (len(a) == FLAT))"):
            wrong = reference.load(wrong_versions.edited(reference.text(), DOT, new))["lines"]
            with self.assertRaises(flat_twins.Different):
                flat_twins.counted(self.OPTIONS, self.asked(wrong))

    def test_when_they_must(self):
        infinite = packing.flat(scene([fluid(1.0, particle([to(0, 0, 1e-200, (1.0, 0.0, 1.0))]))]))
        self.assertTrue(twins.must_agree(packing.flat(scene_a()), 2))
        self.assertFalse(twins.must_agree(infinite, 2))
        unswept = infinite[:3] + b"\0" + infinite[4:]      # without an iteration
        self.assertTrue(twins.must_agree(unswept, 2))

    def test_texts(self):
        solid = "fluid 0 1 a b c d e f g\nwall 0 0 a b c d\nwall 1 0 a\nclock a b c\n"
        flat = "fluid 0 1 a c d f g\nwall 0 0 a b d\nwall 1 0 a\nclock a b c\n"
        self.assertEqual(twins.flat_text(solid, 1), flat)
        for other in "step ranout 1 a 0\n", "refused 9 62\n":
            self.assertEqual(twins.flat_text(other, 0), other)

    def test_a_refused_particle_is_the_same(self):
        lonely, whole = packing.flat(scene([one(), one([])])), packing.flat(scene([one()]))
        self.assertEqual(twins.refusal(lonely, lines(lonely)), (9, 1))
        self.assertIsNone(twins.refusal(whole, lines(whole)))
        twin = packing.solid(lonely, 2)
        self.assertTrue(twins.same(lonely, 2, lines(lonely), lines(twin)))
        self.assertFalse(twins.same(lonely, 2, lines(lonely), "refused 9 62\n"))

    def test_command(self):
        words = ["flat_twins.py", "--scenes", "10", "--only", "nice"]
        with contextlib.redirect_stdout(io.StringIO()) as said:
            with mock.patch.object(sys, "argv", words):
                self.assertEqual(flat_twins.main(), 0)
        self.assertIn("nice", said.getvalue())


class Streams(unittest.TestCase):
    def test_axes_of_a_comparison(self):
        for axes, expected in (None, {SOLID, FLAT}), (FLAT, {FLAT}), (SOLID, {SOLID}):
            options = types.SimpleNamespace(scenes=72, seed=1, axes=axes, only=None)
            scenes = [(name, data) for name, data in compare.stream(options) if name != "damaged"]
            self.assertEqual({packing.axes_of(data) for _, data in scenes}, expected)

    def test_lists_lent(self):
        """1 + 2d answers, 5 + 3d doubles of work: those of a step with just so many."""
        data = packing.flat(scene_a())
        self.assertTrue(step(walk(data), answers=5, work=11).startswith("settled"))
        self.assertTrue(step(walk(under(data, 4, 3)), answers=5, work=12).startswith("settled"))
        for lent in {"answers": 4, "work": 11}, {"answers": 5, "work": 10}:
            self.assertEqual(lines(data, **lent), "refused 8 0\n")


if __name__ == "__main__":
    unittest.main()
