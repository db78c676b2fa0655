"""docs/crates.svg is what crates.txt gives; and checks/crate_picture.py on small lists."""
import contextlib
import functools
import io
import itertools
import pathlib
import sys
import tempfile
import unittest
import xml.etree.ElementTree as ElementTree
from unittest import mock

ROOT = pathlib.Path(__file__).resolve().parent.parent
sys.path[:0] = [str(ROOT / "tools"), str(ROOT / "checks")]
import crate_picture as picture   # noqa: E402
from parts import layout          # noqa: E402

# The arrows of `late` and `last` pass three rows; that of `odd` leads up, to a later section.
SMALL = """# What each builds on.
# ---- low & lower
ground:
floor: ground io      # and the kit
odd: late
# ---- middle
wall: floor ground
roof staticlib: wall floor libc
# ---- high
far: ground roof other
late: ground
last: ground
"""


@functools.cache
def listed(text=None): return picture.parsed(picture.LIST.read_text() if text is None else text)


@functools.cache
def planned(text=None): return picture.laid_out(listed(text))


def along(points):
    """Points on an arrow's line, close to each other."""
    for k, ((a, b), (c, d)) in enumerate(itertools.pairwise(points)):
        for t in (n / 40 for n in range(41)):
            aside = t * t * (3 - 2 * t)      # of the curve over a gap, whose ends are upright
            down = 1.5 * t * (1 - t) + t ** 3 if k % 2 == 0 else t
            yield a + (c - a) * aside, b + (d - b) * down


class Reading(unittest.TestCase):
    def test_sections_and_what_builds_on_what(self):
        found = listed(SMALL)
        self.assertEqual(found.sections, {
            "low & lower": ["ground", "floor", "odd"], "middle": ["wall", "roof"],
            "high": ["far", "late", "last"]})
        self.assertEqual(found.builds_on["roof"], ["wall", "floor"])
        self.assertEqual(found.unlisted, {"other": ["far"]})

    def test_a_list_that_is_wrong(self):
        for text, piece in (("", "lists no crate"), ("a:\nb a\n", "line 2: give a crate, a colon"),
                            ("a:\n# ---- x\na:\n", "line 3: a has a line already")):
            with self.assertRaisesRegex(picture.Wrong, piece):
                picture.parsed(text)
        for others in ["a"], ["b"]:
            with self.assertRaisesRegex(picture.Wrong, "circle through a"):
                picture.direct({"a": others, "b": ["a"]})


class Arrows(unittest.TestCase):
    def test_implied_ones_are_left_out(self):
        builds_on = {"a": [], "b": ["a"], "c": ["a", "b"], "d": ["a"], "e": ["a", "c", "d", "b"]}
        self.assertEqual(picture.direct(builds_on),
                         {"a": [], "b": ["a"], "c": ["b"], "d": ["a"], "e": ["c", "d"]})

    def test_none_is_lost_and_none_is_idle(self):
        builds_on = listed().builds_on
        arrows, below = picture.direct(builds_on), picture.all_below(builds_on)
        self.assertEqual(picture.all_below(arrows), below)
        for crate, others in arrows.items():
            for other in others:
                fewer = dict(arrows, **{crate: [o for o in others if o != other]})
                self.assertNotIn(other, picture.all_below(fewer)[crate])


class Plan(unittest.TestCase):
    def both(self):
        for text in None, SMALL, "a:\nb: a\n":
            yield listed(text), planned(text)

    def test_boxes_stand_apart_and_in_their_bands(self):
        for crates, plan in self.both():
            self.assertEqual(set(plan.boxes), set(crates.builds_on))
            sides = {c: (x, x + wide, y, y + high) for c, (x, y, wide, high) in plan.boxes.items()}
            for (_, one), (_, other) in itertools.combinations(sides.items(), 2):
                apart = [one[k + 1] < other[k] or other[k + 1] < one[k] for k in (0, 2)]
                self.assertTrue(any(apart), (one, other))
            self.assertEqual([band.name for band in plan.bands], list(crates.sections)[::-1])
            for band in plan.bands:
                for crate in crates.sections[band.name]:
                    left, top, wide, high = plan.boxes[crate]
                    self.assertTrue(band.top < top and top + high < band.bottom)
                    self.assertTrue(0 < left and left + wide < plan.width)
                    self.assertGreater(wide, 7.9 * len(crate))

    def test_arrows_lead_from_box_to_box_and_through_none(self):
        for crates, plan in self.both():
            arrows = picture.direct(crates.builds_on)
            self.assertEqual(set(plan.routes), {(c, o) for c in arrows for o in arrows[c]})
            for (crate, other), points in plan.routes.items():
                (left, top, wide, high), (x, y, w, h) = plan.boxes[crate], plan.boxes[other]
                down = crate != "odd"
                self.assertEqual(top + high < y, down)
                self.assertEqual(points[0], (left + wide // 2, top + high * down))
                self.assertEqual(points[-1], (x + w // 2, y + h * (not down)))
                for a, b in along(points):
                    for name, (x, y, w, h) in plan.boxes.items():
                        self.assertFalse(x < a < x + w and y < b < y + h, (crate, other, name))

    def test_arrows_to_the_same_crate_join(self):
        late, last = (planned(SMALL).routes[crate, "ground"] for crate in ("late", "last"))
        self.assertEqual(len(late), 2 + 2 * 3)
        self.assertEqual(late[1:], last[1:])
        self.assertNotEqual(late[0], last[0])

    def test_orders_without_crossings_are_found(self):
        rows = [["a", "b", "c"], ["x", "y", "z"]]
        links = [[("x", "c"), ("y", "a"), ("z", "b"), ("z", "a")]]
        self.assertEqual(layout.crossings(rows, links), 3)
        for order in [layout.swept(rows, links), *layout.orders(rows, links)]:
            self.assertEqual(layout.crossings(order, links), 0)

    def test_places_have_the_least_strain(self):
        widths = dict.fromkeys("abcd", 3 - layout.BESIDE)      # so that they stand 3 apart
        pulls = {("c", "a"): 2, ("c", "b"): 1, ("d", "a"): 5}
        found = layout.placed([["a", "b"], ["c", "d"]], pulls, widths)
        self.assertTrue(found["b"] - found["a"] >= 3 and found["d"] - found["c"] >= 3)
        least = min(layout.strain(dict(a=8, b=b, c=c, d=d), pulls)
                    for b in range(11, 17) for c in range(17) for d in range(c + 3, 20))
        self.assertEqual(layout.strain(found, pulls), least)


class File(unittest.TestCase):
    def test_it_is_what_the_list_gives(self):
        self.assertTrue(picture.PICTURE.read_text(encoding="utf-8") == picture.svg(listed()),
                        "docs/crates.svg is old; write it again with checks/crate_picture.py")

    def test_it_shows_every_crate_section_and_arrow(self):
        root = ElementTree.fromstring(picture.svg(listed(SMALL)))
        tag = "{http://www.w3.org/2000/svg}"
        texts = [text.text for text in root.iter(tag + "text")]
        for name in [*listed(SMALL).sections, *listed(SMALL).builds_on]:
            self.assertEqual(texts.count(name), 1, name)
        titles = [title.text for title in root.iter(tag + "title")]
        arrows = ["far → roof", "floor, late, last → ground", "odd → late", "roof → wall",
                  "wall → floor"]
        self.assertEqual(sorted(titles[1:]), arrows)
        sizes = [float(size) for e in root.iter() for size in [e.get("font-size")] if size]
        self.assertTrue(sizes and min(sizes) >= 12)
        self.assertEqual(root.find(tag + "rect").get("fill"), "#ffffff")

    def called(self, *arguments):
        with contextlib.redirect_stdout(io.StringIO()) as out, contextlib.redirect_stderr(out), \
                mock.patch.object(sys, "argv", ["crate_picture.py", *arguments]):
            return picture.main(), out.getvalue()

    def test_check(self):
        with tempfile.TemporaryDirectory() as folder:
            crates, drawn = pathlib.Path(folder) / "crates.txt", pathlib.Path(folder) / "crates.svg"
            crates.write_text(SMALL)
            with mock.patch.multiple(picture, LIST=crates, PICTURE=drawn):
                self.assertEqual(self.called("--check")[0], 1)
                self.assertEqual(self.called()[0], 0)
                status, said = self.called("--check")
                self.assertEqual(status, 0)
                self.assertIn("other has no line and is left out; on it build far", said)
                crates.write_text(SMALL + "late_too: late\n")
                self.assertEqual(self.called("--check")[0], 1)
                crates.write_text("a: a\n")
                status, said = self.called()
                self.assertEqual((status, "in a circle through a" in said), (2, True))
                crates.unlink()
                self.assertEqual(self.called("--check")[0], 2)


if __name__ == "__main__":
    unittest.main()
