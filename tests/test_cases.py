"""The case programs' files are what checks/ works out, to the byte; what the cases say of averages
that are passed over, of versions and of rules; and the looks of cases_check at contact lists."""
import collections
import contextlib
import io
import itertools
import math
import pathlib
import struct
import sys
import unittest

ROOT = pathlib.Path(__file__).resolve().parent.parent
sys.path[:0] = [str(ROOT / "tools"), str(ROOT / "checks")]
import cases_check    # noqa: E402
import cases_clock    # noqa: E402
import cases_kernel   # noqa: E402
import cases_step     # noqa: E402
import made_scenes    # noqa: E402
import reference      # noqa: E402
import wrong_versions    # noqa: E402
from parts import limits, list_scenes, packing, rule_cases, sides, step_cases    # noqa: E402
from parts.branches import BRANCHES, IHMSEN, Branches    # noqa: E402
from parts.step_rules import FLAT, LONGEST, SOLID, lines    # noqa: E402
from parts.step_scenes import EMPTY, FORMS, changed, rich, scene_a, to, under    # noqa: E402
from parts.wrong_axes import AXES_VERSIONS    # noqa: E402
from parts.wrong_criteria import CRITERIA    # noqa: E402
from parts.wrong_endings import ENDINGS      # noqa: E402
from parts.wrong_reads import READS          # noqa: E402
from parts.wrong_sums import SUMS            # noqa: E402


class Files(unittest.TestCase):
    def test_step(self):
        for path, content in cases_step.files().items():
            self.assertTrue(path.read_bytes() == content, path)
        with contextlib.redirect_stdout(io.StringIO()) as said:
            self.assertEqual(cases_step.self_test(), 0, said.getvalue())

    def test_replay(self):
        for data, text in zip(*wrong_versions.recorded()):
            self.assertEqual(lines(data), text)

    def test_clock(self):
        for path, content in cases_clock.files().items():
            self.assertTrue(path.read_bytes() == content, path)

    def test_check(self):
        for path, content in cases_check.files().items():
            self.assertTrue(path.read_bytes() == content, path)

    def test_kernel(self):
        def squeezed(text): return "".join(text.split())      # rt fmt may break lines elsewhere
        crate = ROOT / "crates/cases_kernel"
        self.assertTrue((crate / "stdout").read_text() == cases_kernel.lines())
        listed = (crate / "src/cases.rt").read_text()
        self.assertEqual(squeezed(listed), squeezed(cases_kernel.source()))


class PassedOver(unittest.TestCase):
    """The fifth field: was an average passed over in the last iteration."""
    LINES = [(data, lines(data)) for _, data, *_ in cases_step.cases()]

    def test_fields(self):
        found = set()
        for words in [text.splitlines()[0].split(" ") for _, text in self.LINES]:
            if words[0] == "step":
                found.add((words[1], *words[4:]))
                self.assertEqual(len(words), 3 if words[1] == "unswept" else 5, words)
        self.assertEqual(found, {("unswept",), *itertools.product(("settled", "ranout"), "01")})

    def test_named_cases(self):
        named = [(comment, lines(data).splitlines()[0]) for comment, data, *_ in step_cases.passed_over()]
        self.assertEqual(len(dict(named)), len(named))
        for case in (
                ("the first of two passed over, settled", "step settled 1 3FF0000000000000 1"),
                ("and then is not-a-number, which becomes +0: passed over before, not at the end",
                 "step settled 2 0000000000000000 0"),
                ("settled since passed over", "step settled 2 0000000000000000 1"),
                ("infinite terms of both signs make no number", "step settled 1 0000000000000000 1"),
                ("an infinite average is not passed over", "step ranout 1 7FF0000000000000 0"),
                ("an empty fluid is not passed over", "step settled 2 0000000000000000 0"),
                ("not passed over without an iteration", "step unswept 0")):
            self.assertIn(case, named)

    def test_each_branch_is_met(self):
        seen = Branches(reference.text())
        met = set().union(*(seen.of(data) for _, data, *_ in step_cases.passed_over()))
        self.assertLessEqual({branch for branch in BRANCHES if "passed over" in branch}, met)


class Rules(unittest.TestCase):
    """Versions and rules: what is refused, what is the same, and rule 1."""

    def test_bytes_0_and_1(self):
        for first, second, line in (
                (0x00, 0x00, "2 0"), (0x10, 0x00, "accepted"), (0x10, 0x01, "2 1"), (0x10, 0x0F, "2 1"),
                (0x10, 0x91, "3 1"), (0x19, 0x01, "3 0"), (0x20, 0x00, "accepted"), (0x20, 0x01, "accepted"),
                (0x20, 0x02, "accepted"), (0x20, 0x03, "accepted"), (0x20, 0x04, "2 1"), (0x20, 0x0F, "2 1"),
                (0x20, 0x83, "1 52"), (0x20, 0x84, "2 1"), (0x20, 0x91, "3 1"), (0x20, 0x94, "3 1"),
                (0x10, 0x02, "2 1"), (0x10, 0x03, "2 1"), (0x29, 0x04, "3 0"), (0x30, 0x00, "2 0"),
                (0x39, 0x90, "2 0"), (0xF0, 0x01, "2 0")):
            data = bytes([first, second]) + EMPTY[2:]
            self.assertEqual(cases_check.line(data), line + "\n", data[:2].hex())
            text = "step settled 2 0000000000000000 0\n" if line == "accepted" else "refused %s\n" % line
            self.assertIn(text, lines(data), data[:2].hex())

    def test_rule_0_is_that_of_version_1(self):
        for data, text in PassedOver.LINES:
            if sides.form(data) == (1, 0):
                self.assertEqual(lines(under(data, 2, 0)), text)

    def test_named_cases(self):
        named = [(comment, lines(data).splitlines()[0]) for comment, data, *_ in rule_cases.of_ihmsen()]
        self.assertEqual(len(dict(named)), len(named))
        for case in (
                ("its first error", "step ranout 1 3FF0000000000000 0"),
                ("scene B by Ihmsen", "step settled 2 0000000000000000 0"),
                ("the empty scene by Ihmsen", "step settled 2 0000000000000000 0"),
                ("an error below 0 meets its own bits", "step settled 1 BFE0000000000000 0"),
                ("error -infinity meets the least limit", "step settled 2 FFF0000000000000 0"),
                ("average -0.5 between empty fluids", "step ranout 1 BFE0000000000000 0"),
                ("terms of -0, by a rest density below 0, make error +0", "step settled 2 0000000000000000 0"),
                ("the second of two averages not a number", "step ranout 1 7FF8000000000000 0"),
                ("not a number, then 0", "step settled 2 0000000000000000 0")):
            self.assertIn(case, named)

    def test_each_branch_is_met(self):
        seen = Branches(reference.text())
        met = set().union(*(seen.of(data) for _, data, *_ in rule_cases.of_ihmsen()))
        self.assertLessEqual({branch for branch in BRANCHES if branch.startswith(IHMSEN)}, met)

    def test_an_error_is_minus_zero_under_rule_3_alone(self):
        answered = PassedOver.LINES + [(data, lines(data)) for name in ("aimed", "zeros", "sums")
                                       for data in itertools.islice(made_scenes.made(1, name), 300)]
        found = {sides.form(data) for data, text in answered if "8000000000000000" in text.split("\n")[0].split(" ")}
        self.assertEqual(found, {(2, 3), (4, 3)})

    def test_each_class_has_all_forms(self):
        for name, axes in itertools.product(made_scenes.CLASSES, (SOLID, FLAT)):
            found = {sides.form(data) for data in itertools.islice(made_scenes.made(1, name, axes), 60)}
            self.assertLessEqual(set(FORMS[axes]), found, name)

    def test_limits_are_at_an_error(self):
        beside = collections.Counter()
        for data in itertools.islice(made_scenes.made(1, "limits"), 200):
            errors, (limit,) = limits.errors(data), struct.unpack(">d", data[20:28])
            if any(map(math.isfinite, errors)):
                lower, upper = math.nextafter(limit, -math.inf), math.nextafter(limit, math.inf)
                self.assertTrue({lower, limit, upper} & set(errors), data.hex())
                beside.update(["below 0"] if limit < 0.0 else [])
                beside.update(["at" if limit in errors else "above" if lower in errors else "below"])
        self.assertGreater(min(beside[place] for place in ("below 0", "at", "above", "below")), 10, beside)

    def test_lines_behind_the_first_are_the_rusts(self):
        """With a stand-in for the oracle, that answers rule 0 alone."""
        class Expected(sides.Expected):
            def rusts(self, scenes):
                return [sides.SKIPPED if "step" in text and sides.form(data)[1] > 0 else text
                        for data, text in zip(scenes, map(lines, scenes))]
        scenes, texts = zip(*PassedOver.LINES)
        self.assertEqual(Expected("no oracle").of(scenes), list(texts))


class Versions(unittest.TestCase):
    """Wrong versions of the step. That the recorded answers notice them takes longer:
    checks/wrong_versions.py."""

    def test_each_edit_fits(self):
        source = reference.text()
        for name, old, new, *_ in [*wrong_versions.NOTICED, *wrong_versions.SAME]:
            self.assertNotEqual(wrong_versions.edited(source, old, new), source, name)

    def test_cases_notice_those_of_the_end(self):
        for name, old, new in [*ENDINGS, *CRITERIA, *SUMS, *READS, *AXES_VERSIONS]:
            wrong = reference.load(wrong_versions.edited(reference.text(), old, new))["lines"]
            self.assertTrue(any(wrong_versions.answer(wrong, data) != text for data, text in PassedOver.LINES), name)


def why_lost(contact, models):
    """How a contact's name is beyond what is there, or None."""
    model, number, *_ = contact
    if model >= len(models):
        return {len(models): "next model", 15: "model 15"}.get(model, "model")
    count = len(models[model][1])
    return {count: "next particle", 4095: "particle 4095"}.get(number, "particle") if number >= count else None


def lists_of(scene):
    """The sort of each contact list in the order of the scene, and why each contact is lost."""
    fluids, walls = scene["fluids"], scene["walls"]
    found = [(sort, contacts, models) for _, particles in fluids for _, *both in particles
             for sort, contacts, models in zip(("with fluids", "with walls"), both, (fluids, walls))]
    found += [("kept" if keeps else "not kept", contacts, walls) for keeps, particles in walls
              for _, contacts in particles]
    return [(sort, [why_lost(contact, models) for contact in contacts]) for sort, contacts, models in found]


def answered():
    """Of each scene that is accepted or refused 7: the looks at the lists that passed, those at the
    refused one (a list of one or none), and all lists."""
    for data in cases_check.cases():
        verdict, *figures = cases_check.line(data).split()
        if verdict == "accepted":
            yield list(map(int, figures)), [], lists_of(packing.unpack(data))
        if verdict == "7":
            _, *passed, refused = map(int, figures)
            yield passed, [refused], lists_of(packing.unpack(data))


class Looks(unittest.TestCase):
    def test_figures_by_hand(self):
        lost, first, second = b"\xF0\0", 4, 5      # a name of model 15; the two lists of a particle of `crowded`
        for data, line in (
                (EMPTY, "accepted"), (scene_a(), "accepted 1 0"), (scene_a([]), "accepted 0 0"),
                (scene_a([to(0, 1, 2.0)]), "7 152 1"),
                (rich(), "accepted 2 1 1 0 2 1"), (rich()[:-1], "1 490"), (rich((2, 0)) + b"\0", "5 498"),
                *[(changed(rich(), at, lost), "7 %d %s" % (at, looks)) for at, looks in (
                    (162, "1"), (196, "2"), (230, "2 1"), (354, "2 1 1"), (439, "2 1 1 0 1"), (449, "2 1 1 0 2"),
                    (488, "2 1 1 0 2 1"))],
                (list_scenes.crowded({first: [(15, 0), (0, 0)], second: [(15, 0)]}), "7 590 2 1 0 4 1"),
                (list_scenes.crowded({first: [], second: [(0, 0), (15, 0)]}), "7 624 2 1 0 4 0 2"),
                (list_scenes.crowded({first: [(0, 0)] * 255, second: [(15, 0)]}), "7 9260 2 1 0 4 255 1")):
            self.assertEqual(cases_check.line(data), line + "\n")

    def test_looks_end_at_the_first_lost_contact(self):
        for passed, refused, lists in answered():
            self.assertEqual([(n, False) for n in passed], [(len(lost), any(lost)) for _, lost in lists[:len(passed)]])
            if refused:
                lost = lists[len(passed)][1]
                self.assertEqual([why is not None for why in lost[:refused[0]]], [False] * (refused[0] - 1) + [True])
            else:
                self.assertEqual(len(passed), len(lists))

    def test_every_sort_of_list_is_there(self):
        sorts = "with fluids", "with walls", "kept", "not kept"
        why = "next model", "model 15", "next particle", "particle 4095"
        sound, broken, behind = set(), set(), 0
        for passed, refused, lists in answered():
            sound |= {(sort, len(lost)) for sort, lost in lists[:len(passed)]}
            for n, (sort, lost) in zip(refused, lists[len(passed):]):
                broken.add((sort, (len(lost), n - 1), lost[n - 1]))
                behind += any(any(lost) for _, lost in lists[len(passed) + 1:])
        self.assertLessEqual(set(itertools.product(sorts, (0, 1, 255))), sound)
        self.assertLessEqual(set(itertools.product(sorts, ((1, 0), (255, 0), (255, 127), (255, 254)), why)), broken)
        self.assertGreater(behind, 4)      # scenes with a list that would be refused behind the one that is

    def test_scenes_are_not_too_long(self):
        self.assertEqual(max(map(len, cases_check.cases())), LONGEST)


if __name__ == "__main__":
    unittest.main()
