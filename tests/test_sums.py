"""Sums by halves: what the cases say of them, that nothing but the error hangs on the summation, and
checks/archive_steps.py with a stand-in for an archive."""
import contextlib
import io
import itertools
import math
import pathlib
import sys
import unittest
from unittest import mock

ROOT = pathlib.Path(__file__).resolve().parent.parent
sys.path[:0] = [str(ROOT / "tools"), str(ROOT / "checks")]
import archive_steps    # noqa: E402
import cases_step       # noqa: E402
import made_scenes      # noqa: E402
import reference        # noqa: E402
import rule_pairs       # noqa: E402
from parts import packing, sum_cases    # noqa: E402
from parts.branches import BRANCHES, HALVES, Branches    # noqa: E402
from parts.step_rules import Refused, bits, by_halves, lines, needed, step, walk    # noqa: E402
from parts.step_scenes import pair, rich, scene, scene_a, under    # noqa: E402

ALL = [data for _, data, *_ in cases_step.cases()]


class Cases(unittest.TestCase):
    def test_by_hand(self):
        class Shown(str):
            def __add__(self, other): return Shown("(%s%s)" % (str(self), str(other)))
        for n, shape in ((1, "a"), (2, "(ab)"), (3, "(a(bc))"), (4, "((ab)(cd))"), (5, "((ab)(c(de)))"),
                         (6, "((a(bc))(d(ef)))"), (7, "((a(bc))((de)(fg)))"), (9, "(((ab)(cd))((ef)(g(hi))))")):
            self.assertEqual(by_halves([Shown(letter) for letter in "abcdefghi"[:n]]), shape)
        self.assertEqual(bits(by_halves([-0.0])), "8000000000000000")

    def test_named_cases(self):
        named = [(comment, lines(data).splitlines()[0]) for comment, data, *_ in sum_cases.sums()]
        self.assertEqual(len(dict(named)), len(named))
        for case in (
                ("3 terms, the first large, rule 0", "step ranout 1 4335555555555555 0"),
                ("3 terms, the first large, rule 2", "step ranout 1 4335555555555557 0"),
                ("the sum in order is above the limit, rule 1", "step ranout 1 4335555555555557 0"),
                ("the sum in order is above the limit, rule 3", "step settled 1 4335555555555555 0"),
                ("one term of -0, rule 1", "step ranout 1 0000000000000000 0"),
                ("one term of -0, rule 3", "step ranout 1 8000000000000000 0"),
                ("terms of -0: 1, limit 0.0, rule 3", "step settled 2 8000000000000000 0"),
                ("averages +0 and -0, rule 3", "step ranout 1 0000000000000000 0"),
                ("one term of -0 by Salva, rule 2", "step ranout 1 0000000000000000 0"),
                ("infinite halves of both signs, 10 terms, rule 0", "step ranout 1 7FF0000000000000 0"),
                ("infinite halves of both signs, 10 terms, rule 2", "step settled 1 0000000000000000 1"),
                ("infinite halves of both signs, 10 terms, rule 3", "step ranout 1 7FF8000000000000 0")):
            self.assertIn(case, named)

    def test_each_branch_is_met(self):
        seen = Branches(reference.text())
        met = set().union(*(seen.of(data) for _, data, *_ in sum_cases.sums()))
        self.assertLessEqual({branch for branch in BRANCHES if branch.startswith(HALVES)}, met)

    def test_drawn_sums_hang_on_the_summation(self):
        drawn = list(itertools.islice(made_scenes.made(1, "sums"), 200))
        for rules in rule_pairs.PAIRS:
            first = [[lines(under(data, 2, rule)).split("\n")[0] for data in drawn] for rule in rules]
            self.assertGreater(sum(a != b for a, b in zip(*first)), 20, rules)

    def test_drawn_counts(self):
        found = [max(len(particles) for _, particles in packing.unpack(data)["fluids"])
                 for data in itertools.islice(made_scenes.made(1, "many"), 60)]
        self.assertEqual(max(found), 4096)
        self.assertLess(min(found), 10)
        self.assertTrue(any(n > 2 and n & (n - 1) for n in found) and any(n > 2 and not n & (n - 1) for n in found))


class Pairs(unittest.TestCase):
    """Nothing but the error hangs on the summation."""

    def test_cases(self):
        scenes = [data for data in ALL if 3 < len(data) < 1000]
        kinds = {kind for _, (kind, _) in rule_pairs.pairs_of(scenes, lambda some: list(map(lines, some)))}
        self.assertLessEqual({"none", "same", "1", "near", "not finite"}, kinds)

    def test_distances(self):
        def text(error, flag=0): return "step ranout 1 %s %d\nclock\n" % (bits(error), flag)
        for one, other, found in (
                (text(1.0), text(1.0), ("same", 0)), (text(1.0), text(1.0 + 2.0**-52), ("1", 1)),
                (text(0.0), text(-0.0), ("1", 0)), (text(5e-324), text(-5e-324), ("near", 2)),
                (text(-1.0), text(-1.0 - 2.0**-49), ("near", 8)), (text(1.0), text(1.0 + 9 * 2.0**-52), ("far", 9)),
                (text(1.0), text(math.inf), ("not finite", 0)), (text(0.0), text(0.0, 1), ("not finite", 0)),
                ("refused 9 62\n", "refused 9 62\n", ("none", 0))):
            self.assertEqual(rule_pairs.difference(b"", one, other), found)
        for other in "step ranout 1 0000000000000000 0\nclock 1\n", "step ranout 2 0000000000000000 0\nclock\n":
            with self.assertRaises(rule_pairs.Different):
                rule_pairs.difference(b"", text(0.0), other)

    def test_the_command(self):
        def rows(*arguments):
            with contextlib.redirect_stdout(io.StringIO()) as said, \
                    mock.patch.object(sys, "argv", ["rule_pairs.py", *arguments]):
                self.assertEqual(rule_pairs.main(), 0)
            return [line.split() for line in said.getvalue().splitlines()[1:]]
        both = ["0", "and", "2"], ["1", "and", "3"]
        self.assertEqual([row[:5] for row in rows("--only", "sums", "--scenes", "40")],
                         [["sums", *rules, "40"] for rules in both])
        several = rows("--scenes", "60")
        self.assertEqual([row[:4] for row in several[-2:]], [["all", *rules] for rules in both])
        self.assertEqual(2 * int(several[-1][4]), sum(int(row[-7]) for row in several[:-2]))


class StandIn:
    """A library that steps by the reference; what it does wrong is told by `fault`."""

    def __init__(self, fault=None):
        self.fault = fault

    def refused(self, e, counts):
        counts[1] = e.args[1]
        return 100 + e.args[0]

    def iisph_needed(self, data, _, counts, __):
        try:
            s = walk(data)
        except Refused as e:
            return self.refused(e, counts)
        counts[:] = needed(s)
        return 0

    def iisph_step(self, data, _, answers, __, work, ___, numbers, ____, counts, *_____):
        s = walk(data)
        _, work_needed = needed(s)
        try:
            ending, *figures = step(s).split(" ")
        except Refused as e:
            work[:work_needed] = [0.0] * work_needed
            answers[0] = 0.0 if self.fault == "answers after a refusal" else answers[0]
            return self.refused(e, counts)
        found = [x for _, p in s.all for x in (*p.position, *p.velocity, p.pressure)]
        found += [x for w in s.stones for x in (w.volume, *(w.force or ()))]
        answers[:len(found)], work[:work_needed] = found, [-0.0 if self.fault == "work" else 0.0] * work_needed
        answers[len(found)] = 2.5 if self.fault == "past the answers" else answers[len(found)]
        counts[:] = [int(figures[0]), int(figures[2]) if figures[1:] else 0]
        numbers[:] = [rule_pairs.number(figures[1]) if figures[1:] else 0.0, s.dt, s.inv_dt, s.remaining]
        return ["unswept", "settled", "ranout"].index(ending)


class Archive(unittest.TestCase):
    def test_lines(self):
        answer = reference.answering(any_length=True)
        for data in ALL:
            self.assertEqual(archive_steps.text(StandIn(), data), answer(data))

    def test_faults(self):
        for fault, data in (("work", scene_a()), ("past the answers", under(rich(), 2, 3)),
                            ("answers after a refusal", scene([pair(speed=-0.5)]))):
            with self.assertRaises(reference.Stop, msg=fault):
                archive_steps.text(StandIn(fault), data)

    def test_codes(self):
        with self.assertRaises(reference.Stop):
            archive_steps.refusal(99, [0, 0])
        self.assertEqual(archive_steps.refusal(110, [0, 62]), (10, "refused 10 62\n"))


if __name__ == "__main__":
    unittest.main()
