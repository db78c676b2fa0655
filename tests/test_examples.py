"""The scenes of examples/: packed, answered, and the chamber as its tool writes it."""
import itertools
import json
import math
import os
import pathlib
import re
import struct
import subprocess
import sys
import unittest

ROOT = pathlib.Path(__file__).resolve().parent.parent
sys.path[:0] = [str(ROOT / "tools"), str(ROOT / "checks")]
import chamber                              # noqa: E402
import lattice                              # noqa: E402
import scene                                # noqa: E402
import slot_coater                          # noqa: E402
from parts import step_rules, step_scenes   # noqa: E402

EXAMPLES = ROOT / "examples"
NAMES = sorted(path.stem for path in EXAMPLES.glob("*.json"))


# What a tool makes, and the wall whose load the README tells: the floor, the web.
CHAMBER, COATER = (chamber.chamber(), 0), (slot_coater.slot_coater(), 2)
LIMITS = (("salva", "0.05", 50), ("salva", "-1", 250), ("ihmsen2014", "0.001", 50),
          ("ihmsen2014", "0.0001", 50), ("ihmsen2014", "0.00001", 50))


def stopped(stopping, limit, most, made=CHAMBER):
    """The chamber or the coater, stopping so: after how many iterations, with what error, and the
    force on its wall, up."""
    named, wall = made
    how = {"stopping": stopping, "error_limit": limit, "most_iterations": most}
    text = json.dumps({**named, **how})
    read = step_rules.walk(scene.pack(text)[0])
    _, iterations, error, _ = step_rules.step(read).split()
    return (int(iterations), struct.unpack(">d", bytes.fromhex(error))[0],
            sum(w.force[-1] for w in read.walls[wall].particles))


def without_speeds(named, *walls):
    """The coater's JSON with these walls still or, where none is named, with everything still."""
    found = json.loads(json.dumps(named))
    models = [found["walls"][k] for k in walls] if walls else found["fluids"] + found["walls"]
    for p in (p for model in models for p in model["particles"]):
        p["velocity"] = [0, 0]
    return found


class Examples(unittest.TestCase):
    def test_each_is_packed_and_answered(self):
        self.assertEqual(NAMES, ["chamber", "lost-neighbour", "scene-a", "scene-a-flat", "scene-b",
                                 "scene-b-flat", "scene-b-ihmsen", "slot-coater", "slow-pair",
                                 "slow-pair-by-halves", "torn-droplet", "torn-droplet-faint",
                                 "torn-droplet-overflow"])
        for name in NAMES:
            data, text = (EXAMPLES / (name + ".bin")).read_bytes(), (EXAMPLES / (name + ".txt")).read_text()
            packed, notes = scene.pack((EXAMPLES / (name + ".json")).read_text())
            self.assertEqual((packed, len(notes)), (data, name == "lost-neighbour"))
            self.assertEqual(step_rules.lines(data), text)
            if "IISPH" in os.environ:      # the built program: IISPH=crates/iisph/out/iisph python3 -m unittest
                done = subprocess.run([os.environ["IISPH"]], input=data, capture_output=True)
                self.assertEqual(done.stdout.decode(), text)

    def test_two_are_what_their_tools_write(self):
        for name, (made, _), positions in (("chamber", CHAMBER, chamber.positions()),
                                           ("slot-coater", COATER, slot_coater.positions())):
            self.assertEqual((EXAMPLES / (name + ".json")).read_text(), scene.written(made) + "\n")
            self.assertEqual((EXAMPLES / (name + ".walls")).read_text(), positions)

    def test_they_stop_as_the_readme_says(self):
        text = (EXAMPLES / "README.md").read_text()
        for made in CHAMBER, COATER:
            for stopping, limit, most in LIMITS:
                row = stopping, limit, *stopped(stopping, float(limit), most, made)
                self.assertIn("\n| %s | %s | %d | %.2g | %.3e |\n" % row, text)

    def test_the_figures_beside_the_picture(self):
        said = re.search(r"after (\d+), with (\S+) N on the floor and error (\S+)\.\sBy the Rust's and its limit of "
                         r"0.05 they would settle after (\d+) with (\S+) N, where 250 give\s(\S+) N, while that error "
                         r"rises from (\S+) to (\S+) ", (ROOT / "README.md").read_text())
        paper, early, late = stopped("ihmsen2014", 1e-5, 50), stopped("salva", 0.05, 50), stopped("salva", -1, 250)
        found = paper[0], paper[2], paper[1], early[0], early[2], late[2], early[1], late[1]
        for word, x in zip(said.groups(), found, strict=True):
            self.assertAlmostEqual(float(word) / x, 1.0, delta=0.005)

    def test_by_the_rusts_error_it_stops_at_once_or_never(self):
        errors = [stopped("salva", -1, most)[1] for most in range(2, 20)]
        self.assertTrue(all(a < b for a, b in zip(errors, errors[1:])))
        self.assertEqual([stopped("salva", limit, 50)[0] for limit in (1, 0.0062, 0.0039, 0.0038)], [2, 2, 2, 50])

    def test_their_spline_is_the_specifications(self):
        for r, shape, fall in ((0.0, 1.0, 0.0), (0.5, 0.25, -1.5), (0.75, 0.03125, -0.375),
                               (1.0, 0.0, 0.0), (1.5, 0.0, 0.0)):
            for axes, normalizer in (2, (40.0 / 7.0) / math.pi), (3, 8.0 / math.pi):
                self.assertEqual((lattice.weight(r, 1.0, axes), lattice.slope(r, 1.0, axes)),
                                 (normalizer * shape, normalizer * fall))
        for h in 0.1, 3.0:
            self.assertEqual([lattice.normalizer(h, axes) for axes in (2, 3)],
                             [(40.0 / 7.0) / ((math.pi * h) * h), 8.0 / (((math.pi * h) * h) * h)])

    def test_weights_add_up_to_one_over_the_plane_and_over_space(self):
        for axes, around in ((2, itertools.product(range(-20, 21), repeat=2)),
                             (3, itertools.product(range(-10, 11), repeat=3))):
            h = 19.0 if axes == 2 else 9.0
            whole = sum(lattice.weight(math.hypot(*place), h, axes) for place in around)
            self.assertAlmostEqual(whole, 1.0, delta=0.002)

    def test_the_webs_speed_acts_through_the_ink_alone(self):
        coater, web = COATER
        moving, still = (scene.pack(json.dumps(named))[0]
                         for named in (coater, without_speeds(coater, web)))
        self.assertNotEqual(moving, still)
        self.assertEqual(step_rules.lines(moving), step_rules.lines(still))

    def test_what_the_readme_says_of_the_coater(self):
        text, (coater, web) = " ".join((EXAMPLES / "README.md").read_text().split()), COATER
        load, early, late, still = (stopped(*how, (named, web))[2] for how, named in (
            (("ihmsen2014", 1e-5, 50), coater), (("salva", 0.05, 50), coater),
            (("salva", -1, 250), coater), (("ihmsen2014", 1e-5, 50), without_speeds(coater))))
        self.assertIn("the web still carries %.0f %% of its load" % (100 * still / load), text)
        self.assertIn("0.001 %% gives %.1f %%" % (100 * load / late), text)
        self.assertEqual(round(late / early), 8)      # "an eighth"
        read = step_rules.walk((EXAMPLES / "slot-coater.bin").read_bytes())
        step_rules.step(read)
        ink = [p for _, p in read.all]
        densest, highest = (max(ink, key=lambda p: getattr(p, key)) for key in ("rho", "pressure"))
        above = 100.0 * (densest.rho / slot_coater.REST - 1.0)
        self.assertIn("up to %.1f %% above its rest density" % above, text)
        mouth = slot_coater.LATTICE.position((slot_coater.LIP, slot_coater.GAP - 1))
        self.assertLess(math.dist(highest.position, mouth), slot_coater.LATTICE.apart)

    def test_the_lost_neighbour_is_met_at_the_second_look(self):
        lines, refusals = scene.looks((EXAMPLES / "lost-neighbour.bin").read_bytes())
        self.assertEqual(lines.splitlines()[-1], "   276  fluid 0, particle 1, fluid contacts: 2 looks at 3 contacts")
        self.assertEqual([refusal.split(":")[0] for refusal in refusals], ["refusal 7 at 310"])

    def test_the_faint_droplet_hides_a_coefficient(self):
        read = step_rules.walk((EXAMPLES / "torn-droplet-faint.bin").read_bytes())
        step_rules.step(read)
        drop = read.all[2][1]
        self.assertTrue(drop.rho > 0.0 and math.isnan(drop.aii) and drop.pressure == 0.0
                        and all(map(math.isfinite, [*drop.position, *drop.velocity])))

    def test_the_overflowing_droplet_hides_the_error_of_the_pair(self):
        read = step_rules.walk((EXAMPLES / "torn-droplet-overflow.bin").read_bytes())
        ending, terms = step_rules.step(read), [p.term for _, p in read.all]
        self.assertEqual((ending, terms[:2]), ("settled 2 0000000000000000 1", [2.0, 2.0]))
        self.assertTrue(math.isnan(terms[2]) and read.all[2][1].pressure == math.inf)

    def test_scenes_a_and_b_have_their_answers_in_the_plane_too(self):
        for name, kept in ("scene-a", (0, 2)), ("scene-b", (0, 1)):      # axes that become x and y
            solid, flat = ((EXAMPLES / (name + end)).read_text().splitlines()
                           for end in (".txt", "-flat.txt"))
            self.assertEqual(solid[:2], flat[:2])
            for line, found in zip(solid[2:], flat[2:], strict=True):
                *owner, pressure = line.split()
                vectors = [owner[3 + axis:][part] for part in (0, 3) for axis in kept]
                self.assertEqual(found.split(), [*owner[:3], *vectors, pressure])

    def test_scene_b_ends_alike_by_both_criteria_but_sooner_by_the_papers(self):
        (rust, answer), (paper, same) = ((EXAMPLES / (name + ".txt")).read_text().split("\n", 1)
                                         for name in ("scene-b", "scene-b-ihmsen"))
        self.assertEqual((rust, paper), ("step ranout 50 4000000000000000 0", "step settled 2 0000000000000000 0"))
        self.assertEqual(answer, same)

    def test_the_slow_pair_is_lost_in_order_and_not_by_halves(self):
        found = []
        for name in "slow-pair", "slow-pair-by-halves":
            text, data = (EXAMPLES / (name + ".txt")).read_text(), (EXAMPLES / (name + ".bin")).read_bytes()
            read = step_rules.walk(data)
            step_rules.step(read)
            self.assertEqual([p.term for _, p in read.all], [2.0, 2.0, 2.0**-51, 2.0**-51])
            limited = step_scenes.changed(data, 20, step_scenes.doubles(1.0))
            found.append((*text.split("\n", 1), step_rules.lines(limited).split()[1:3], data[:1] + data[2:]))
        (lost, answer, settled, bytes_but_1), (kept, *others) = found
        self.assertEqual((lost, kept), ("step ranout 50 3FF0000000000000 0", "step ranout 50 3FF0000000000001 0"))
        self.assertEqual(settled, ["settled", "2"])
        self.assertEqual(others, [answer, ["ranout", "50"], bytes_but_1])


if __name__ == "__main__":
    unittest.main()
