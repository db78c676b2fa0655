"""Answers of flat scenes, five numbers for a fluid particle: how tools/answers.py reads and writes
them. What is said of every number of axes is tested for two and for three."""
import json
import math
import random
import tempfile
import unittest
import xml.etree.ElementTree as ElementTree

from tests.test_answer_warnings import FLAGS, UNTOLD, flagged, printed
from tests.test_answers import CHAMBER, EXAMPLES, answers, command, commands, done, refused
from tests.test_answers import scene, step_rules, step_scenes
from tests.test_stopping import STOPPINGS, SUMMATIONS, written

FILE, HELD = EXAMPLES / "slot-coater.txt", ["--scene", EXAMPLES / "slot-coater.bin"]
COATER, WALLS = FILE.read_text(), EXAMPLES / "slot-coater.walls"
UNREAL = math.nan, math.inf, -math.inf, -0.0, 5e-324, -1.7e308
SETTLED = "step settled 2 0000000000000000 0\n"
CLOCK = "clock 3FF0000000000000 3FF0000000000000 0000000000000000\n"


def line(kind, model, number, *xs):
    return " ".join([kind, str(model), str(number), *map(step_rules.bits, xs)]) + "\n"


def ones(kind, n, number=0, model=0):
    """A line with n doubles."""
    return line(kind, model, number, *[1.0] * n)


def drawn(axes, draw):
    """An answer of so many axes: two fluids, a wall that keeps forces and one that does not."""
    def numbers(n):
        return [draw.choice([draw.uniform(-1.0, 1.0), draw.choice(UNREAL)]) for _ in range(n)]

    text, all_six = SETTLED + CLOCK, [(m, k) for m in range(2) for k in range(3)]
    for m, k in all_six:
        text += line("fluid", m, k, *numbers(1 + 2 * axes))
    for m, k in all_six:
        text += line("wall", m, k, *numbers(1 if m else 1 + axes))
    return text


def in_coater(held=False):
    answer = answers.parse(COATER)
    if held:
        answers.hold(answer, HELD[1].read_bytes(), "its scene")
    answers.place_walls(answer, WALLS.read_text(), "slot-coater.walls")
    return answer


class Reading(unittest.TestCase):
    def refused(self, text, message):
        with self.assertRaises(commands.Wrong) as raised:
            answers.parse(SETTLED + CLOCK + text)
        self.assertTrue(str(raised.exception).startswith(message), raised.exception)

    def test_csv_and_json_keep_every_double(self):
        draw = random.Random(4)
        for text in [drawn(axes, draw) for axes in (2, 3) for _ in range(20)]:
            answer, found = answers.parse(text), SETTLED + CLOCK
            for row in answers.csv(answer).splitlines()[1:]:
                cells = [cell for cell in row.split(",") if cell]
                found += line(*cells[:3], *map(float, cells[3:]))
            self.assertEqual(found, text)
            found = json.loads(answers.json(answer), parse_constant=self.fail)
            self.assertEqual(printed(found), text)

    def test_csv_and_table_have_a_column_for_each_axis(self):
        for axes, names in (2, "xy"), (3, "xyz"):
            answer = answers.parse(drawn(axes, random.Random(5)))
            v, f = (["%s%s" % (letter, axis) for axis in names] for letter in "vf")
            rows = [row.split(",") for row in answers.csv(answer).splitlines()]
            self.assertEqual(rows[0], ["kind", "model", "particle", *names, *v, "pressure",
                                       "volume", *f])
            self.assertEqual({len(row) for row in rows}, {5 + 3 * axes})
            rows = [row.split() for row in answers.table(answer).splitlines()]
            for head in (["fluid", "particle", *names, *v, "pressure"],
                         ["wall", "particle", "volume", *f]):
                self.assertEqual(rows.count(head), 1)

    def test_the_table_adds_forces_up_along_each_axis(self):
        rows = [row.split() for row in answers.table(in_coater()).splitlines()]
        at = rows.index(["wall", "fx-in-all", "fy-in-all"])
        for m, row in enumerate(rows[at + 1:at + 4]):
            forces = [w.force for w in in_coater().wall if w.model == m]
            self.assertEqual(row, [str(m), *("%.6g" % sum(along) for along in zip(*forces))])

    def test_lines_of_other_axes_are_refused(self):
        said = ("line %d is of %s axes, but those before it are of %s, so it is damaged or of "
                "another answer; give the whole output of tools/run")
        flat, solid = (ones("fluid", n) + ones("fluid", n, 1) for n in (5, 7))
        for before, after, there, words in ((flat, 7, 4, ("three", "two")),
                                            (solid, 5, 3, ("two", "three"))):
            self.refused(before + ones("fluid", after, 2), said % (5, *words))
            self.refused(before + ones("wall", there), said % (5, *words))
            self.refused(before + ones("wall", 1) + ones("wall", there, 0, 1), said % (6, *words))
        self.refused(ones("wall", 3) + ones("wall", 4, 0, 1), said % (4, "three", "two"))
        self.refused(ones("wall", 1) + ones("wall", 3, 1), "line 4: wall 0 has forces in some")

    def test_lines_of_no_axes_are_refused(self):
        for kind, lengths in ("fluid", {5, 7}), ("wall", {1, 3, 4}):
            for n in {*range(12)} - lengths:
                self.refused(ones(kind, n), "line 3 is none that the program writes")

    def test_the_scene_has_as_many_axes(self):
        for text, name, words in (("slot-coater", "scene-a", ("two", "three")),
                                  ("scene-a", "scene-a-flat", ("three", "two"))):
            data = EXAMPLES / (name + ".bin")
            status, said = refused("table", EXAMPLES / (text + ".txt"), "--scene", data)
            self.assertEqual((status, said.count("\n")), (1, 1))
            self.assertIn("the answer has lines of %s axes, but the scene %s is of %s; is it the "
                          "answer of this scene, and whole?" % (words[0], data, words[1]), said)
        for name in "scene-a-flat", "scene-b-flat", "slot-coater":
            text, data = (EXAMPLES / (name + end) for end in (".txt", ".bin"))
            status, out, said = done("table", text, "--scene", data)
            self.assertEqual((status, said, "held against the scene: " in out), (0, "", True))

    def test_where_no_line_tells_the_scene_does(self):
        named = {"version": 4, "stopping": "salva", "step_length": 1, "remaining_time": 1,
                 "error_limit": 1, "walls": [{"particles": [{}]}]}
        answer = answers.parse(SETTLED + CLOCK + ones("wall", 1))
        self.assertTrue(answers.csv(answer).startswith("kind,model,particle,x,y,z,vx,vy,vz,"))
        advice = "three decimals, .*; if the scene is flat, add --scene SCENE.bin$"
        with self.assertRaisesRegex(commands.Wrong, advice):
            answers.place_walls(answer, "0 0 1 2", "walls")
        answers.hold(answer, scene.pack(json.dumps(named))[0], "its scene")
        self.assertTrue(answers.csv(answer).startswith("kind,model,particle,x,y,vx,vy,"))
        answers.place_walls(answer, "0 0 1 2", "walls")
        self.assertEqual(answer.wall[0].position, [1.0, 2.0])

    def test_lists_that_were_too_short(self):
        with self.assertRaises(commands.Wrong) as raised:
            answers.parse("refused 8 0\n")
        for lengths in ("three", 7, 4, 14, 15), ("two", 5, 3, 11, 12):
            self.assertIn("\nfor a scene of %s axes lend an answer list of %d doubles for each "
                          "fluid particle, and for each wall particle 1, or %d where forces are "
                          "kept; and a work list of %d for each fluid particle, or %d where "
                          "errors are summed by halves, and 1 for each wall particle\n" % lengths,
                          str(raised.exception))


class Files(unittest.TestCase):
    def test_wall_positions_have_as_many_axes(self):
        for text, walls, piece in ((COATER, "0 0 1 2 3", "two decimals, as in: 0 3 0 -1"),
                                   (COATER, "0 0 1", "two decimals, as in: 0 3 0 -1"),
                                   (COATER, "", "add a line: 0 0 X Y"),
                                   (CHAMBER, "0 0 1 2", "three decimals, as in: 0 3 0.5 0 -1"),
                                   (CHAMBER, "", "add a line: 0 0 X Y Z")):
            with self.assertRaisesRegex(commands.Wrong, piece + "$"):
                answers.place_walls(answers.parse(text), walls, "walls")
        status, _, said = done("svg", FILE, "-", *HELD)
        self.assertEqual((status, said.split("; ")[1:]),
                         (0, ["add a file with lines: WALL PARTICLE X Y\n"]))

    def test_vtk_has_z_0_and_says_so(self):
        answer = in_coater(held=True)
        for text, particles, vectors in ((answers.fluid_vtk(answer), answer.fluid, "velocity"),
                                         (answers.wall_vtk(answer), answer.wall, "force")):
            rows, n = text.splitlines(), len(particles)
            self.assertEqual(rows[1].split(" ", 1)[1],
                             "particles after a pressure step, held against the scene, stopping "
                             "by ihmsen2014, summed in order, flat: z = 0")
            points = rows.index("POINTS %d double" % n) + 1
            last = rows.index("VECTORS %s double" % vectors) + 1
            for k, p in enumerate(particles):
                self.assertEqual([float(x) for x in rows[points + k].split()], [*p.position, 0.0])
                self.assertEqual([float(x) for x in rows[last + k].split()],
                                 [*(getattr(p, vectors) or [0.0, 0.0]), 0.0])
            self.assertEqual(len(rows), last + n)
        self.assertNotIn("flat", answers.fluid_vtk(answers.parse(CHAMBER)))

    def test_vtk_titles_fit(self):
        rest = COATER.split("\n", 1)[1]
        no_number = "step ranout 50 %s 0\n" % step_rules.bits(math.nan) + rest
        for text in [no_number, *(flagged(flag, COATER) for flag in FLAGS)]:
            answer = answers.parse(text)
            answer.held, answer.stopping, answer.summation = True, "ihmsen2014", "by halves"
            title = answers.fluid_vtk(answer).split("\n")[1]
            self.assertTrue(len(title) < 256 and "flat: z = 0" in title, title)
            self.assertEqual(UNTOLD in title, text == flagged("", COATER))

    def test_every_output_names_the_rule(self):
        for rule in range(4):
            words = [STOPPINGS[rule % 2], SUMMATIONS[rule // 2]]
            named = "stopping by %s, summed %s" % tuple(words)
            data = (EXAMPLES / "scene-b-flat.bin").read_bytes()
            of = written(step_scenes.under(data, 4, rule))
            self.assertEqual({(status, said) for status, _, said in of.values()}, {(0, "")})
            first = ElementTree.fromstring(of["svg"][1]).find("{*}text").text
            self.assertEqual(first, of["table"][1].split("\n")[0])
            self.assertEqual(first.split(", ", 2)[2], named)
            self.assertEqual([row.split(",")[11:] for row in of["csv"][1].splitlines()],
                             [["stopping", "summation"], words, words])
            found = json.loads(of["json"][1])
            self.assertEqual([found["stopping"], found["summation"]], words)
            self.assertIn(", held against the scene, %s, flat: z = 0\n" % named, of["vtk"][1])

    def test_every_output_of_the_coater(self):
        with tempfile.TemporaryDirectory() as folder:
            for kind, name in ("csv", "-"), ("json", "-"), ("vtk", folder + "/a"), ("svg", "-"):
                status, _, said = done(kind, FILE, name, WALLS, *HELD)
                self.assertEqual((status, said), (0, ""), kind)


class Pictures(unittest.TestCase):
    def test_the_coater(self):
        text, notes = answers.picture(in_coater(held=True))
        self.assertEqual((text, notes), ((EXAMPLES / "slot-coater.svg").read_text(), []))
        self.assertEqual(command("svg", FILE, "-", WALLS, *HELD), (0, text, ""))
        root = ElementTree.fromstring(text)
        self.assertEqual(len(root.findall("{*}g/{*}circle")), 57)
        words = [node.text for node in root.iter("{http://www.w3.org/2000/svg}text")]
        self.assertEqual(words[1], "x to the right, y up; of particles at one place the highest "
                                   "pressure shows, and wall forces are added up")
        self.assertEqual([word for word in words if word.startswith("left out")], [])

    def test_x_goes_right_and_y_up(self):
        answer = in_coater()
        self.assertEqual(answers.picture(answer), answers.picture(answer, "xy"))
        answer.fluid, answer.wall = answer.fluid[:2], []
        first, second = answer.fluid      # in which order they are drawn, by their pressures
        first.position, first.pressure, second.pressure = [0.0, 0.0], 0.0, 1.0
        for position in [1.0, 0.0], [0.0, 1.0], [-1.0, 2.0]:
            second.position = position
            drawing = ElementTree.fromstring(answers.picture(answer)[0])
            (x, y), (right, down) = ((float(node.get("cx")), float(node.get("cy")))
                                     for node in drawing.findall("{*}g/{*}circle"))
            self.assertEqual([(a > b) - (a < b) for a, b in ((right, x), (y, down))],
                             [(a > 0) - (a < 0) for a in position])

    def test_a_plane_is_of_axes_that_are_there(self):
        for plane in "xz", "zy", "xx", "x", "xyx", "":
            status, said = refused("svg", FILE, "-", "--plane", plane)
            self.assertEqual((status, said), (2, "tools/answers.py: --plane takes two of the "
                                                 "letters x, y, as in: --plane xy\n"))
        self.assertEqual(done("svg", FILE, "-", WALLS, *HELD, "--plane", "yx")[::2], (0, ""))

    def test_forces_point_out_of_the_ink(self):
        kept, signs = set(), {0: (-1, 1), 1: (1, 1), 2: (0, -1)}      # left lip, right lip, web
        for w in in_coater().wall:
            if w.force:
                kept.add(w.model)
                for x, sign in zip(w.force, signs[w.model], strict=True):
                    self.assertTrue(x * sign >= 0.0 if sign else x == 0.0, vars(w))
        self.assertEqual(kept, {0, 1, 2})


if __name__ == "__main__":
    unittest.main()
