"""tools/answers.py on the texts of the cases of checks/cases_step.py and on damaged ones."""
import contextlib
import io
import json
import math
import pathlib
import random
import re
import struct
import subprocess
import sys
import unittest
import xml.etree.ElementTree as ElementTree

ROOT = pathlib.Path(__file__).resolve().parent.parent
sys.path[:0] = [str(ROOT / "tools"), str(ROOT / "checks")]
import answer_files                         # noqa: E402
import answer_picture                       # noqa: E402
import answers                              # noqa: E402
import commands                             # noqa: E402
import reference                            # noqa: E402
import scene                                # noqa: E402
from parts import step_rules, step_scenes   # noqa: E402

EXAMPLES = ROOT / "examples"
TEXTS = reference.texts((ROOT / "crates/cases_step/stdout").read_text())
DONE = [text for text in TEXTS if text.startswith("step ")]
CHAMBER, CHAMBER_SCENE = (EXAMPLES / "chamber.txt").read_text(), (EXAMPLES / "chamber.bin").read_bytes()
WALLS, HELD = (EXAMPLES / "chamber.walls").read_text(), ["--scene", EXAMPLES / "chamber.bin"]


def in_chamber():
    answer = answers.parse(CHAMBER)
    answers.place_walls(answer, WALLS, "chamber.walls")
    return answer


def refused(*arguments):
    """Status and message of a command that can't be carried out."""
    with contextlib.redirect_stderr(io.StringIO()) as said:
        return answers.main([str(a) for a in arguments]), said.getvalue()


def done(*arguments):
    """Status and both outputs of a command."""
    with contextlib.redirect_stdout(io.StringIO()) as out:
        status, said = refused(*arguments)
    return status, out.getvalue(), said


def command(*arguments):
    """The same, as a program."""
    done = subprocess.run([sys.executable, "-B", str(ROOT / "tools/answers.py"), *map(str, arguments)],
                          capture_output=True, cwd=ROOT)
    return done.returncode, done.stdout.decode(), done.stderr.decode()


class Reading(unittest.TestCase):
    def test_csv_keeps_every_double(self):
        for text in DONE:
            lines, answer = iter(text.splitlines()[2:]), answers.parse(text)
            for row in answers.csv(answer).splitlines()[1:]:      # a warning may end it
                cells = [cell for cell in row.split(",")[:5 + 3 * len(answer.axes)] if cell]
                self.assertEqual(next(lines), " ".join(cells[:3] + [step_rules.bits(float(x)) for x in cells[3:]]))
            self.assertIsNone(next(lines, None))

    def test_no_answer_stops_it(self):
        for text in DONE:
            answer = answers.parse(text)
            self.assertTrue(answers.table(answer) and answers.fluid_vtk(answer))
            place = "%d %d %d" + " 0" * (len(answer.axes) - 2) + " %d # here"
            answers.place_walls(answer, "\n".join(place % (w.model, w.number, w.number, w.model)
                                                  for w in answer.wall), "walls")
            self.assertTrue(answers.wall_vtk(answer))
            try:
                ElementTree.fromstring(answers.picture(answer)[0])
            except commands.Wrong as e:
                self.assertTrue(re.search("no particle|too far apart", str(e)))

    def refused(self, text, piece="give the whole output of tools/run", data=None):
        with self.assertRaises(commands.Wrong) as raised:
            answer = answers.parse(text)
            if data is not None:
                answers.hold(answer, data, "its scene")
        self.assertIn(piece, str(raised.exception))

    def test_damaged_text_is_refused(self):
        draw = random.Random(2)
        for _ in range(60):
            at = draw.randrange(1, len(CHAMBER))
            cut = [CHAMBER[:at]] * (CHAMBER[at - 1] != "\n")
            for text in [CHAMBER[at:], CHAMBER[:at] + draw.choice("\0 \nxG_é") + CHAMBER[at + 1:], *cut]:
                if text != CHAMBER:
                    self.refused(text)

    def test_lines_that_are_missing_repeated_or_moved_are_refused(self):
        lines = CHAMBER.splitlines(keepends=True)
        for k in [0, 1, 2, 3, 60, 61, 62, 75, 76, 77, 78, 139]:
            self.refused("".join(lines[:k] + [lines[k + 1], lines[k]] + lines[k + 2:]))
            self.refused("".join(lines[:k + 1] + lines[k:]))
            self.refused("".join(lines[k + 1:] + lines[:k + 1]))
            if k not in (61, 76):      # the last line of a fluid or wall, which only a scene can miss
                self.refused("".join(lines[:k] + lines[k + 1:]))
        self.refused("")
        self.refused(CHAMBER + CHAMBER, "a second `step ..`")
        self.refused(CHAMBER + "refused 9 310\n", "line 142")
        self.refused("".join(lines[:2] + lines[62:] + lines[2:62]), "line 82 is of a fluid, but stands behind")
        self.refused("".join(lines[:62] + lines[77:89] + lines[62:77] + lines[89:]),
                     "line 75, of wall 0, particle 0, does not follow")
        self.refused(lines[0] + "".join(lines[2:]), "line 2 should be `clock ..`")
        self.refused("".join(lines[:-1] + [" ".join(lines[-1].split() + ["0" * 16] * 3) + "\n"]),
                     "wall 3 has forces in some lines")
        error = lines[0].split()[3]
        for line in "step unswept 1\n", "step settled 0 %s\n" % error, "step settled 023 %s\n" % error:
            self.refused("".join([line] + lines[1:]), "line 1 is none")

    def test_an_answer_is_held_to_its_scene(self):
        for data, text in list(zip(reference.unbatch(ROOT / "crates/cases_step/data/scenes"), TEXTS, strict=True))[::8]:
            if text.startswith("step "):
                answer, lines = answers.parse(text), text.splitlines(keepends=True)
                answers.hold(answer, data, "its scene")
                self.assertTrue(answer.held)
                for k in range(2, len(lines)):
                    self.refused("".join(lines[:k]), data=data)
        self.refused("".join(CHAMBER.splitlines(keepends=True)[:85]),
                     "the answer has 8 particles of wall 1, but its scene has 12; ", CHAMBER_SCENE)

    def test_another_scene_is_noticed(self):
        rich = step_scenes.rich()      # fluid 0 and wall 1 are empty, wall 0 keeps forces
        text, head, kept = step_rules.lines(rich), struct.pack(">d", 0.25), scene.tree(scene.Walk(rich))
        lines = text.splitlines(keepends=True)
        answers.hold(answers.parse(text), rich, "its scene")
        self.refused("".join(lines[:4] + lines[5:]), "the answer has 0 particles of wall 0, but its scene has 1; ",
                     rich)
        self.refused(text + lines[-1].replace("wall 2 0", "wall 4 0"),
                     "the answer has 1 particle of wall 4, but its scene has 0; ", rich)
        self.refused(text, "is no scene that has an answer", rich[:-1])
        for at in 4, 12:      # step length, remaining time
            self.refused(text, "clock is not the one of its scene", rich[:at] + head + rich[at + 8:])
        for most in 1, 3:
            self.refused(text, "ended after 2 iterations", rich[:3] + bytes([most]) + rich[4:])
        self.refused(text.replace("ranout", "settled"), "ended after 2 iterations", rich[:2] + b"\2" + rich[3:])
        self.refused(text, "ended after 2 iterations with error", rich[:20] + struct.pack(">d", 1e300) + rich[28:])
        for at, field in (20, struct.pack(">d", 1e-6)), (3, b"\x16"):
            self.refused(CHAMBER, "ended after 23 iterations with error 8.762318712016771e-06",
                         CHAMBER_SCENE[:at] + field + CHAMBER_SCENE[at + len(field):])
        self.refused("step unswept 0\n" + CHAMBER.split("\n", 1)[1], "ended after 0 iterations, which", CHAMBER_SCENE)
        kept["walls"][2]["keeps_forces"] = True
        self.refused(text, "wall 2 keeps its forces in its scene, but its lines have none",
                     scene.pack(json.dumps(kept))[0])
        kept["walls"][0]["keeps_forces"] = kept["walls"][2]["keeps_forces"] = False
        del kept["walls"][0]["particles"][0]["force"]
        self.refused(text, "wall 0 keeps no forces in its scene, but its lines have some",
                     scene.pack(json.dumps(kept))[0])

    def test_refusals_lead_to_their_place(self):
        for text, piece in (("refused 7 152\n", "tools/scene.py at 152 SCENE.bin"),
                            ("too long\n", "at most 32,768 bytes"),
                            ("", "`step ..`"), ("refused 77 1\n", "line 1"), ("refused 7 15", "cut off"),
                            ("refused 8 0\n", "a work list of 14 for each fluid particle, or 15 where errors are "
                                               "summed by halves, and 1 for each wall particle")):
            self.refused(text, piece)
        with self.assertRaises(commands.Wrong) as raised:
            answers.parse("refused 8 0\n")
        self.assertNotIn("scene.py at", str(raised.exception))


class Pictures(unittest.TestCase):
    def test_colours_fall_in_lightness(self):
        shades = [answer_picture.colour(k / 100) for k in range(101)]
        light = [0.2126 * int(c[1:3], 16) + 0.7152 * int(c[3:5], 16) + 0.0722 * int(c[5:], 16) for c in shades]
        self.assertTrue(all(a > b for a, b in zip(light, light[1:])))
        self.assertGreater(light[0] - light[-1], 200)

    def test_colours_span_any_pressures(self):
        pale, dark = answer_picture.colour(0), answer_picture.colour(1)
        for least, most in (0.0, 5e-324), (-5e-324, 0.0), (-1.7e308, 1.7e308), (-1.0, 2.0):
            answer = in_chamber()
            for k, p in enumerate(answer.fluid):
                p.pressure = most if k % 2 else least
            drawn = ElementTree.fromstring(answers.picture(answer)[0]).findall("{*}g/{*}circle")
            self.assertEqual([node.get("fill") for node in drawn], [pale] * 30 + [dark] * 30)

    def test_the_chamber(self):
        answer = in_chamber()
        answers.hold(answer, CHAMBER_SCENE, "its scene")
        text, notes = answers.picture(answer)
        self.assertEqual((text, notes), ((EXAMPLES / "chamber.svg").read_text(), []))
        root = ElementTree.fromstring(text)
        self.assertEqual(len(root.findall("{*}g/{*}circle")), 60)
        words = [node.text for node in root.iter("{http://www.w3.org/2000/svg}text")]
        for word in "pressure", "0", "wall force 5e-05", "length 0.001":
            self.assertIn(word, words)

    def test_forces_point_out_of_the_ink(self):
        for w in in_chamber().wall:
            if w.force:
                self.assertTrue((w.force[2] < 0 if w.model == 0 else w.force[2] == 0)
                                and (w.force[0] <= 0 if w.model == 1 else w.force[0] >= 0))

    def test_without_wall_positions(self):
        text, notes = answers.picture(answers.parse(CHAMBER), "yz")
        self.assertIn("add a file with lines: WALL PARTICLE X Y Z", notes[0])
        self.assertIn(">left out: wall forces, since no wall positions were given<", text)
        self.assertNotIn("wall force ", text)

    def test_it_says_what_it_leaves_out(self):
        answer = in_chamber()
        self.assertTrue(all(w.force[1] == 0.0 for w in answer.wall if w.force))
        text = answers.picture(answer)[0]
        self.assertIn(">not held against a scene<", text)
        self.assertNotIn("left out", text)
        self.assertIn(">left out: what wall forces have along z, across the picture<", answers.picture(answer, "xy")[0])
        for k, force in (0, [0.0, 1.0, 0.0]), (1, [1.0, 0.0, 0.0]), (7, [0.0, 0.0, 1e-9]):
            answer.wall[k].force = force
        answer.fluid[0].pressure, answer.fluid[1].pressure = math.nan, math.inf
        text, notes = answers.picture(answer)
        for piece in ("left out: what wall forces have along y, across the picture",
                      "left out: 2 fluid particles with a number that is not finite"):
            self.assertIn(">%s<" % piece, text)
        self.assertRegex(text, ">left out: [0-9]+ wall forces below a fiftieth of the strongest<")
        answer.fluid[1].pressure = 0.0
        self.assertIn("left out: 1 fluid particle with", answers.picture(answer)[1][0])
        ElementTree.fromstring(text)

    def test_one_is_no_plural(self):
        answer = answers.parse("step ranout 1 0000000000000000\n" + "".join(CHAMBER.splitlines(keepends=True)[1:3]))
        self.assertEqual(answer_files.ended(answer), "ran out after 1 iteration, error 0")
        answer.held = True
        self.assertIn("1 fluid particle and 0 wall particles\n", answers.table(answer))
        self.assertEqual(answer_files.ended(answers.parse("step unswept 0\n" + CHAMBER.splitlines(keepends=True)[1])),
                         "done without iterations")


class Files(unittest.TestCase):
    def test_vtk_has_what_it_says(self):
        answer = in_chamber()
        for text, particles, field, vectors in ((answers.fluid_vtk(answer), answer.fluid, "pressure", "velocity"),
                                                 (answers.wall_vtk(answer), answer.wall, "volume", "force")):
            self.assertTrue(text.startswith("# vtk DataFile Version 3.0\n") and "\nASCII\nDATASET POLYDATA\n" in text)
            words, n = text.split("POLYDATA")[1].split(), len(particles)
            at = words.index("POINTS")
            self.assertEqual(words[at + 1:at + 3], [str(n), "double"])
            self.assertEqual([float(x) for x in words[at + 3:at + 3 + 3 * n]],
                             [x for p in particles for x in p.position])
            at = words.index("VERTICES")
            self.assertEqual(words[at + 1:at + 3 + 2 * n], [str(n), str(2 * n)]
                             + [x for k in range(n) for x in ("1", str(k))])
            at = words.index(field)
            self.assertEqual(words[at - 1:at + 5], ["SCALARS", field, "double", "1", "LOOKUP_TABLE", "default"])
            self.assertEqual([float(x) for x in words[at + 5:at + 5 + n]], [getattr(p, field) for p in particles])
            at = words.index(vectors)
            self.assertEqual([float(x) for x in words[at + 2:at + 2 + 3 * n]],
                             [x for p in particles for x in getattr(p, vectors) or [0, 0, 0]])
            self.assertEqual(len(words), at + 2 + 3 * n)

    def test_wall_positions(self):
        for text, piece in (("0 0 1 2", "line 1: give"), ("0 0 1 2 nan", "line 1: give"), ("0 x 1 2 3", "line 1: give"),
                            ("", "add a line: 0 0 X Y Z"),
                            ("0 0 1 2 3\n0 0 1 2 4", "line 2: wall 0, particle 0 stands there twice"),
                            (WALLS + "9 0 1 2 3", "is it the file of this scene?")):
            with self.assertRaises(commands.Wrong) as raised:
                answers.place_walls(answers.parse(CHAMBER), text, "walls")
            self.assertIn(piece, str(raised.exception))

    def test_commands(self):
        text = EXAMPLES / "chamber.txt"
        status, table, _ = done("table", text)
        self.assertEqual((status, table.splitlines()[0]), (0, "settled after 23 iterations, error 8.76232e-06"))
        self.assertIn("not held against a scene", table.splitlines()[-1])
        self.assertEqual(done("table", text, *HELD)[1].splitlines()[-1],
                         "held against the scene: all its particles are there, "
                         "60 fluid particles and 79 wall particles")
        self.assertEqual(command("svg", text, "-", EXAMPLES / "chamber.walls", *HELD),
                         (0, (EXAMPLES / "chamber.svg").read_text(), ""))
        for kind in "csv", "json":
            self.assertEqual([done(kind, text, "-", *more)[2][:24] for more in ([], HELD)],
                             ["not held against a scene", ""])
        for arguments, status, piece in ((["table", ROOT / "none.txt"], 2, "check the file's name"),
                                         (["svg", text, "-", "--plane", "xx"], 2, "two of the letters"),
                                         ([], 2, "how to use"),
                                         (["tabel", text], 2, "there is no command tabel"),
                                         (["table", text, "-"], 2,
                                          "`table` got 2 arguments; this is what it takes: tools/answers.py table "
                                          "ANSWER.txt [--scene SCENE.bin]\n"),
                                         (["csv", text], 2, "tools/answers.py csv ANSWER.txt TABLE.csv [WALLS.txt]"),
                                         (["table", text, "--plane", "xz"], 2, "`table` has no option --plane"),
                                         (["table", text, "--scene"], 2, "--scene stands without its value"),
                                         (["table", "-", "--scene", "-"], 2, "only one file"),
                                         (["table", text, "--scene", EXAMPLES / "scene-a.bin"], 1,
                                          "the answer has 60 particles of fluid 0, but the scene"),
                                         (["table", EXAMPLES / "torn-droplet.txt"], 1, "tools/scene.py at 310"),
                                         (["table", EXAMPLES / "chamber.bin"], 1, "give the whole output")):
            found, said = refused(*arguments)
            self.assertEqual((found, piece in said), (status, True), said)


if __name__ == "__main__":
    unittest.main()
