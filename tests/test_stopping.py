"""By which criterion iterations stop: how tools/scene.py reads, writes and shows it, and how
tools/answers.py tells it. test_summation.py has the same of how an error is summed."""
import itertools
import json
import math
import pathlib
import tempfile
import unittest
import xml.etree.ElementTree as ElementTree

from tests.test_answers import CHAMBER, CHAMBER_SCENE, DONE, EXAMPLES, done
from tests.test_answers import answer_files, answers, commands, scene, step_rules, step_scenes
from tests.test_scene import command, first_fault, refusal

HEAD = {"step_length": 1, "remaining_time": 0, "error_limit": 0}
PAPER, RUST, BOTH = {"stopping": "ihmsen2014"}, {"stopping": "salva"}, '"salva" or "ihmsen2014"'
STOPPINGS, SUMMATIONS = ("salva", "ihmsen2014"), ("in order", "by halves")      # of rule % 2, of rule / 2
# Written out, so that a changed text is noticed.
NOTE = ("it names neither version nor stopping, so it is of version 1 and stops by the Rust's error, which can settle "
        "long before the pressures are right; to stop by the 2014 paper's, add "
        '"stopping": "ihmsen2014"; to keep it so, add "version": 1')
NO_NUMBER = "a fluid's average error is not a number and never settles: do not trust the pressures"
NAN = step_rules.bits(math.nan)
SCENE_B = (EXAMPLES / "scene-b.bin").read_bytes()
OVERFLOW = (EXAMPLES / "torn-droplet-overflow.bin").read_bytes()


def packed(**named):
    """Of a scene of two walls whose JSON names these: the version, byte 1 and the notes."""
    data, notes = scene.pack(json.dumps({**HEAD, **named, "walls": [{}, {}]}))
    return data[0] >> 4, data[1], notes


class Scenes(unittest.TestCase):
    def test_what_is_named_is_packed(self):
        for named, version, rule in ((PAPER, 2, 1), (RUST, 2, 0), ({"version": 2, **PAPER}, 2, 1),
                                     ({"version": 2, **RUST}, 2, 0), ({"version": 1}, 1, 0),
                                     ({"version": 1, **RUST}, 1, 0)):
            self.assertEqual(packed(**named), (version, 2 << 4 | rule, []), named)

    def test_what_is_left_open_is_noted_in_one_line(self):
        self.assertEqual(packed(), (1, 2 << 4, [NOTE]))
        status, data, said = command("pack", "-", "-", given=json.dumps(HEAD).encode())
        self.assertEqual((status, data[:2], said), (0, b"\x10\0", NOTE + "\n"))

    def test_messages_say_what_to_choose_from(self):
        for named, message in (
                ({"version": 2}, "stopping is missing, and version 2 does not tell it; give " + BOTH),
                ({"version": 1, **PAPER}, 'stopping: "ihmsen2014" is none of version 1, which has "salva"; '
                                          "set version to 2, or leave the version out"),
                ({"version": 3}, "version: give 1, 2 or 4, not 3"),
                ({"version": 0, **PAPER}, "version: give 1, 2 or 4, not 0"),
                ({"version": True}, "version: give 1, 2 or 4, not true"),
                ({"version": 1.0}, "version: give 1, 2 or 4, not 1.0"),
                ({"version": "2", **RUST}, 'version: give 1, 2 or 4, not "2"'),
                ({"version": None}, "version: give 1, 2 or 4, not null"),
                ({"stopping": "Salva"}, 'stopping: give %s, not "Salva"' % BOTH),
                ({"stopping": 1}, "stopping: give %s, not 1" % BOTH),
                ({"version": 1, "stopping": None}, "stopping: give %s, not null" % BOTH),
                ({"stopping": ["salva"]}, 'stopping: give %s, not ["salva"]' % BOTH)):
            with self.assertRaises(scene.Wrong) as raised:
                packed(**named)
            self.assertEqual(str(raised.exception), message)

    def test_each_form_is_shown_and_packed_again(self):
        for version, rule in step_scenes.FORMS[step_rules.SOLID]:
            words = (STOPPINGS[rule % 2], SUMMATIONS[rule // 2]) if version > 1 else ()
            told = ", rule %d (%s, %s)" % (rule, *words) if words else ""
            data = step_scenes.under(step_scenes.rich(), version, rule)
            text, faults = scene.show(data, False)
            self.assertIn("header: version %d, 2 fluids, 3 walls%s, least " % (version, told), text)
            self.assertEqual(faults, [])
            self.assertIn(": version %d, 2 fluids" % version, scene.at(data, 0)[0][0])
            self.assertTrue(scene.at(data, 1)[0][0].endswith("): 3 walls" + told))
            found = json.loads(scene.show(data, True)[0])
            self.assertEqual([found.pop(key, None) for key in ("version", "stopping", "summation")],
                             [version, *(words or (None, None))])
            self.assertEqual(next(iter(found)), "least_iterations")
            self.assertEqual(scene.pack(scene.show(data, True)[0]), (data, []))

    def test_the_first_two_bytes_are_refused_as_in_a_step(self):
        met, models = set(), (0, 1, 8, 9, 15)
        for version, fluids, walls, rule in itertools.product(range(16), models, models, range(16)):
            data = bytes([version << 4 | fluids, walls << 4 | rule]) + step_scenes.EMPTY[2:]
            met.add(refusal(data))
            self.assertEqual(first_fault(data), refusal(data), data[:2].hex())
        self.assertEqual(met, {None, (1, 46), (1, 52), (2, 0), (2, 1), (3, 0), (3, 1), (5, 44),
                               (5, 46)})

    def test_a_rule_that_is_none_says_what_to_put_there(self):
        of_version = "refusal 2 at 1: rule %d, the last four bits of byte 1, is none of version %d; put there "
        first, newest = "%02X hex for rule 0 (salva, in order)", "; or put 21 hex at byte 0 for version 2, which has it"
        every = (first + ", %02X hex for rule 1 (ihmsen2014, in order), %02X hex for rule 2 (salva, by halves) "
                 "or %02X hex for rule 3 (ihmsen2014, by halves)")
        for version, second, *said in (
                (1, 0x41, of_version % (1, 1) + first % 0x40 + newest),
                (1, 0x83, of_version % (3, 1) + first % 0x80 + newest),
                (1, 0x84, of_version % (4, 1) + first % 0x80),
                (2, 0x4F, of_version % (15, 2) + every % (0x40, 0x41, 0x42, 0x43)),
                (2, 0x94, "refusal 3 at 1: 9 walls; leave out some, at most 8 may be there",
                 of_version % (4, 2) + every % (0x90, 0x91, 0x92, 0x93)),
                (3, 0x82)):
            data = bytes([version << 4 | 1, second]) + step_scenes.scene_a()[2:]
            self.assertEqual([line for line in scene.at(data, 1)[0] if line.startswith("refusal")], said)
            with self.assertRaisesRegex(scene.Wrong, "no JSON packs to these bytes;.*\nrefusal [23] at [01]: "):
                scene.show(data, True)
        self.assertIn("the version is 3, not 1, 2 or 4; is this", scene.show(data, False)[1][0])


def written(data, held=True):
    """Of each command of tools/answers.py on a scene's answer: its status, what it writes, and
    standard error."""
    found = {}
    with tempfile.TemporaryDirectory() as folder:
        name, packed = pathlib.Path(folder) / "answer", pathlib.Path(folder) / "scene"
        name.write_text(step_rules.lines(data))
        packed.write_bytes(data)
        for kind in answers.COMMANDS:
            files = [] if kind == "table" else [name if kind == "vtk" else "-"]
            status, out, err = done(kind, name, *files, *(["--scene", packed] if held else []))
            found[kind] = status, name.with_name("answer-fluid.vtk").read_text() if kind == "vtk" else out, err
    return found


class Answers(unittest.TestCase):
    """What each command writes of an answer, with its scene or without."""

    def test_every_output_names_the_rule_if_the_scene_is_given(self):
        for version, rule in step_scenes.FORMS[step_rules.SOLID]:
            words = [STOPPINGS[rule % 2], SUMMATIONS[rule // 2]]
            named = "stopping by %s, summed %s" % tuple(words)
            ended = ("ran out after 50 iterations, error 2", "settled after 2 iterations, error 0")[rule % 2]
            data = step_scenes.under(SCENE_B, version, rule)
            of = {kind: out for kind, (_, out, _) in written(data).items()}
            self.assertEqual(of["table"].splitlines()[0], "%s, %s" % (ended, named))
            self.assertEqual(ElementTree.fromstring(of["svg"]).find("{*}text").text, of["table"].splitlines()[0])
            self.assertEqual([row.split(",")[14:] for row in of["csv"].splitlines()],
                             [["stopping", "summation"], words, words])
            found = json.loads(of["json"])
            self.assertEqual([found["stopping"], found["summation"]], words)
            self.assertTrue(of["vtk"].splitlines()[1].endswith(", held against the scene, " + named))
            for kind, (status, out, _) in written(data, held=False).items():
                self.assertEqual((status, [word for word in words if word in out]), (0, []), kind)
                self.assertEqual([key for key in ("stopping", "summation") if key in out],
                                 ["stopping", "summation"] * (kind == "json"))
            found = json.loads(written(data, held=False)["json"][1])
            self.assertEqual((found["stopping"], found["summation"]), (None, None))

    def test_where_no_iteration_was_none_stopped(self):
        data = step_scenes.changed(step_scenes.under(SCENE_B, 2, 3), 3, b"\0")
        for kind, (status, out, err) in written(data).items():
            self.assertEqual((status, err, "ihmsen2014" in out or "by halves" in out), (0, "", False), kind)

    def test_an_error_that_is_not_a_number_is_warned_of(self):
        for rule, summation in (1, "in order"), (3, "by halves"):
            of, warning = written(step_scenes.under(OVERFLOW, 2, rule)), "WARNING: " + NO_NUMBER
            for kind, (status, out, err) in of.items():
                self.assertEqual((status, err.split("\n")[0]), (0, "" if kind == "table" else warning))
                self.assertTrue(NO_NUMBER in out and answer_files.PASSED_OVER not in out, kind)
            lines, ended = of["table"][1].splitlines(), "ran out after 50 iterations, error nan, stopping by ihmsen2014"
            self.assertEqual((lines[:2], lines[-1]), ([warning, ended + ", summed " + summation], warning))
            self.assertEqual([row.split(",")[14:] for row in of["csv"][1].splitlines()],
                             [["stopping", "summation", "warning"], *[["ihmsen2014", summation, NO_NUMBER]] * 3])
            found = json.loads(of["json"][1])
            self.assertEqual((found["warnings"], found["error"], found["passed_over"]), ([NO_NUMBER], "NaN", False))
            rows = of["vtk"][1].splitlines()
            self.assertTrue(rows[1].startswith(warning + "; ") and len(rows[1]) < 256)
            at = rows.index("POINT_DATA 3") + 1
            self.assertEqual(rows[at:at + 5], ["SCALARS error_not_a_number int 1", "LOOKUP_TABLE default", *"111"])
            root = ElementTree.fromstring(of["svg"][1])
            self.assertEqual((root.find("{*}text").text, root.findall("{*}rect")[1].get("fill")), (warning, "#b00020"))

    def test_it_is_warned_of_with_no_scene_too_and_nowhere_else(self):
        numbers = set()
        for text in [*DONE, step_rules.lines(step_scenes.under(OVERFLOW, 2, 1))]:
            answer, error = answers.parse(text), text.split("\n")[0].split()[3:4]
            numbers.add(error != [NAN])
            self.assertEqual(NO_NUMBER in answers.table(answer), error == [NAN])
        self.assertEqual(numbers, {True, False})

    def test_a_first_line_that_no_step_prints_is_refused(self):
        first, rest = step_rules.lines(step_scenes.under(OVERFLOW, 2, 1)).split("\n", 1)
        for line in first[:-1] + "1", first[:-2], first.replace("ranout", "settled"):
            with self.assertRaisesRegex(commands.Wrong, "line 1 is none"):
                answers.parse(line + "\n" + rest)

    def test_an_answer_of_the_other_criterion_is_noticed(self):
        flag, no_number = CHAMBER.index("\n") - 1, step_rules.lines(step_scenes.under(OVERFLOW, 2, 1))
        for text, data in ((no_number, step_scenes.under(OVERFLOW, 1, 0)),
                           (no_number, step_scenes.under(OVERFLOW, 2, 0)),
                           (no_number, step_scenes.under(OVERFLOW, 2, 2)),
                           (step_rules.lines(OVERFLOW), step_scenes.under(OVERFLOW, 2, 3)),
                           (CHAMBER.replace(" 3EE2603BE9ECAE36 ", " BEE2603BE9ECAE36 "),
                            step_scenes.under(CHAMBER_SCENE, 1, 0)),
                           (CHAMBER[:flag] + "1" + CHAMBER[flag + 1:], CHAMBER_SCENE),
                           (CHAMBER[:flag - 1] + CHAMBER[flag + 1:], CHAMBER_SCENE)):
            word = STOPPINGS[data[1] % 2]
            with self.assertRaisesRegex(commands.Wrong, "is none of a step that stops by %s, as its scene does" % word):
                answers.hold(answers.parse(text), data, "its scene")
        with self.assertRaisesRegex(commands.Wrong, "ended after 2 iterations with error 0.0038965039636976737, which"):
            early = step_scenes.changed(step_scenes.under(CHAMBER_SCENE, 1, 0), 20, step_scenes.doubles(0.05))
            answers.hold(answers.parse(step_rules.lines(early)), CHAMBER_SCENE, "its scene")


if __name__ == "__main__":
    unittest.main()
