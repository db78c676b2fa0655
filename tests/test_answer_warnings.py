"""What tools/answers.py writes and says of averages that were passed over, and its JSON."""
import itertools
import json
import math
import pathlib
import tempfile
import unittest
import xml.etree.ElementTree as ElementTree

from tests.test_answers import CHAMBER, CHAMBER_SCENE, DONE, EXAMPLES, done, in_chamber
from tests.test_answers import answer_files, answers, commands, step_rules, step_scenes

# Written out, so that a changed text is noticed.
PASSED_OVER = "an average was not a number and was passed over: do not trust settled"
WARNING, UNTOLD = "WARNING: " + PASSED_OVER, answer_files.UNTOLD
FLAGS = {" 1": True, " 0": False, "": None}      # behind the error; the last as answers were recorded before
UNREAL = "NaN", "Infinity", "-Infinity"
NUMBERED = [text for text in DONE if text.split()[3] != step_rules.bits(math.nan)]


def flagged(flag, text=CHAMBER):
    """A text with this behind its error, if it has one."""
    first, rest = text.split("\n", 1)
    return text if first == "step unswept 0" else " ".join(first.split(" ")[:4]) + flag + "\n" + rest


def printed(found):
    """The program's text, from JSON's object. What should be a double and is none falls out."""
    def words(*xs): return [step_rules.bits(float(x)) for x in xs if isinstance(x, float) or x in UNREAL]
    flag = "" if found["error"] is None else {True: "1", False: "0", None: ""}[found["passed_over"]]
    rows = [["step", found["ending"], found["iterations"], *words(found["error"]), *flag],
            ["clock", *words(*(found["clock"][key] for key in ("dt", "inv_dt", "remaining_time")))]]
    rows += [["fluid", p["fluid"], p["particle"], *words(*p["position"], *p["velocity"], p["pressure"])]
             for p in found["fluid"]]
    rows += [["wall", w["wall"], w["particle"], *words(w["volume"], *w.get("force", []))] for w in found["walls"]]
    return "".join(" ".join(map(str, row)) + "\n" for row in rows)


class Warnings(unittest.TestCase):
    """What each command writes and says of an answer that passed an average over, of one that did
    not, and of one that can't tell; their scene is the chamber, stopping as the Rust does."""

    @classmethod
    def setUpClass(cls):
        cls.written, cls.said = {}, {}
        with tempfile.TemporaryDirectory() as folder:
            name, scene = pathlib.Path(folder) / "answer", pathlib.Path(folder) / "scene"
            scene.write_bytes(step_scenes.under(CHAMBER_SCENE, 1, 0))
            for flag in FLAGS:
                name.write_text(flagged(flag))
                for kind in answers.COMMANDS:
                    files = [] if kind == "table" else [name if kind == "vtk" else "-", EXAMPLES / "chamber.walls"]
                    status, out, err = done(kind, name, *files, "--scene", scene)
                    cls.written.setdefault(kind, []).append(out)
                    cls.said.setdefault(kind, []).append((status, err))
                for kind in "fluid", "wall":
                    cls.written.setdefault(kind, []).append(name.with_name("answer-%s.vtk" % kind).read_text())

    def test_the_flag_is_read_and_older_answers_have_none(self):
        self.assertEqual(CHAMBER, flagged(" 0"))
        for ending in "settled", "ranout":
            for flag, passed_over in FLAGS.items():
                answer = answers.parse(flagged(flag).replace("settled", ending))
                self.assertIs(answer.passed_over, passed_over)
                self.assertEqual((answer.ending, answer.iterations, len(answer.error)), (ending, 23, 1))
        self.assertIs(answers.parse("step unswept 0\n" + CHAMBER.split("\n", 1)[1]).passed_over, False)

    def test_a_damaged_flag_is_refused(self):
        texts = [flagged(flag) for flag in (" 2", " ", " 01", "0", "1", " 0 0", " 1 1", "  1", " 1 ", " x", " -0",
                                            " \u0661", " True")]
        error, rest = CHAMBER.split()[3], CHAMBER.split("\n", 1)[1]
        texts += ["step %s\n" % words + rest
                  for words in ("unswept", "unswept 0 0", "unswept 0 1", "unswept 0 " + error,
                                "unswept 0 %s 0" % error, "settled", "settled 23", "settled 23 0",
                                "settled 0 %s 0" % error, "ended 23 %s 0" % error)]
        for text in texts:
            with self.assertRaisesRegex(commands.Wrong, "line 1 is none"):
                answers.parse(text)

    def test_json_keeps_everything(self):
        unreal = set()
        for text in DONE + [flagged(flag, text) for text in NUMBERED for flag in FLAGS]:
            found = answers.json(answers.parse(text))
            self.assertEqual(printed(json.loads(found, parse_constant=self.fail)), text)
            unreal |= {x for x in UNREAL if '"%s"' % x in found}
        self.assertEqual(unreal, set(UNREAL))

    def test_standard_error_tells_and_the_status_is_0(self):
        for kind, said in self.said.items():
            notes = ["", "", ""] if kind == "table" else [WARNING + "\n", "", UNTOLD + "\n"]
            self.assertEqual(said, [(0, note) for note in notes], kind)

    def test_every_answer_with_a_yes_is_warned_of_and_no_other(self):
        outputs = answers.table, answers.csv, answers.json, answers.fluid_vtk
        endings = set()
        for text in NUMBERED:
            answer, old = answers.parse(text), answers.parse(flagged("", text))
            yes, swept = text.split("\n")[0].endswith(" 1"), answer.ending != "unswept"
            endings.add((answer.ending, yes))
            self.assertEqual((answers.alarms(answer), answers.doubts(answer)), ([WARNING] * yes, []))
            self.assertEqual((answers.alarms(old), answers.doubts(old)), ([], [UNTOLD] * swept))
            for output in outputs:
                self.assertEqual(PASSED_OVER in output(answer), yes, output)
                self.assertEqual(UNTOLD in output(old), swept and output is not answers.csv, output)
            self.assertEqual("SCALARS passed_over " in answers.fluid_vtk(answer), yes)
        self.assertEqual(endings, {("unswept", False), *itertools.product(("settled", "ranout"), (False, True))})

    def test_table_and_csv(self):
        yes, no, old = self.written["table"]
        self.assertEqual(yes, "%s\n%s%s\n" % (WARNING, no, WARNING))
        self.assertEqual(old.split("\n"), [no.split("\n")[0], UNTOLD, *no.split("\n")[1:]])
        yes, no, old = self.written["csv"]
        head, *rows = no.split("\n")[:-1]
        self.assertEqual((old, head), (no, "kind,model,particle,x,y,z,vx,vy,vz,pressure,volume,fx,fy,fz,stopping,"
                                           "summation"))
        self.assertEqual(yes.split("\n")[:-1], [head + ",warning", *[row + "," + PASSED_OVER for row in rows]])

    def test_json_begins_with_its_warnings(self):
        yes, no, old = [list(json.loads(text).items()) for text in self.written["json"]]
        self.assertEqual(no[0], ("warnings", []))
        self.assertEqual(yes, list({**dict(no), "warnings": [PASSED_OVER], "passed_over": True}.items()))
        self.assertEqual(old, list({**dict(no), "warnings": [UNTOLD], "passed_over": None}.items()))
        self.assertEqual([w["position"] for w in dict(no)["walls"]], [w.position for w in in_chamber().wall])
        unheld = json.loads(answers.json(answers.parse(CHAMBER)))
        self.assertEqual((dict(no)["held"], unheld["held"], "position" in unheld["walls"][0]), (True, False, False))

    def test_vtk_has_it_in_the_title_and_at_each_point(self):
        for kind, n in ("fluid", 60), ("wall", 79):
            yes, no, old = [text.split("\n") for text in self.written[kind]]
            self.assertEqual(no[1], kind + " particles after a pressure step, held against the scene, "
                                           "stopping by salva, summed in order")
            self.assertEqual((yes[1], old[1]), ("%s; %s" % (WARNING, no[1]), "%s; %s" % (no[1], UNTOLD)))
            at = no.index("POINT_DATA %d" % n) + 1      # in front of the scalars: viewers show the first
            self.assertEqual(yes[2:], [*no[2:at], "SCALARS passed_over int 1", "LOOKUP_TABLE default", *"1" * n,
                                       *no[at:]])
            self.assertEqual(old[2:], no[2:])
        for flag in FLAGS:      # a title has 255 letters at most
            self.assertLess(len(answers.fluid_vtk(answers.parse(flagged(flag))).split("\n")[1]), 256)

    def test_the_picture_has_a_banner_and_room_for_it(self):
        yes, no, old = map(ElementTree.fromstring, self.written["svg"])
        rect, text = yes.findall("{*}rect")[1], yes.find("{*}text")
        self.assertEqual((text.text, text.get("font-weight"), text.get("fill"), rect.get("fill"), rect.get("width")),
                         (WARNING, "bold", "#fff", "#b00020", "100%"))
        self.assertIn(UNTOLD.split(";")[0], [node.text for node in old.findall("{*}text")])
        self.assertEqual(len(no.findall("{*}rect")), 1)
        for root, more in (yes, int(rect.get("height"))), (old, 18):
            self.assertEqual([int(root.get("height")), root.find("{*}g").get("transform")],
                             [int(no.get("height")) + more, "translate(0 %d)" % (18 + more)])
            self.assertEqual(*([ElementTree.tostring(node) for node in r.find("{*}g")] for r in (root, no)))
            low = [float(node.get("y")) for node in root.findall("{*}text")]
            self.assertTrue(all(b - a >= 18 for a, b in zip(low, low[1:])), low)
        self.assertEqual([a < int(rect.get("height")) for a in
                          (float(node.get("y")) for node in yes.findall("{*}text"))], [True, False, False, False])


if __name__ == "__main__":
    unittest.main()
