"""How an error's terms are summed: how tools/scene.py reads it, and how tools/answers.py tells errors
that hang on it."""
import json
import math
import unittest

from tests.test_stopping import BOTH, OVERFLOW, PAPER, RUST, packed, written
from tests.test_stopping import EXAMPLES, answer_files, answers, commands, scene, step_rules, step_scenes

IN_ORDER, HALVES = {"summation": "in order"}, {"summation": "by halves"}
EACH = '"in order" or "by halves"'
MINUS_ZERO = step_rules.bits(-0.0)


def minus_zero(rule, limit=0.0):
    """A scene whose error, by the 2014 paper and by halves, is -0: a particle at a wall, both of negative
    volume in a fluid of negative rest density, with the pressure that makes its density that. Its
    term is 0 over the rest density, and there is no other to add it to."""
    drop = step_scenes.particle(walls=[step_scenes.to(0, 0, 1.0, step_scenes.X)], volume=-1.0, warm=2.0)
    stone = step_scenes.stone(step_scenes.beside(0, 0, -1.0))
    data = step_scenes.scene([step_scenes.fluid(-1.0, drop)], [step_scenes.wall(stone)], limit=limit)
    return step_scenes.under(data, 2, rule)


class Scenes(unittest.TestCase):
    def test_what_is_named_is_packed(self):
        for named, version, rule in (({**RUST, **IN_ORDER}, 2, 0), ({**PAPER, **IN_ORDER}, 2, 1),
                                     ({**RUST, **HALVES}, 2, 2), ({**PAPER, **HALVES}, 2, 3),
                                     ({"version": 2, **PAPER, **HALVES}, 2, 3), ({"version": 1, **IN_ORDER}, 1, 0),
                                     ({"version": 1, **RUST, **IN_ORDER}, 1, 0)):
            self.assertEqual(packed(**named), (version, 2 << 4 | rule, []), named)

    def test_what_is_left_out_is_in_order(self):
        for named in RUST, PAPER, {"version": 2, **PAPER}, {"version": 1}, {"version": 1, **RUST}:
            self.assertEqual(packed(**named), packed(**named, **IN_ORDER))

    def test_messages_say_what_to_choose_from(self):
        of_1 = ('summation: "by halves" is none of version 1, which has "in order"; '
                "set version to 2, or leave the version out")
        for named, message in (
                (HALVES, "stopping is missing, and a summation does not tell it; give " + BOTH),
                (IN_ORDER, "stopping is missing, and a summation does not tell it; give " + BOTH),
                ({"version": 2, **HALVES}, "stopping is missing, and version 2 does not tell it; give " + BOTH),
                ({"version": 1, **RUST, **HALVES}, of_1),
                ({"version": 1, **HALVES}, of_1 + ", and give a stopping, " + BOTH),
                ({"version": 1, **PAPER, **HALVES}, 'stopping: "ihmsen2014" is none of version 1, which has "salva"; '
                                                    "set version to 2, or leave the version out"),
                ({"version": 3, **HALVES}, "version: give 1, 2 or 4, not 3"),
                ({**RUST, "summation": "halves"}, 'summation: give %s, not "halves"' % EACH),
                ({"summation": 1}, "summation: give %s, not 1" % EACH),
                ({"version": 1, "summation": None}, "summation: give %s, not null" % EACH),
                ({**PAPER, "summation": ["by halves"]}, 'summation: give %s, not ["by halves"]' % EACH)):
            with self.assertRaises(scene.Wrong) as raised:
                packed(**named)
            self.assertEqual(str(raised.exception), message)


class Answers(unittest.TestCase):
    def test_an_error_that_differs_in_its_last_bit_is_told(self):
        found = []
        for name in "slow-pair", "slow-pair-by-halves":
            of = written((EXAMPLES / (name + ".bin")).read_bytes())
            self.assertTrue(of["table"][1].startswith("ran out after 50 iterations, error 1, stopping by salva, "))
            found.append(json.loads(of["json"][1]))
        self.assertEqual([answer.pop("error") for answer in found], [1.0, 1.0 + 2.0**-52])
        self.assertEqual([answer.pop("summation") for answer in found], ["in order", "by halves"])
        self.assertEqual(found[0], found[1])

    def test_an_error_of_minus_zero_is_one_like_others(self):
        for limit in 0.0, -0.0:
            data = minus_zero(3, limit)
            self.assertEqual(step_rules.lines(data).split("\n")[0], "step settled 2 %s 0" % MINUS_ZERO)
            of = written(data)
            for kind, (status, out, err) in of.items():
                self.assertEqual((status, "WARNING" in out + err), (0, False), kind)
            self.assertTrue(of["table"][1].startswith("settled after 2 iterations, error -0, stopping by ihmsen2014, "
                                                      "summed by halves\n"))
            found = json.loads(of["json"][1])
            self.assertEqual((step_rules.bits(found["error"]), found["warnings"]), (MINUS_ZERO, []))

    def test_an_error_of_minus_zero_is_none_of_the_rusts(self):
        text = step_rules.lines(minus_zero(3))
        for rule in range(4):
            own = step_rules.lines(minus_zero(rule)).split()[3]
            self.assertEqual(own, MINUS_ZERO if rule == 3 else step_rules.bits(0.0))
            if rule % 2 == 0:
                with self.assertRaisesRegex(commands.Wrong, "is none of a step that stops by salva, as its scene does"):
                    answers.hold(answers.parse(text), minus_zero(rule), "its scene")

    def test_an_average_is_passed_over_by_the_rusts_alone(self):
        for rule in range(4):
            answer = answers.parse(step_rules.lines(step_scenes.under(OVERFLOW, 2, rule)))
            answers.hold(answer, step_scenes.under(OVERFLOW, 2, rule), "its scene")
            self.assertEqual(list(answer_files.warnings(answer)),
                             ["error_not_a_number" if rule % 2 else "passed_over"])
            self.assertEqual((answer.passed_over, math.isnan(answer.error[0])), (rule % 2 == 0, rule % 2 == 1))


if __name__ == "__main__":
    unittest.main()
