"""tools/scene.py against the scenes of cases_step and cases_check, and against the reading of the
specification in checks/parts/step_rules.py."""
import contextlib
import functools
import io
import json
import pathlib
import random
import subprocess
import sys
import unittest

ROOT = pathlib.Path(__file__).resolve().parent.parent
sys.path[:0] = [str(ROOT / "tools"), str(ROOT / "checks")]
import reference                            # noqa: E402
import scene                                # noqa: E402
from parts import step_rules, step_scenes   # noqa: E402


@functools.cache
def listed():
    """The scenes of crates/cases_step."""
    return reference.unbatch(ROOT / "crates/cases_step/data/scenes")


@functools.cache
def checked():
    """The scenes of crates/cases_check, each with its refusal (number and place, or None) and its
    looks."""
    def answer(words):
        return (None, words[1:]) if words[0] == "accepted" else (tuple(map(int, words[:2])), words[2:])
    lines = (ROOT / "crates/cases_check/stdout").read_text().splitlines()
    scenes = reference.unbatch(ROOT / "crates/cases_check/data/scenes")
    return [(data, *answer(line.split())) for data, line in zip(scenes, lines, strict=True)]


@functools.cache
def refusal(data):
    """Number and place, by checks/parts/step_rules.py."""
    try:
        step_rules.walk(data)
    except step_rules.Refused as e:
        return e.args
    return None


@functools.cache
def walked(data): return scene.Walk(data)


def first_fault(data):
    faults = walked(data).faults
    return faults[0][:2] if faults else None


def refused(*arguments):
    """Status and message of a command that can't be carried out."""
    with contextlib.redirect_stderr(io.StringIO()) as said:
        return scene.main([str(a) for a in arguments]), said.getvalue()


def command(*arguments, given=b""):
    done = subprocess.run([sys.executable, "-B", str(ROOT / "tools/scene.py"), *map(str, arguments)], input=given,
                          capture_output=True, cwd=ROOT)
    return done.returncode, done.stdout, done.stderr.decode()


class Packed(unittest.TestCase):
    def test_pack_of_show_is_the_same_bytes(self):
        accepted = 0
        for data in listed():
            read = refusal(data)
            if read is None or read[0] == 7 or all(number in (6, 7) for number, _, _ in walked(data).faults):
                accepted += read is None
                self.assertEqual(scene.pack(scene.written(scene.tree(walked(data))))[0], data)      # as `show` does
            else:
                self.assertRaises(scene.Wrong, scene.show, data, True)
        self.assertGreater(accepted, 250)

    def test_first_fault_is_the_refusal(self):
        for data in listed():
            self.assertEqual(first_fault(data), refusal(data))
        for data, found, _ in checked():
            self.assertEqual(first_fault(data), found)

    def test_fields_cover_the_scene(self):
        for data in listed():
            at = 0
            for field in walked(data).fields:
                self.assertEqual(field.at, at)
                at += field.size
            if refusal(data) is None:
                self.assertEqual(at, len(data))

    def test_doubles_keep_their_bits(self):
        for digits in ("8000000000000000", "0000000000000001", "7FF8000000000001", "FFF0000000000000",
                       "3FB999999999999A"):
            data = scene.pack(json.dumps({"step_length": digits, "remaining_time": 0.1, "error_limit": 1e-320}))[0]
            self.assertEqual(data[4:12].hex().upper(), digits)
            self.assertEqual(scene.pack(scene.show(data, True)[0])[0], data)


class Places(unittest.TestCase):
    def test_the_example_of_the_head(self):
        lost = step_scenes.scene_a([step_scenes.to(0, 1, 2.0)])
        said = "\n".join(scene.at(lost, 152)[0])
        self.assertIn("fluid 0, particle 0, fluid contact 0: ", said)
        self.assertIn("refusal 7 at 152: ", said)
        self.assertIn("fluid 0 has 1 particle", said)

    def test_every_field_has_its_name(self):
        rich = step_scenes.rich()
        for at, name in ((0, "header: version and fluids"), (1, "header: walls and rule"),
                         (2, "header: least iterations"), (3, "header: most iterations"),
                         (4, "header: step length"), (51, "header: gravity z"), (52, "fluid 0: count"),
                         (54, "fluid 0: rest density"), (62, "fluid 1: count"),
                         (72, "fluid 1, particle 0: position x"),
                         (152, "fluid 1, particle 0: warm pressure"),
                         (160, "fluid 1, particle 0: number of fluid contacts"),
                         (161, "fluid 1, particle 0: number of wall"),
                         (196, "fluid 1, particle 0, fluid contact 1: the particle"),
                         (230, "fluid 1, particle 0, wall contact 0: the particle"),
                         (263, "fluid 1, particle 0, wall contact 0: gradient z"), (388, "wall 0: count"),
                         (414, "wall 0, particle 0: force x"),
                         (441, "wall 0, particle 0, contact 0: weight"), (459, "wall 1: count"),
                         (487, "wall 2, particle 0: number of contacts")):
            self.assertTrue(scene.at(rich, at)[0][0].startswith(name), (at, scene.at(rich, at)))

    def test_a_refusal_is_explained_where_it_stands(self):
        for data, found, _ in checked()[::7]:
            if found:
                said = scene.at(data, found[1])[0]
                self.assertTrue(any(line.startswith("refusal %d at %d: " % found) for line in said), said)

    def test_damage_never_stops_it(self):
        draw, rich = random.Random(1), step_scenes.rich()
        for _ in range(300):
            data = bytearray(rich[:draw.randrange(len(rich) + 1)] + bytes(draw.randrange(3)))
            for _ in range(draw.randrange(6)):
                if data:
                    data[draw.randrange(min(len(data), draw.choice((2, 70, 500))))] = draw.randrange(256)
            self.assertTrue(scene.at(bytes(data), draw.randrange(600))[0])
            self.assertTrue(scene.show(bytes(data), False)[0])
            self.assertEqual(len(scene.looks(bytes(data))[1]), 1 if scene.Walk(bytes(data)).faults else 0)


class Looks(unittest.TestCase):
    LOST = step_scenes.changed(step_scenes.rich(), 449, b"\xF0\0")

    def test_a_line_for_each_list_that_is_checked(self):
        text, notes = scene.looks(self.LOST)
        self.assertEqual(text.splitlines(), [
            "   162  fluid 1, particle 0, fluid contacts: 2 looks at 2 contacts",
            "   230  fluid 1, particle 0, wall contacts: 1 look at 1 contact",
            "   354  fluid 1, particle 1, fluid contacts: 1 look at 1 contact",
            "   388  fluid 1, particle 1, wall contacts: none",
            "   439  wall 0, particle 0, contacts: 2 looks at 2 contacts"])
        self.assertEqual(notes, scene.show(self.LOST, False)[1])
        self.assertIn(" 162  fluid 1, particle 0, fluid contacts: 1 look at 2 contacts\n",
                      scene.looks(step_scenes.rich(near=(2, 0)))[0])

    def test_the_looks_are_those_of_the_check(self):
        for data, found, looks in checked():
            text, notes = scene.looks(data)
            said = [line.split(": ")[1].split()[0].replace("none", "0") for line in text.splitlines()]
            self.assertEqual(said, looks)
            self.assertEqual(len(notes), 1 if found else 0)

    def test_status_and_outputs(self):
        cut = self.LOST[:-1]
        for data, status, lines, said in ((step_scenes.rich(), 0, 6, ""), (self.LOST, 1, 5, "refusal 7 at 449: "),
                                          (cut, 1, 0, "refusal 1 at 490: ")):
            found, text, noted = command("looks", "-", given=data)
            self.assertEqual((found, text.count(b"\n"), noted[:len(said)], noted.count("\n")),
                             (status, lines, said, status))


class Mistakes(unittest.TestCase):
    def test_messages_say_what_to_do(self):
        head = {"step_length": 1, "remaining_time": 0, "error_limit": 0}
        drop, name = {"volume": 1}, {"fluid": 0, "particle": 0, "weight": 1}

        def ink(**more): return {**head, "fluids": [{"rest_density": 1, "particles": [{**drop, **more}]}]}
        for text, piece in (
                ("", "no JSON"), ("{", "no JSON"), ("[" * 99999, "no JSON"), (b"\xff\xfe\x00", "no JSON"),
                ("9" * 5000, "no JSON"), ("[]", "the scene: give an object"),
                ('{"step_length": NaN}', "16 hex digits"), ('{"a": 1, "a": 2}', "stands twice"),
                ({}, "step_length is missing"), ({**head, "gravty": 0}, "'gravty' is no name"),
                ({**head, "least_iterations": 256}, "from 0 to 255"),
                ({**head, "most_iterations": True}, "whole number"), ({**head, "gravity": [0, 1]}, "three numbers"),
                ({**head, "step_length": "0.5"}, "16 hex digits"),
                ({**head, "step_length": None}, "step_length: give a decimal"),
                ('{"step_length": 1e999, "remaining_time": 0, "error_limit": 0}', "too large"),
                ({**head, "step_length": 10**400}, "too large"),
                ({**head, "fluids": [{"rest_density": 1}] * 9}, "fluids: give a list of at most 8, not of 9"),
                ({**head, "walls": {}}, "walls: give a list"),
                ({**head, "fluids": [{}]}, "fluids[0].rest_density is missing"),
                (ink(volume=[1]), "fluids[0].particles[0].volume: give a decimal"),
                (ink(fluid_contacts=[name] * 256), "at most 255"),
                (ink(fluid_contacts=[{**name, "fluid": 16}]),
                 "fluid_contacts[0].fluid: give a whole number from 0 to 15"),
                (ink(fluid_contacts=[{**name, "particle": 4096}]), "from 0 to 4095"),
                (ink(wall_contacts=[name]), "'fluid' is no name"),
                ({**head, "walls": [{"keeps_forces": 1}]}, "true or false"),
                ({**head, "walls": [{"particles": [{"force": [0, 0, 0]}]}]}, "keeps none; take it out"),
                ({**head, "walls": [{"particles": [{}] * 4097}]}, "at most 4096")):
            with self.assertRaises(scene.Wrong) as raised:
                scene.pack(text if isinstance(text, (str, bytes)) else json.dumps(text))
            self.assertIn(piece, str(raised.exception))

    def test_what_a_step_will_refuse_is_noted(self):
        lost = scene.tree(scene.Walk(step_scenes.scene_a([step_scenes.to(0, 1, 2.0)])))
        self.assertIn("refusal 7 at 152", scene.pack(json.dumps(lost))[1][0])
        wide = {"step_length": 1, "remaining_time": 0, "error_limit": 0, "walls": [{"particles": [{}] * 1400}]}
        self.assertIn("the program takes 32768", scene.pack(json.dumps(wide))[1][0])

    def test_commands(self):
        whole = ROOT / "examples/scene-a.bin"
        self.assertEqual(command("pack", ROOT / "examples/scene-a.json", "-")[:2], (0, whole.read_bytes()))
        for arguments, status, piece in ((["show", ROOT / "none.bin"], 2, "check the file's name"),
                                         (["at", "here", whole], 2, "here is no offset"),
                                         (["at", "-1", whole], 2, "-1 is no offset"),
                                         (["show", ROOT], 2, "check"),
                                         (["pack", whole, "-"], 1, "no JSON"), ([], 2, "here is how to use it"),
                                         (["shew"], 2, "there is no command shew"),
                                         (["show"], 2,
                                          "`show` got 0 arguments; this is what it takes: tools/scene.py show [--json] "
                                          "SCENE.bin\n"),
                                         (["at", whole], 2,
                                          "`at` got 1 argument; this is what it takes: tools/scene.py at OFFSET "
                                          "SCENE.bin\n"),
                                         (["pack", "--json", whole, "-"], 2,
                                          "`pack` has no option --json; this is what it takes: tools/scene.py pack"),
                                         (["show", "--json", "--json", whole], 2, "`show` takes only one --json")):
            found, said = refused(*arguments)
            self.assertEqual((found, piece in said), (status, True), said)
            # the whole head only where no command is known
            self.assertEqual("JSON, in the words" in said, status == 2 and "here is how" in said)
        found, text, said = command("show", "-", given=whole.read_bytes()[:100])
        self.assertEqual((found, said[:18]), (1, "refusal 1 at 94: f"))
        self.assertIn(b"velocity (0.0), velocity y cut short", text)

    def test_a_look_up_in_a_damaged_scene(self):
        sound = (ROOT / "examples/torn-droplet.bin").read_bytes()
        self.assertEqual(scene.at(sound, 310)[1:], ([], True))      # refused 9, but not damaged
        for data, offset, said in ((sound[:-1], 4, "refusal 1 at 399: "), (sound + b"x", 4, "refusal 5 at 400: "),
                                   (b"\x30" + sound[1:], 4, "refusal 2 at 0: ")):
            _, notes, whole = scene.at(data, offset)
            self.assertEqual((len(notes), notes[0].startswith("a step refuses this scene, " + said), whole),
                             (1, True, False))
        for data, offset in ((sound, 400), (step_scenes.scene_a([step_scenes.to(0, 1, 2.0)]), 152)):
            self.assertEqual(scene.at(data, offset)[1:], ([], False))
        found, text, said = command("at", 4, "-", given=sound[:-1])
        self.assertEqual((found, text[:20], said[:27]), (1, b"header: step length ", "a step refuses this scene, "))


if __name__ == "__main__":
    unittest.main()
