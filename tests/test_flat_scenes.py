"""Flat scenes, of version 4: how tools/scene.py packs, shows and refuses them. What is said of
every number of axes is tested for two and for three."""
import json
import unittest

from tests.test_scene import first_fault, refusal, scene, step_scenes

AXES = {1: 3, 2: 3, 4: 2}      # of each version
TIMES = {"step_length": 1, "remaining_time": 0, "error_limit": 0}
NAMED = {"particle": 0, "weight": 1}
TWO, THREE = "give two numbers, as in [0, -9.81]", "give three numbers, as in [0, 0, -9.81]"
FLAT, SOLID = "; for two axes set version to 4", "; for three axes set version to 1 or 2"


def packed(version, **members):
    """A scene with these members."""
    scene_of = {**TIMES, "version": version, "stopping": "salva", **members}
    return scene.pack(json.dumps(scene_of))[0]


def ink(version, **members):
    """A scene of a particle with these."""
    fluid = {"rest_density": 1, "particles": [{"volume": 1, **members}]}
    return packed(version, fluids=[fluid])


def wall(version, keeps=True, **members):
    """A scene of a wall particle with these."""
    return packed(version, walls=[{"keeps_forces": keeps, "particles": [members]}])


def without_z(value):
    """JSON's objects with the third number of each vector left out."""
    if isinstance(value, dict):
        return {key: without_z(part) for key, part in value.items()}
    if isinstance(value, list):
        return value[:2] if isinstance(value[0], float) else list(map(without_z, value))
    return value


def both(rule=0):
    """Packed with this rule: a scene that has some of everything, and the flat one that is left of
    it without z."""
    solid = scene.tree(scene.Walk(step_scenes.under(step_scenes.rich(), 2, rule)))
    flat = {**without_z(solid), "version": 4}
    return [scene.pack(json.dumps(found))[0] for found in (solid, flat)]


class Layout(unittest.TestCase):
    def test_sizes_are_those_of_the_format_for_its_axes(self):
        for version in 2, 4:
            d = AXES[version]
            header = 28 + 8 * d
            self.assertEqual(len(packed(version)), header)
            for n in 0, 1, 5:
                size = header + 10 + 18 + 24 * d + n * (10 + 8 * d)
                near, walls = [{"fluid": 0, **NAMED}] * n, [{"wall": 0, **NAMED}] * n
                self.assertEqual(len(ink(version, fluid_contacts=near)), size)
                self.assertEqual(len(ink(version, wall_contacts=walls)), size)
                for keeps, record in (False, 8 * d + 1), (True, 16 * d + 1):
                    self.assertEqual(len(wall(version, keeps, contacts=walls)),
                                     header + 2 + record + 10 * n)
        self.assertEqual([len(packed(4)), len(ink(4)), len(wall(4, False)), len(wall(4))],
                         [44, 44 + 10 + 66, 44 + 2 + 17, 44 + 2 + 33])

    def test_its_fields_are_those_of_three_axes_without_z(self):
        for rule in range(4):
            solid, flat = both(rule)
            self.assertEqual((flat[0], flat[1]), (0x42, 0x30 | rule))
            fields, left = ([(f.owner, f.name, f.raw) for f in scene.Walk(data).fields[1:]]
                            for data in (solid, flat))
            self.assertEqual([field for field in fields if not field[1].endswith(" z")], left)
            self.assertGreater(len(fields), len(left))

    def test_pack_of_show_is_the_same_bytes(self):
        for rule in range(4):
            flat = both(rule)[1]
            text, faults = scene.show(flat, True)
            self.assertEqual((scene.pack(text), faults), ((flat, []), []))
            found = json.loads(text)
            self.assertEqual((found["version"], len(found["gravity"])), (4, 2))

    def test_a_vector_that_is_left_out_is_zero_along_each_axis(self):
        for version, axes in AXES.items():
            zero = [0] * axes
            self.assertEqual(packed(version), packed(version, gravity=zero))
            self.assertEqual(ink(version), ink(version, position=zero, velocity=zero))
            self.assertEqual(ink(version), ink(version, acceleration=zero))
            self.assertEqual(wall(version), wall(version, velocity=zero, force=zero))

    def test_every_field_has_its_name_and_place(self):
        flat = both()[1]
        for at, name in ((28, "header: gravity x"), (36, "header: gravity y"),
                         (44, "fluid 0: count"), (54, "fluid 1: count"),
                         (64, "fluid 1, particle 0: position x"),
                         (72, "fluid 1, particle 0: position y"),
                         (80, "fluid 1, particle 0: velocity x"),
                         (112, "fluid 1, particle 0: volume"),
                         (130, "fluid 1, particle 0, fluid contact 0: the particle"),
                         (148, "fluid 1, particle 0, fluid contact 0: gradient y")):
            self.assertTrue(scene.at(flat, at)[0][0].startswith(name), scene.at(flat, at))
        self.assertIn("here a record begins: particle 0: position (", scene.at(flat, 64)[0][1])
        text = scene.show(flat, False)[0]
        self.assertIn("header: version 4, 2 fluids, 3 walls, rule 0 (salva, in order), ", text)
        self.assertRegex(text, r"gravity \([^,]+, [^,]+\)\n")

    def test_looks_are_those_of_three_axes_at_other_offsets(self):
        solid, flat = ([line.split("  ")[-1] for line in scene.looks(data)[0].splitlines()]
                       for data in both())
        self.assertEqual((flat, len(flat)), (solid, 6))


class Refusals(unittest.TestCase):
    def refused(self, message, make, *arguments, **members):
        with self.assertRaises(scene.Wrong) as raised:
            make(*arguments, **members)
        self.assertEqual(str(raised.exception), message)

    def test_a_vector_of_another_length_says_what_to_do(self):
        for version, vector, said in (
                (4, [0, 0, -9.81], TWO + SOLID), (4, [1], TWO), (4, [], TWO), (4, 7, TWO),
                (4, [0] * 4, TWO), (4, None, TWO), (1, [0, -9.81], THREE + FLAT),
                (2, [0, -9.81], THREE + FLAT), (2, [0] * 4, THREE), (2, "x", THREE)):
            words = {2: "two", 3: "three"}[AXES[version]]
            said = ": version %d has %s axes: " % (version, words) + said
            self.refused("gravity" + said, packed, version, gravity=vector)
            for key in "position", "velocity", "acceleration":
                self.refused("fluids[0].particles[0]." + key + said, ink, version, **{key: vector})
            for kind in "fluid", "wall":
                contacts = {kind + "_contacts": [{kind: 0, **NAMED, "gradient": vector}]}
                self.refused("fluids[0].particles[0].%s_contacts[0].gradient" % kind + said,
                             ink, version, **contacts)
            for key in "velocity", "force":
                self.refused("walls[0].particles[0]." + key + said, wall, version, **{key: vector})

    def test_a_scene_that_names_no_version_has_three_axes(self):
        for more, version in (({}, 1), ({"stopping": "salva"}, 2), ({"stopping": "ihmsen2014"}, 2),
                              ({"stopping": "salva", "summation": "by halves"}, 2)):
            named = {**TIMES, **more}
            data = scene.pack(json.dumps({**named, "gravity": [0, 0, 1]}))[0]
            self.assertEqual(data[0] >> 4, version)
            self.refused("gravity: version %d has three axes: " % version + THREE + FLAT,
                         scene.pack, json.dumps({**named, "gravity": [0, 1]}))

    def test_it_names_its_stopping(self):
        self.refused("stopping is missing, and version 4 does not tell it; "
                     'give "salva" or "ihmsen2014"',
                     scene.pack, json.dumps({**TIMES, "version": 4}))
        for rule, stopping, summation in (
                (0, "salva", "in order"), (1, "ihmsen2014", "in order"),
                (2, "salva", "by halves"), (3, "ihmsen2014", "by halves")):
            data = packed(4, stopping=stopping, summation=summation)
            self.assertEqual(data[:2], bytes([0x40, rule]))

    def test_a_rule_that_is_none_says_what_to_put_there(self):
        for rule in range(4, 16):
            data = bytes([0x40, rule]) + packed(4)[2:]
            said = scene.show(data, False)[1][0]
            self.assertIn("refusal 2 at 1: rule %d, the last four bits of byte 1, is none of "
                          "version 4; put there 00 hex for rule 0" % rule, said)
            self.assertNotIn("at byte 0", said)
        for rule in range(1, 4):      # version 4 has it too, but other axes
            said = scene.show(bytes([0x10, rule]) + packed(1)[2:], False)[1][0]
            self.assertRegex(said, "; or put 20 hex at byte 0 for version 2, which has it$")

    def test_the_first_fault_is_the_refusal(self):
        flat, met = both(3)[1], set()
        broken = [flat[:n] for n in range(len(flat))] + [flat + b"\0"]
        broken += [flat[:k] + b"\xff\xff" + flat[k + 2:] for k in range(len(flat) - 1)]
        for data in [flat, *broken]:
            self.assertEqual(first_fault(data), refusal(data))
            met.add((refusal(data) or [None])[0])
        self.assertEqual(met, {None, 1, 2, 3, 4, 5, 6, 7})


if __name__ == "__main__":
    unittest.main()
