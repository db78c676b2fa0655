"""Scenes that are refused, and the longest ones, for cases_step.py and list_scenes.py."""
from parts.step_cases import swept
from parts.step_rules import LONGEST, SOLID, row
from parts.step_scenes import (EMPTY, FORMS, X, beside, changed, doubles, fluid, one, pair, particle, rich, scene,
                               scene_a, stone, to, under, wall)

INFINITE, NAN = bytes.fromhex("FFF0000000000000"), bytes.fromhex("7FF0000000000001")
# Where a header, and the scene `rich`, is cut, and the place of the field that then is not there.
HEADER_CUTS = (0, 0), (1, 1), (2, 2), (3, 3), (4, 4), (11, 4), (19, 12), (27, 20), (35, 28), (43, 36), (51, 44)
CUTS = ((52, 52), (53, 52), (61, 54), (72, 72), (103, 96), (159, 152), (160, 160), (161, 161), (163, 162), (171, 164),
        (195, 188), (231, 230), (263, 256), (388, 388), (389, 388), (437, 430), (438, 438), (440, 439), (448, 441),
        (460, 459), (461, 461), (487, 487), (497, 490))
# Places of doubles of the scene `rich`.
DOUBLES = (4, 12, 20, 28, 44, 54, 64, 72, 88, 104, 136, 144, 152, 164, 172, 188, 232, 256, 264, 380, 390, 414, 430,
           441, 451, 463, 479, 490)


# ---- refusals: number, comment, and scenes with places

def header_faults():
    whole = rich()
    yield 1, "a cut header", [(EMPTY[:n], at) for n, at in HEADER_CUTS]
    yield 1, "a cut in a count, a double, a contact", [(whole[:n], at) for n, at in CUTS]
    yield 1, "4,096 is a count, but no record follows", [
        (scene([fluid(1.0, count=4096)]), 62), (scene([], [b"\x10\0"]), 54), (scene([], [b"\x90\0"]), 54)]
    yield 1, "a cut header of version 2", [
        (under(EMPTY, 2, rule)[:n], at) for rule in (1, 3) for n, at in HEADER_CUTS[1:]]
    wrong_version = [(changed(EMPTY, 0, bytes([16 * x])), 0) for x in (0, 3, *range(5, 16))]
    yield 2, "version", wrong_version + [(b"\0", 0)]
    yield 2, "version, before 3", [(changed(EMPTY, 0, bytes([x])), 0) for x in (0x09, 0x39, 0xFF)]
    yield 3, "fluids", [(changed(EMPTY, 0, bytes([x])), 0) for x in (0x19, 0x1F, 0x29, 0x2F)] + [(b"\x19\x9F", 0)]


def rule_faults():
    """In the lower bits of byte 1; the number of walls in its upper ones is looked at first."""
    for version, rules in (1, range(1, 16)), (2, range(4, 16)):
        yield 2, "rule in version %d" % version, [(under(EMPTY, version, rule), 1) for rule in rules]
        for number, comment, walls in (2, "rule, before a later 1", 8), (3, "walls, before 2", 9):
            yield number, comment, [(bytes([version << 4, walls << 4 | rule]), 1) for rule in (rules[0], 15)]
    heads = b"\x10\x90", b"\x10\xF0", b"\x20\x90", b"\x20\x91", b"\x20\xF1", b"\x20\x92", b"\x20\xF3"
    yield 3, "walls", [(changed(EMPTY, 0, head), 1) for head in heads]


def field_faults():
    whole, lost = rich(), rich(near=(2, 0))
    too_many = [(scene([fluid(1.0, count=n)]), 52) for n in (4097, 0xFFFF)]
    yield 4, "counts of fluids", too_many + [(changed(whole, 62, b"\x10\x01"), 62)]
    counts = b"\x10\x01", b"\x90\x01", b"\x7F\xFF", b"\xFF\xFF"
    yield 4, "counts of walls behind their bit", [
        (changed(whole, at, count), at) for at in (388, 461) for count in counts]
    yield 5, "bytes follow; also before 7", [
        (EMPTY + b"\0", 52), (scene_a() + bytes(9), 186), (whole + b"\1", 498), (lost + b"\0", 498)]
    infinite = [(changed(EMPTY, 4, bytes.fromhex("7FF0")), 4)]
    yield 6, "not finite", infinite + [(changed(whole, at, INFINITE if at % 8 else NAN), at) for at in DOUBLES]
    yield 6, "before 7, and before a later 1", [
        (changed(lost, 490, NAN), 490), (changed(whole, 430, NAN)[:438], 430)]
    yield 1, "before 7, and before 6 of the same field", [
        (lost[:-1], 490), (changed(whole, 430, NAN)[:437], 430)]
    yield 4, "before 7", [(changed(lost, 461, b"\xFF\xFF"), 461)]


def name_faults():
    no_fluid, no_wall = ((0, 0), (1, 2), (2, 0), (15, 4095)), ((0, 1), (1, 0), (3, 0), (2, 1))
    yield 7, "fluid contacts", [(scene_a([to(0, 1, 2.0)]), 152)] + [(rich(near=name), 162) for name in no_fluid]
    yield 7, "wall contacts", [(rich(walls=name), 230) for name in no_wall]
    yield 7, "contacts of walls", [(rich(own=name), 439) for name in no_wall]
    yield 7, "under each form", [(under(rich(own=(3, 0)), *form), 439) for form in FORMS[SOLID]]
    yield 7, "the earliest; also before 9", [
        (rich(near=(2, 0), walls=(3, 0)), 162), (rich(walls=(3, 0), own=(3, 0)), 230),
        (rich(own=(3, 0), weight=-0.75), 439)]


def density_faults():
    whole, idle = rich(), rich(weight=-0.75)
    yield 9, "no contacts, also with most 0", [(scene_a([]), 62), (scene_a([], most=0), 62)]
    yield 9, "terms that cancel, rest -0, weight -0, underflow", [
        (idle, 72), (changed(whole, 64, doubles(-0.0)), 72), (changed(whole, 356, doubles(-0.0)), 264),
        (scene([one([to(0, 0, 1e-200)], volume=1e-200)]), 62)]
    yield 9, "before 10", [(scene([pair(speed=-0.5), one([])]), 320)]
    yield 9, "under rules 1 to 3", [
        (under(data, 2, rule), at) for rule in (1, 2, 3) for data, at in ((scene_a([]), 62), (idle, 72))]
    yield 10, "under rules 1 to 3", [(under(scene([pair(speed=-0.5)]), 2, rule), 62) for rule in (1, 2, 3)]
    yield 10, "scene B with -0.5 and 0.5, also with most 0, and as the second fluid", [
        (scene([pair(speed=-0.5)]), 62), (scene([pair(speed=-0.5)], most=0), 62),
        (scene([pair(), pair(1, speed=-0.5)]), 320)]


def told(refusals):
    """The cases: comment, scene and the only line of its text."""
    for number, comment, scenes in refusals:
        for data, at in scenes:
            yield comment, data, "refused %d %d\n" % (number, at)


def faults():
    return told([*header_faults(), *rule_faults(), *field_faults(), *name_faults(), *density_faults()])


# ---- the longest scenes

def many_particles(n, fluids, walls):
    """A fluid of n particles with one contact each, the first two with two; then these models."""
    many = [particle([to(0, (k + 1) % n, 1.0 + k % 7 / 8.0, (0.5, 0.125 * (k % 5), -0.25))] * (2 if k < 2 else 1),
                     velocity=(k % 11 / 4.0, k % 3 / 2.0, 0.0), volume=1.0 + k % 4 / 16.0) for k in range(n)]
    return scene([fluid(1.0, *many), *fluids], walls, most=12, dt=0.25)


def most_particles():
    """32,768 bytes with the most fluid particles."""
    return many_particles(263, [fluid(1.0)], [wall()] * 8)


def sizes():
    """Cases as in step_cases.py."""
    rows = most_particles()
    stones = wall(*[stone(velocity=X, force=(k / 3.0, -k / 7.0, 1e-3 * k)) for k in range(667)], keeps=1)
    longest = scene([], [stones, wall(stone()), wall(), wall()], least=254, most=255)
    assert len(rows) == len(longest) == LONGEST
    yield "32,768 bytes with the most fluid particles", rows, "step ranout 12 ", "fluid 0 262 "
    yield ("32,768 bytes with the longest text", longest, swept("settled", 255),
           row("wall 0 666", 0.0, 666 / 3.0, -666 / 7.0, 1e-3 * 666), row("wall 1 0", 0.0))
    yield "32,768 bytes, the last two beyond the last wall", changed(longest, 1, b"\x30"), "refused 5 32766\n"
    yield "one byte more", rows + b"\0", "too long\n"
    yield "32,769 zeros", bytes(LONGEST + 1), "too long\n"
    near = [to(0, 0, 0.25, (k / 256.0, 0.0, -0.5)) for k in range(255)]
    crowd = particle(near, [to(0, 0, 0.125, (0.0, k / 256.0, 0.5)) for k in range(255)], velocity=X)
    bed = wall(stone(*[beside(0, 0, 1.0 + k % 3) for k in range(255)], force=X), keeps=1)
    yield "255 contacts in each list", scene([fluid(1.0, crowd)], [bed], most=3)
