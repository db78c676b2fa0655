"""Flat scenes that are refused, for cases_step.py, in the form of step_faults.py. Places are those
of the specification's widths for two axes, written out: a header of 44 bytes, records of 66 and 26
for each contact, wall records of 17 or 33 and 10 for each contact."""
from parts.flat_cases import FLAT_EMPTY
from parts.packing import flat
from parts.step_faults import INFINITE, NAN, told
from parts.step_scenes import (EMPTY, beside, changed, doubles, fluid, one, pair, rich, scene,
                               scene_a, stone, to, under, wall)


def doubles_at(first, n): return [(first + 8 * k, 8) for k in range(n)]
def contact_at(first): return [(first, 2), *doubles_at(first + 2, 3)]
def beside_at(first): return [(first, 2), (first + 2, 8)]


# Place and size of each field of a header, and behind it of the scene `rich` without y.
HEADER = [(0, 1), (1, 1), (2, 1), (3, 1), *doubles_at(4, 5)]
RICH = [(44, 2), (46, 8), (54, 2), (56, 8),
        *doubles_at(64, 8), (128, 1), (129, 1),
        *contact_at(130), *contact_at(156), *contact_at(182),
        *doubles_at(208, 8), (272, 1), (273, 1), *contact_at(274),
        (300, 2), *doubles_at(302, 4), (334, 1), *beside_at(335), *beside_at(345),
        (355, 2), (357, 2), *doubles_at(359, 2), (375, 1), *beside_at(376)]
END = 386


def cut(data, fields):
    """Cut before each field, and before its last byte."""
    return [(data[:place + n], place) for place, size in fields for n in sorted({0, size - 1})]


def flat_rich(rule=0, **named): return flat(rich(**named), rule=rule)


def of_version(first): return changed(FLAT_EMPTY, 0, bytes([first]))


def form_faults():
    yield 1, "a cut flat header", cut(FLAT_EMPTY, HEADER) + cut(under(FLAT_EMPTY, 4, 3), HEADER)
    yield 1, "a cut flat scene", cut(flat_rich(), RICH) + cut(flat_rich(3), RICH)
    yield 2, "rule in version 4", [(under(FLAT_EMPTY, 4, rule), 1) for rule in range(4, 16)]
    yield 2, "rule in version 4, before a later 1", [(b"\x40\x84", 1), (b"\x40\x8F", 1)]
    yield 3, "flat walls, before 2", [(bytes([0x40, x]), 1) for x in (0x90, 0x94, 0x9F, 0xF3)]
    yield 3, "flat fluids", [(of_version(0x49), 0), (of_version(0x4F), 0), (b"\x49\x9F", 0)]
    yield 2, "versions beside 4", [(of_version(x << 4), 0) for x in (0, 3, *range(5, 16))]
    yield 5, "a solid header in version 4", [(under(EMPTY, 4, rule), 44) for rule in range(4)]
    yield 1, "a flat header in a version of three axes", [
        (under(FLAT_EMPTY, *form), 44) for form in ((1, 0), (2, 3))]
    yield 6, "scene A in version 4: a rest density out of gravity's z", [
        (changed(under(scene_a(), 4, 0), 44, b"\0\0\x7F\xF0"), 46)]


def field_faults():
    whole, lost = flat_rich(), flat_rich(near=(2, 0))
    places = [place for place, size in HEADER + RICH if size == 8]
    hollow, bare = flat(scene([fluid(1.0)])), flat(scene([], [wall()]))
    too_many = [(hollow, 44)] + [(whole, at) for at in (44, 54, 300, 355, 357)]
    yield 4, "flat counts", [(changed(data, at, b"\x10\x01"), at) for data, at in too_many]
    yield 4, "flat counts of walls behind their bit", [
        (changed(whole, at, b), at) for at in (300, 357) for b in (b"\x90\x01", b"\xFF\xFF")]
    yield 1, "4,096 flat particles, but no record follows", [
        (changed(hollow, 44, b"\x10\0"), 54), (changed(bare, 44, b"\x90\0"), 46)]
    yield 5, "bytes follow a flat scene; also before 7", [
        (FLAT_EMPTY + b"\0", 44), (flat(scene_a()) + bytes(9), 146), (whole + b"\1", END),
        (lost + b"\0", END)]
    yield 6, "not finite, flat", [
        (changed(whole, at, INFINITE if at % 8 else NAN), at) for at in places]
    yield 6, "flat, before 7, and before a later 1", [
        (changed(lost, 378, NAN), 378), (changed(whole, 326, NAN)[:334], 326)]
    yield 1, "flat, before 7, and before 6 of the same field", [
        (lost[:-1], 378), (changed(whole, 326, NAN)[:333], 326)]


def name_faults():
    no_fluid, no_wall = ((0, 0), (1, 2), (2, 0), (15, 4095)), ((0, 1), (1, 0), (3, 0), (2, 1))
    yield 7, "flat fluid contacts", [(flat(scene_a([to(0, 1, 2.0)])), 120)] + [
        (flat_rich(near=name), 130) for name in no_fluid]
    yield 7, "flat wall contacts", [(flat_rich(walls=name), 182) for name in no_wall]
    yield 7, "contacts of flat walls", [
        (flat_rich(rule, own=name), 335) for rule in (0, 3) for name in no_wall]
    yield 7, "the earliest, flat; also before 9", [
        (flat_rich(near=(2, 0), walls=(3, 0)), 130), (flat_rich(walls=(3, 0), own=(3, 0)), 182),
        (flat_rich(own=(3, 0), weight=-0.75), 335)]


def density_faults():
    for rule in range(4):
        yield 9, "flat", [(flat(scene_a([]), rule=rule), 54), (flat_rich(rule, weight=-0.75), 64),
                          (changed(flat_rich(rule), 276, doubles(-0.0)), 208)]
        yield 10, "flat", [(flat(scene([pair(speed=-0.5)]), rule=rule), 54),
                           (flat(scene([pair(), pair(1, speed=-0.5)]), rule=rule), 248)]
    yield 9, "before 10, flat", [(flat(scene([pair(speed=-0.5), one([])])), 248)]
    beneath, bed = one([], walls=[to(0, 0, 1.0, (1.0, 0.0, 0.5))]), wall(stone(beside(0, 0, 0.0)))
    yield 9, "a flat wall alone, of volume 0", [(flat(scene([beneath], [bed])), 54)]


def flat_faults():
    return told([*form_faults(), *field_faults(), *name_faults(), *density_faults()])
