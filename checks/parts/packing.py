"""Packed scenes taken apart and put together, for made_scenes.py, compare.py and others; and scenes
with an axis less, or one more.

A scene is a dict: form (version, rule), least, most, head (step length, remaining time, limit,
gravity), fluids and walls. A fluid is [rest, particles], a wall [keeps, particles]; a particle is [doubles, fluid
contacts, wall contacts], a wall's particle [doubles, contacts]; a contact is [model, number,
weight, gradient...].
"""
import struct

from parts.step_rules import AXES, FLAT, SOLID

# of a number of axes, the version that has all rules
VERSIONS = {axes: max(version for version, own in AXES.items() if own == axes) for axes in (SOLID, FLAT)}


def doubles(xs): return struct.pack(">%dd" % len(xs), *xs)
def contact(c): return struct.pack(">H", c[0] << 12 | c[1]) + doubles(c[2:])
def contacts(cs): return b"".join(map(contact, cs))


def pack(s):
    version, rule = s["form"]
    counts = bytes([version << 4 | len(s["fluids"]), len(s["walls"]) << 4 | rule, s["least"], s["most"]])
    parts = [counts, doubles(s["head"])]
    for rest, particles in s["fluids"]:
        parts += [struct.pack(">Hd", len(particles), rest)]
        parts += [doubles(numbers) + bytes([len(near), len(walls)]) + contacts(near) + contacts(walls)
                  for numbers, near, walls in particles]
    for keeps, particles in s["walls"]:
        parts += [struct.pack(">H", keeps << 15 | len(particles))]
        parts += [doubles(numbers) + bytes([len(walls)]) + contacts(walls) for numbers, walls in particles]
    return b"".join(parts)


def axes_of(data):
    """How many axes a packed scene has; that of a version that is not there counts as solid."""
    return AXES.get(data[0] >> 4, SOLID) if data else SOLID


def unpack(data):
    """The scene of a packed one that has all its fields and nothing more; None for any other. One of a
    version that is not there is read as a solid one."""
    at, axes = 0, axes_of(data)

    def take(form):
        nonlocal at
        at += struct.calcsize(">" + form)
        return list(struct.unpack_from(">" + form, data, at - struct.calcsize(">" + form)))

    def named(count, form):
        found = [take("H" + form) for _ in range(count)]
        return [[c[0] >> 12, c[0] & 0xFFF, *c[1:]] for c in found]

    def drop():
        numbers, (near, walls) = take("%dd" % (3 * axes + 2)), take("2B")
        return [numbers, named(near, "%dd" % (1 + axes)), named(walls, "%dd" % (1 + axes))]

    def stone(keeps):
        numbers, (walls,) = take("%dd" % ((1 + keeps) * axes)), take("B")
        return [numbers, named(walls, "d")]

    try:
        first, second, least, most = take("4B")
        s = {"form": (first >> 4, second & 15), "least": least, "most": most, "head": take("%dd" % (3 + axes)),
             "fluids": [], "walls": []}
        for _ in range(first & 15):
            count, rest = take("Hd")
            s["fluids"].append([rest, [drop() for _ in range(count)]])
        for _ in range(second >> 4):
            both, = take("H")
            s["walls"].append([both >> 15, [stone(both >> 15) for _ in range(both & 0x7FFF)]])
    except struct.error:
        return None
    return s if at == len(data) and pack(s) == data else None


# ---- an axis less, an axis more

def remade(data, axes, vector, rule=None):
    """The scene with so many axes, each of its vectors made anew; under its own rule or this one."""
    s, old = unpack(data), axes_of(data)

    def vectors(numbers): return [x for at in range(0, len(numbers), old) for x in vector(numbers[at:at + old])]
    def links(cs): return [c[:3] + vectors(c[3:]) for c in cs]

    fluids = [[rest, [[vectors(p[:-2]) + p[-2:], links(near), links(walls)] for p, near, walls in particles]]
              for rest, particles in s["fluids"]]
    walls = [[keeps, [[vectors(numbers), cs] for numbers, cs in particles]] for keeps, particles in s["walls"]]
    form = VERSIONS[axes], s["form"][1] if rule is None else rule
    return pack(dict(s, form=form, head=s["head"][:3] + vectors(s["head"][3:]), fluids=fluids, walls=walls))


def flat(data, dropped=1, rule=None):
    """A solid scene without one of its axes, the first having the number 0."""
    return remade(data, FLAT, lambda v: v[:dropped] + v[dropped + 1:], rule)


def solid(data, added):
    """A flat scene with an axis of +0 everywhere."""
    return remade(data, SOLID, lambda v: v[:added] + [0.0] + v[added:])


def is_idle(data, axis):
    """Is this axis +0 in every vector of a solid scene."""
    return solid(flat(data, axis), axis) == remade(data, SOLID, list)
