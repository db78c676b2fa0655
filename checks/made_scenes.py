"""Packed scenes for compare.py and record.py, made by a fixed generator: the same seed gives the
same scenes everywhere. Each is in one of FORMS, a version with a rule.

`made(seed, name, axes)` goes on yielding scenes of a class (CLASSES has the names and what is in
each), solid ones or flat. parts/packing.py says what an unpacked scene looks like.
"""
import math

from parts.averages import passed_over
from parts.drawing import LIMITS, Draw, drop, few, lattice_scene, mixed, pair, scaled
from parts.limits import at_an_error
from parts.many_terms import many, sums
from parts.packing import pack, unpack
from parts.step_rules import FLAT, SOLID
from parts.step_scenes import FORMS

LONGEST = 32768


# ---- zero densities, and damage

def empty_density(d):
    """A scene in which some density, or predicted density, is likely a zero."""
    value = mixed(d, (1, d.nice))
    s = few(d, value, own=4, bare=6)
    particles = [p for f in s["fluids"] for p in f[1]]
    p = d.of(particles)
    if d.one_in(2) and p[1]:      # terms that cancel: each contact again with its weight's sign turned
        p[1] = [c[:2] + [x] + c[3:] for c in p[1] for x in (c[2], -c[2])]
        p[2] = []
    elif len(particles) > 1:      # scene B of the examples, drawn apart so that the predicted density is 0
        weight = d.of((1.0, 2.0, 0.5))
        for (m, f) in enumerate(s["fluids"]):
            if len(f[1]) > 1:
                f[0] = 1.0
                f[1][:2] = pair(d, -0.5 * weight, 1.0, weight, warm=(d.nice(), d.nice()), model=m)
                s["head"][0], s["head"][3:] = 1.0, d.along(0.0)
    return s


# What is put into bytes 0 and 1 of a damaged scene.
FIRST = {SOLID: bytes.fromhex("00 10 11 18 19 1F 20 21 28 29 2F 30 31 39 F1"),
         FLAT: bytes.fromhex("00 11 21 30 31 39 40 41 42 43 48 49 4F 50 51 59 F1")}
SECOND = bytes.fromhex("00 01 02 03 04 0F 10 11 13 14 80 81 83 84 90 91 93 94 9F F0")


def damaged(d, data):
    """A copy that is cut, longer, or changed in some bytes, a double, a count or a name."""
    data, gravity = bytearray(data), [28 + 8 * k for k in range(d.axes)]
    behind = gravity[-1] + 8      # the header

    def put(at, new):
        data[at:at + len(new)] = new[:max(0, len(data) - at)]

    for _ in range(d.of((1, 1, 1, 2, 3))):
        at, kind = d.below(max(1, len(data))), d.below(10)
        if kind == 0:
            del data[at:]
        elif kind == 1:
            del data[max(0, len(data) - 1 - d.below(12)):]
        elif kind == 2:
            data += bytes(d.below(256) for _ in range(1 + d.below(3)))
        elif kind == 3:
            put(at, bytes([d.of((0, 1, 0x7F, 0x80, 0xFF, d.below(256)))]))
        elif kind == 4:
            put(d.of((4, 12, 20, *gravity, behind + 2, at)),
                bytes.fromhex(d.of(("7FF0", "FFF0", "7FF8", "FFF8")) + d.of(("000000000000", "000000000001"))))
        elif kind == 5:
            put(d.of((behind, behind, at)), d.of((b"\x10\x00", b"\x10\x01", b"\x90\x01", b"\xFF\xFF", b"\x00\x02")))
        elif kind == 6:
            put(0, bytes([d.of(FIRST[d.axes])]))
        elif kind == 7:
            put(1, bytes([d.of(SECOND)]))
        else:
            s = unpack(bytes(data))
            lists = s and [c for kind in ("fluids", "walls") for _, particles in s[kind]
                           for p in particles for list_of in p[1:] for c in list_of]
            if lists:
                for _ in range(d.of((1, 2, 3))):
                    d.of(lists)[d.below(2)] = d.of((0, 1, 2, 3, 8, 15))
                data = bytearray(pack(s))
    return bytes(data)


# ---- the classes

DOWN = (0, -100, -200, 100), (0, -250, -350, 200), (0, 0, -500, -700), (0, -20, -1000, 30)


def nice(d): return few(d, mixed(d, (1, d.nice)))
def random(d): return few(d, mixed(d, (1, d.random)))
def extreme(d): return few(d, mixed(d, (d.of((2, 8)), d.random), (1, d.extreme)), wild_head=d.one_in(2))
def subnormal(d): return few(d, mixed(d, (d.of((2, 8)), d.random), (1, d.subnormal)), wild_head=d.one_in(3))
def zeros(d): return few(d, mixed(d, (2, d.nice), (d.of((1, 3)), d.zero)), wild_head=d.one_in(3))
def lists(d): return few(d, mixed(d, (1, d.random), (1, d.nice)), own=d.of((0, 2, 16)), twice=2, bare=d.of((0, 4, 8)))
def underflowing(d): return scaled(d, few(d, mixed(d, (1, d.random))), d.of(DOWN))


def overflowing(d):
    return scaled(d, few(d, mixed(d, (1, d.random)), most=(1, 2, 3, 5)), d.of([[-e for e in es] for es in DOWN]))


def models(d):
    counts = [d.of((0, 0, 1, 2)) for _ in range(d.below(9))]
    kept = [(d.below(2), d.of((0, 1, 2))) for _ in range(d.below(9))]
    return few(d, mixed(d, (1, d.random), (1, d.nice)), counts, kept)


def crowd(d):
    """More particles and longer lists, now and then more than a program's standard input takes."""
    n, value = 4 + d.below(d.of((8, 24))), mixed(d, (3, d.random), (1, d.nice))
    s = few(d, value, [n - d.below(n), d.below(4)], [(1, 2), (0, 2)], twice=2, most=(1, 2, 3, 6))
    for p in s["fluids"][0][1]:
        p[1] += [[0, d.below(len(s["fluids"][0][1])), abs(value()), *d.vector(value)]
                 for _ in range(d.of((4, 8, 8, 40)))]
    return s


def settling(d):
    """Pairs and rings that press on each other, from loosely to hard; limits that are met early,
    late or never."""
    s = few(d, mixed(d, (1, d.random)), [2 + d.below(2)], [(1, 1)] if d.one_in(2) else [], most=(0, 1, 2, 3, 5, 12, 50))
    for p in s["fluids"][0][1]:
        p[0][-2], s["fluids"][0][0] = 0.5 + d.unit(), 0.5 + d.unit()
        for c in p[1] + p[2]:
            c[2] = abs(c[2]) + 0.1
    s["head"] = [d.of((0.1, 0.5, 1.0)), d.unit(), d.of((1e-6, 1e-3, 0.01, 0.05, 0.2, 1.0)),
                 *d.upward(-d.unit())]
    return s


def aimed(d):
    """Scene B of the examples and others of two particles, with numbers at a rule's edge."""
    rest, near_one, kind = 1.0, 1.0 - d.unit() / 16.0, d.below(7)
    if kind == 0:      # |aii| at 1e-9 and beside it
        small = d.sign(d.of((1e-9, math.nextafter(1e-9, 1.0), math.nextafter(1e-9, 0.0), 1e-8, 1e-9)))
        itself, steep = [0, 0, 2.0, *d.along(0.0)], [0, 1, 0.0, *d.along(d.sign(2.0**21))]
        drops = [drop(d, [itself, steep], d.nice()), drop(d, [itself], volume=small * 2.0**-40)]
    elif kind == 1:    # errors and limits that are small whole numbers or halves
        drops = pair(d, d.of((1.0, 0.5, 2.0, 0.0)), d.of((1.0, 2.0)), d.of((1.0, 2.0)),
                     warm=(abs(d.nice()), abs(d.nice())))
    elif kind == 2:    # a quotient that overflows before it is halved
        drops = pair(d, near_one * 0.89e308, d.sign(0.4 * near_one))
    elif kind == 3:    # aii at the end of the range
        drops = pair(d, d.random(), 2.0**511 * (1.0 + 0.41 * d.unit()))
    elif kind == 4:    # next pressures of exactly 0
        drops = pair(d, 0.0, d.of((1.0, 2.0, 0.5)), warm=(abs(d.nice()), abs(d.nice())))
    elif kind == 5:    # a rest density below 0: Ihmsen's terms become -0
        rest = -d.of((1.0, 0.5, 2.0))
        drops = pair(d, d.of((1.0, 0.5, 2.0)), d.of((1.0, 2.0)), volume=1.0 / rest)
    else:              # terms, and an average, of a few subnormals
        rest = d.sign(2.0**500)
        drops = pair(d, 0.0, 2.0**250, rest * 2.0**-250, rest * 2.0**-750,
                     (d.below(9) * 2.0**-572, d.below(9) * 2.0**-572))
    least, most, head = d.of((0, 1, 2)), d.of((1, 1, 2, 3, 4)), [1.0, d.nice(), d.of(LIMITS), *d.along(0.0)]
    return {"least": least, "most": most, "head": head, "fluids": [[rest, drops]], "walls": []}


CLASSES = {
    "nice": (nice, "small whole numbers and halves"),
    "random": (random, "random numbers"),
    "settling": (settling, "particles that press on each other, with limits met early, late or never"),
    "extreme": (extreme, "some numbers very large or small, or of any finite pattern"),
    "subnormal": (subnormal, "some numbers subnormal"),
    "zeros": (zeros, "many zeros of both signs"),
    "underflowing": (underflowing, "random scenes moved by powers of 2 so that products underflow"),
    "overflowing": (overflowing,
                    "random scenes moved by powers of 2 so that products overflow to infinities and not-a-numbers"),
    "lists": (lists, "contacts with itself, repeated ones, and missing lists"),
    "models": (models, "up to eight fluids and eight walls, many empty"),
    "lattice": (lattice_scene, "lattices with kernel weights"),
    "crowd": (crowd, "more particles and longer lists"),
    "aimed": (aimed, "two particles, with numbers at the edge of a rule"),
    "zero density": (empty_density, "densities and predicted densities that are zero"),
    "passed over": (passed_over, "averages that are not a number, beside infinite ones, plain ones and empty fluids"),
    "sums": (sums, "fluids of one to some hundred particles, whose terms add up to a sum that hangs on the summation"),
    "limits": (None, "scenes of all above, with a limit at the error of one of their iterations"),
    "damaged": (None, "damaged copies of all above but those"),
}


SIDES = {SOLID: ((6, 6, 6), (8, 8, 4), (5, 10, 10)), FLAT: ((15, 15), (32, 8), (20, 25))}


def large(d): return lattice_scene(d, SIDES, (1, 2, 5))


KEPT = LONGEST + 1      # bytes of a scene that is too long, and that a case program still keeps
# Classes that are longer than the program's standard input takes.
LARGE = {"large": (large, "lattices of some hundred particles"),
         "many": (many, "fluids of up to 4,096 particles with one to three contacts each")}
SOUND = [make for make, _ in CLASSES.values() if make]


def packed(d, make): return pack(dict(make(d), form=d.of(FORMS[d.axes])))


def one_of(d, name):
    """A scene of a class."""
    if name == "damaged":
        return damaged(d, packed(d, d.of(SOUND)))
    if name == "limits":
        return at_an_error(d, packed(d, d.of(SOUND)))
    return packed(d, CLASSES[name][0])


def made(seed, name, axes=SOLID):
    """Scenes of a class, without end."""
    if name in LARGE:
        d = Draw(seed, axes)
        while True:
            yield packed(d, LARGE[name][0])
    d = Draw(seed * 1000003 + list(CLASSES).index(name) * 7919, axes)
    while True:
        data = one_of(d, name)
        if len(data) <= LONGEST or d.one_in(16) and len(data) <= KEPT:
            yield data


if __name__ == "__main__":
    print(__doc__, end="")
