"""Numbers and scenes drawn by a fixed generator, for made_scenes.py: a few particles with numbers
of some kind, and lattices with kernel weights. A Draw knows how many axes its scenes have."""
import itertools
import math
import struct

from parts.step_rules import FLAT, SOLID, dot

LARGEST, LEAST = 1.7976931348623157e308, 5e-324


# ---- drawing numbers

class Draw:
    """Splitmix64."""

    def __init__(self, seed, axes=SOLID):
        self.state, self.axes = seed, axes

    def word(self):
        self.state = self.state + 0x9E3779B97F4A7C15 & 0xFFFFFFFFFFFFFFFF
        z = self.state
        z = (z ^ z >> 30) * 0xBF58476D1CE4E5B9 & 0xFFFFFFFFFFFFFFFF
        z = (z ^ z >> 27) * 0x94D049BB133111EB & 0xFFFFFFFFFFFFFFFF
        return z ^ z >> 31

    def below(self, n): return self.word() % n
    def of(self, pool): return pool[self.below(len(pool))]
    def one_in(self, n): return self.below(n) == 0
    def unit(self): return (self.word() >> 11) / 2.0**53
    def sign(self, x): return -x if self.one_in(2) else x
    def weighted(self, pool): return self.of([x for n, x in pool for _ in range(n)])

    # Vectors: of drawn numbers; with these of the first axes, as far as there are so many; along the last axis.
    def vector(self, value): return [value() for _ in range(self.axes)]
    def along(self, *xs): return [*xs, *[0.0] * self.axes][:self.axes]
    def upward(self, x): return [0.0] * (self.axes - 1) + [x]

    # The five kinds of values that a class mixes.
    def nice(self): return self.sign(self.of((0.0, 1.0, 0.5, 2.0, 0.25, 3.0, 0.125, 4.0, 1.5, 10.0)))
    def zero(self): return self.sign(0.0)

    def random(self):
        if self.one_in(2):
            return 2.0 * self.unit() - 1.0
        return self.sign(math.ldexp(1.0 + self.unit(), self.below(13) - 6))

    def subnormal(self):
        few = LEAST, 2 * LEAST, 3 * LEAST, 2.0**-1023, 2.0**-1022, 2.0**-1060 * self.unit(), 2.0**-1021 * self.unit()
        return self.sign(self.of(few))

    def extreme(self):
        pattern = self.below(0x7FF) << 52 | self.word() >> 12
        return self.sign(self.of((LARGEST, 1e300, 1e154, 2.0**512, 1e17, 1e-17, 2.0**-511, 1e-154, 1e-300,
                                  struct.unpack(">d", struct.pack(">Q", pattern))[0])))


# ---- a scene of a few particles; `value` gives a double, `size` one for volumes, rest densities
# and own weights, which is mostly above 0

LIMITS = 0.05, 0.5, 0.25, 1.0, 2.0, 5.0, 1e-3, 0.0, -0.0, -1.0
STEPS = 0.1, 0.5, 1.0, 0.25, 0.01, 2.0, -0.5


def few(d, value, counts=None, kept=None, wild_head=False, own=16, twice=0, bare=0, most=(0, 1, 1, 2, 2, 3, 4, 7, 20)):
    def size():
        return value() if d.one_in(8) else abs(value()) or 1.0

    counts = [1 + d.below(3) for _ in range(1 + d.one_in(3))] if counts is None else counts
    kept = [(d.below(2), 1 + d.below(2)) for _ in range(d.below(3))] if kept is None else kept
    drops = [(m, k) for m, n in enumerate(counts) for k in range(n)]
    stones = [(m, k) for m, (_, n) in enumerate(kept) for k in range(n)]
    near = {name: [[*name, size(), *d.vector(lambda: value() if d.one_in(4) else 0.0)]]
            if own and d.below(own) else [] for name in drops}
    for _ in range(d.below(2 * len(drops) + 1) if drops else 0):
        i, j, weight, gradient = d.of(drops), d.of(drops), value(), d.vector(value)
        near[i].append([*j, weight, *gradient])
        if d.below(3):      # a pair as a kernel gives it: the other way round the gradient's signs are turned
            near[j].append([*i, weight, *[-x for x in gradient]])
    walls = {name: [[*d.of(stones), value(), *d.vector(value)] for _ in range(d.below(3))] if stones else []
             for name in drops}
    for lists in near, walls:
        for name in drops:
            if lists[name] and twice and d.below(twice) == 0:
                lists[name] += [d.of(lists[name]) for _ in range(1 + d.below(3))]
            if bare and d.below(bare) == 0:
                lists[name] = []
    def vectors(n): return [x for _ in range(n) for x in d.vector(value)]

    fluids = [[size(), [[vectors(3) + [size(), value()], near[m, k], walls[m, k]] for k in range(n)]]
              for m, n in enumerate(counts)]
    beds = [[keeps, [[vectors(1 + keeps), [[*d.of(stones), size()] for _ in range(d.below(3))]] for _ in range(n)]]
            for keeps, n in kept]
    head = [value() if wild_head else d.of(STEPS), value(), value() if wild_head or d.one_in(4) else d.of(LIMITS),
            *d.vector(value)]
    return {"least": d.of((0, 0, 1, 1, 2, 3)), "most": d.of(most), "head": head, "fluids": fluids, "walls": beds}


def drop(d, near, speed=0.0, volume=1.0, warm=0.0, walls=()):
    """A particle that moves along an axis, or not at all."""
    return [[*d.along(0.0), *d.along(speed), *d.along(0.0), volume, warm], near, list(walls)]


def pair(d, speed, slope, weight=1.0, volume=1.0, warm=(0.0, 0.0), model=0):
    """The particles of scene B of the examples, with these numbers."""
    return [drop(d, [[model, 1, weight, *d.along(slope)]], speed, volume, warm[0]),
            drop(d, [[model, 0, weight, *d.along(-slope)]], -speed, volume, warm[1])]


def mixed(d, *pool):
    """Values of these kinds, as often as their numbers say."""
    return lambda: d.weighted(pool)()


def scaled(d, s, exponents):
    """The scene with its quantities moved by powers of 2 (a weight by one, a gradient by another,
    ...), so that its products and quotients fall elsewhere."""
    volume, rest, weight, gradient, speed, warm, time = (d.of(exponents) for _ in range(7))

    def moved(xs, exponent):
        return [math.ldexp(x, exponent) if math.frexp(x)[1] + exponent <= 1024 else math.copysign(LARGEST, x)
                for x in xs]

    def list_of(cs): return [c[:2] + moved(c[2:3], weight) + moved(c[3:], gradient) for c in cs]

    s["head"][:1], s["head"][3:] = moved(s["head"][:1], time), moved(s["head"][3:], speed)
    for f in s["fluids"]:
        f[0], = moved(f[:1], rest)
        for p in f[1]:
            p[0] = p[0][:d.axes] + moved(p[0][d.axes:-2], speed) + moved(p[0][-2:-1], volume) + moved(p[0][-1:], warm)
            p[1:] = list_of(p[1]), list_of(p[2])
    for w in s["walls"]:
        for p in w[1]:
            p[0], p[1] = moved(p[0][:d.axes], speed) + p[0][d.axes:], list_of(p[1])
    return s


# ---- kernel weights on lattices

def shapes(q):
    """The shapes of weight and slope, as docs/METHOD.md, 1, has them."""
    t = 1.0 - q
    weight = 1.0 + ((q * q) * q - q * q) * 6.0 if q <= 0.5 else ((t * t) * t) * 2.0 if q <= 1.0 else 0.0
    slope = 0.0 if q > 1.0 or q <= 1e-5 else (((q * 3.0) - 2.0) * q) * 6.0 if q <= 0.5 else ((-t) * t) * 6.0
    return weight, slope


NORMALIZERS = {SOLID: 8.0, FLAT: 40.0 / 7.0}      # of radius 1, times pi


def normalizer(h, axes=SOLID):
    """Of a radius above 0. A quotient by 0 is infinite, where Python's raises."""
    divisor = math.pi
    for _ in range(axes):
        divisor *= h
    return NORMALIZERS[axes] / divisor if divisor else math.inf


def kernel(r, h, axes=SOLID):
    scale, (weight, slope) = normalizer(h, axes), shapes(r / h)
    return scale * weight, (scale * slope) / h


SMALL = {SOLID: ((1, 1, 2), (2, 1, 2), (2, 2, 2), (1, 1, 4), (3, 1, 1), (2, 2, 1), (3, 2, 2), (3, 3, 1)),
         FLAT: ((1, 2), (2, 2), (1, 4), (3, 1), (4, 2), (3, 3), (3, 4))}


def lattice_scene(d, sides=SMALL, most=(1, 2, 5, 50)):
    radius, loose = d.of((0.5, 0.05, 0.3)), d.of((0.0, 0.1, 0.3))
    h, gap = radius * d.of((2.5, 3.0, 4.0)), 2.0 * radius * d.of((1.0, 0.9, 0.8, 1.05))
    *across, height = d.of(sides[d.axes])

    def grid(layers, floor):
        """So many layers from this one on; the last axis points up."""
        return [[(c + loose * (d.unit() - 0.5)) * gap for c in at]
                for at in itertools.product(*map(range, across), range(floor, floor + layers))]

    bed_layers = d.of((0, 1, 1))
    drops, bed = grid(height, 0), grid(bed_layers, -bed_layers)
    cut = d.below(len(drops) + 1) if d.one_in(4) else len(drops)      # the rest is a second fluid
    names = [(0, k) if k < cut else (1, k - cut) for k in range(len(drops))]

    def against(p, others, gradient):
        found = []
        for name, q in others:
            apart = [a - b for a, b in zip(p, q)]
            r = math.sqrt(dot(apart, apart))
            if r <= h:
                weight, slope = kernel(r, h, d.axes)
                found.append([*name, weight, *([a / r * slope if r > 0.0 else 0.0 for a in apart] if gradient else [])])
        return found

    stones = [((0, k), q) for k, q in enumerate(bed)]
    rest, speed = d.of((1000.0, 1.0, 700.0)), d.of((0.1, 1.0, 5.0))

    def falling(): return [speed * (d.unit() - 0.5) for _ in across] + [-speed * d.unit()]

    records = [[p + falling() + d.along(0.0) + [0.8 * gap**d.axes, d.of((0.0, 0.0, 100.0 * d.unit()))],
                against(p, list(zip(names, drops)), True), against(p, stones, True)] for p in drops]
    keeps = d.below(2)
    return {"least": 1, "most": d.of(most),
            "head": [d.of((1e-3, 0.01, 0.1)), 0.1, d.of((0.05, 0.01, 1e-4)), *d.upward(-9.81)],
            "fluids": [[rest, records[:cut]], [rest * 0.5, records[cut:]]] if cut < len(drops) else [[rest, records]],
            "walls": [[keeps, [[d.along(0.0) * (1 + keeps), against(q, stones, False)] for q in bed]]]
            if bed or d.one_in(2) else []}
