"""Scenes for made_scenes.py whose fluids have many error terms, of all sizes and both signs, so that
a fluid's sum hangs on how it is split. `laden`, `level` and `faint` are those of step_scenes.py with
numbers that vary; particles of `linked` press on each other."""
import math

from parts.drawing import LARGEST, drop

HIGH, LOW = 0.75 * 2.0**1023, -0.4375 * 2.0**1023


def term(d):
    """One of -0.5 would make a predicted density of 0."""
    return d.weighted(((6, lambda: d.random() + d.unit()), (2, lambda: d.sign(d.of((1.0, 2.0, 0.25)))), (1, d.zero),
                       (1, lambda: d.sign(2.0**54)), (2, lambda: math.ldexp(1.0 + d.unit(), d.below(50)))))()


def beds(d):
    """Walls of a particle each, with volumes 1 and -0.5."""
    return [[0, [[d.along(0.0), [[0, 0, 1.0]]]]], [0, [[d.along(0.0), [[1, 0, -2.0]]]]]]


def bearing(d, x, warm=0.0):
    """A particle with this term, if its warm pressure is 0."""
    if x < 0.0:
        return drop(d, [], -4.0 * x, warm=warm, walls=[[1, 0, -2.0, *d.along(1.0)]])
    return drop(d, [], 2.0 * x, warm=warm, walls=[[0, 0, 1.0, *d.along(1.0)]])


# ---- a fluid's rest density and its n particles; m is its number

def laden(d, n, _): return [1.0, [bearing(d, term(d)) for _ in range(n)]]
def warmed(d, n, _): return [1.0, [bearing(d, term(d), abs(d.random())) for _ in range(n)]]
def overflowing(d, n, _): return [1.0, [bearing(d, d.of((HIGH, HIGH, HIGH, LOW, LOW, 0.0))) for _ in range(n)]]
def faint(d, n, _): return [1.0, [bearing(d, -0.0, d.of((2e-323, 2e-323, 0.0))) for _ in range(n)]]


def level(d, n, _):
    against = [0, 0, -1.0, *d.along(1.0)]
    return [-1.0, [drop(d, [], 3.0, -2.0, d.of((2.0, 2.0, 2.0, -64.0)), [against]) for _ in range(n)]]


def linked(d, n, m):
    """Each names itself and the next, and here and there one that is drawn or a wall."""
    rest, slope = 0.5 + d.unit(), 0.2 + d.unit()

    def near(k):
        found = [[m, k, 0.5 + d.unit(), *d.along(0.0)], [m, (k + 1) % n, d.unit(), *d.along(slope, d.random() / 8.0)]]
        return found + [[m, d.below(n), d.unit(), *d.along(-slope, 0.0, d.random() / 8.0)]] * d.one_in(4)

    return [rest, [drop(d, near(k), 2.0 * d.random(), 0.5 + d.unit(), d.of((0.0, d.unit())),
                        [[0, 0, d.unit(), *d.along(0.0, d.unit())]] * d.one_in(4)) for k in range(n)]]


def empty(d, *_): return [d.nice(), []]


KINDS = laden, laden, laden, laden, warmed, warmed, linked, linked, linked, level, overflowing, faint, empty
LARGE_KINDS = laden, warmed, linked, linked, linked


# ---- the scenes

def scene(d, fluids, most):
    return {"least": d.of((0, 0, 0, 1)), "most": d.of(most), "fluids": fluids, "walls": beds(d),
            "head": [1.0, d.nice(), d.of((0.05, 1.0, 2.0**40, LARGEST, 0.0, -0.0, -1.0)), *d.along(0.0)]}


def sums(d):
    """Up to four fluids, mostly of few particles; one in sixteen has up to 200."""
    counts = [d.of((1, 2, 3, 3, 4, 4, 5, 6, 7, 8, 9)) for _ in range(d.of((1, 1, 2, 3)))]
    if d.one_in(16):
        counts = [10 + d.below(191)]
    return scene(d, [d.of(KINDS)(d, n, m) for m, n in enumerate(counts)], (1, 1, 1, 2, 3, 8))


def many(d):
    """A fluid of up to 4,096 particles, at times at a power of 2, and others of a few."""
    size = d.of((int(4096.0 ** d.unit()), 2 ** d.below(12) + d.of((-1, 0, 1)), 4096, 4095, 1 + d.below(4096)))
    counts = [d.below(9) for _ in range(d.below(3))]
    counts.insert(d.below(len(counts) + 1), max(size, 1))
    fluids = [d.of(LARGE_KINDS)(d, n, m) if n else empty(d) for m, n in enumerate(counts)]
    return scene(d, fluids, (1, 1, 2, 3))
