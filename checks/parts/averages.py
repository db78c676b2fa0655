"""Scenes for made_scenes.py in which an average is not a number: in the first iteration, in each
second one or in all. The kinds of fluids are those of step_scenes.py with numbers that vary, so
that often enough nothing overflows. Beside them are plain fluids, empty ones and infinite averages.
"""
from parts.drawing import drop, pair


def itself(d, m, k): return [m, k, 1.0, *d.along(0.0)]
def against(d, slope): return [[0, 0, 0.0, *d.along(slope)]]


# ---- a fluid's rest density and particles; m is its number, `carrier` that of a fluid `carrying`

def overflowing(d, m, _):
    first = drop(d, [[m, 1, 1.0, *d.along(1.0)]], walls=against(d, -d.of((1e10, 1e8, 2.0))))
    return [1.0, [first, drop(d, [itself(d, m, 1)], warm=d.of((2e300, 1e300, 2e290)))]]


def rising(d, m, _):
    first = drop(d, [[m, 1, 1.0, *d.along(1.0)]], walls=against(d, -2.0**40))
    speed = d.of((2.0**1000, 2.0**990, 1e300 * d.unit()))
    return [1.0, [first, drop(d, [itself(d, m, 1)], speed, walls=against(d, d.of((1.0, 2.0))))]]


def torn(d, m, _):
    gradient = [d.sign(d.of((0.5, 0.25, 0.125))), d.sign(0.5), d.of((0.5, -0.5, 0.25, 0.0))][-d.axes:]
    faint = [m, 0, d.of((1e-154, 1e-154, 9e-155, 2e-154, 1e-155)), *gradient]
    return [1.0, [drop(d, [itself(d, m, 0)], warm=d.nice()),
                  drop(d, [faint], d.nice(), warm=d.of((8.0, 100.0, 4.0, 1.0)))]]


def weightless(d, _, carrier):
    near, speeds = [carrier, 0, 1.0, *d.along(1.0)], [d.of((0.0, 2.0, 1.0, -0.5, 3.0)) for _ in range(1 + d.below(2))]
    return [d.zero(), [drop(d, [near], speed) for speed in speeds]]


def carrying(d, m, _): return [1.0, [drop(d, [itself(d, m, 0)], warm=d.of((-4.0, -4.0, 1.0)))]]
def plain(d, m, _): return [1.0, pair(d, d.of((1.0, 0.5, 0.01, 0.0)), 1.0, warm=(abs(d.nice()), 0.0), model=m)]
def empty(d, *_): return [d.nice(), []]


KINDS = overflowing, rising, torn, torn, weightless, weightless, plain, empty


# ---- the scenes

def passed_over(d):
    kinds = [d.of(KINDS) for _ in range(1 + d.below(4))]
    carrier = d.below(len(kinds) + 1)
    if weightless in kinds:
        kinds.insert(carrier, carrying)
    fluids = [kind(d, m, carrier) for m, kind in enumerate(kinds)]
    return {"least": d.of((0, 0, 1, 1, 2)), "most": d.of((1, 2, 2, 3, 4, 5)), "fluids": fluids,
            "head": [1.0, d.nice(), d.of((0.05, 0.05, 1.0, 2.0, 1e300, -1.0)), *d.along(0.0)],
            "walls": [[0, [[d.along(0.0), [[0, 0, 1.0]]]]]]}
