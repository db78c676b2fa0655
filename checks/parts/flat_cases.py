"""Cases of flat scenes, for cases_step.py, in the form of step_cases.py: the specification's
scenes, those of the other cases without their y axis, which is +0 in most of them, and the longest.
"""
from parts.packing import flat, is_idle
from parts.rule_cases import of_ihmsen
from parts.step_cases import readings, starred, swept
from parts.step_faults import many_particles
from parts.step_rules import LONGEST, row
from parts.step_scenes import (EMPTY, X, beside, changed, fluid, particle, rich, scene, scene_a,
                               stone, to, under, wall)
from parts.sum_cases import sums
from parts.twins import flat_text

Y = 1      # the number of the axis that is dropped
FLAT_EMPTY = bytes.fromhex("40000132") + bytes(40)
TEXT_A = ("step settled 2 0000000000000000 0\n"
          "clock 3FE0000000000000 4000000000000000 3FE0000000000000\n"
          "fluid 0 0 0000000000000000 BFF0000000000000 0000000000000000 C000000000000000 "
          "0000000000000000\n")


# ---- scenes of the specification, and what two axes alone have

def of_two_axes():
    for rule in range(4):
        yield ("the empty flat scene", under(FLAT_EMPTY, 4, rule), swept("settled", 2),
               row("clock", 0.0, 0.0, 0.0))
        yield "scene A, flat", flat(scene_a(), rule=rule), TEXT_A
        yield "models of all sorts, flat", flat(rich(), rule=rule), "wall 2 0 "
        yield "models without particles, flat", flat(hollow(), rule=rule), swept("settled", 2)
    assert flat(EMPTY) == FLAT_EMPTY
    kept = wall(stone(beside(0, 0, 4.0), force=(1.0, 0.0, 2.0)), keeps=1)
    pushed = fluid(1.0, particle([to(0, 0)], [to(0, 0, 0.0, (1.0, 0.0, 2.0))], warm=4.0))
    yield ("a flat wall's force", flat(scene([pushed], [kept], most=0, dt=0.5)), "step unswept 0\n",
           row("fluid 0 0", -0.125, -0.25, -0.25, -0.5, 2.0), row("wall 0 0", 0.25, 1.5, 3.0))


def hollow(): return scene([fluid(0.0)] * 8, [wall(), wall(keeps=1)] * 4)


def dot_products():
    """A predicted density is 1 plus a dot product: it shows in its refusal, or in a pressure."""
    for comment, speed, slope, product in (
            ("both products count", (0.5, 0.25), (1.0, 2.0), 1.0),
            ("both products, one below 0", (3.0, 1.0), (1.0, -2.0), 1.0),
            ("the first is lost beside the second", (1.0, 2.0**54), (1.0, 1.0), 2.0**54),
            ("each product is rounded", (2.0**30 + 1.0, -2.0**60), (2.0**30 + 1.0, 1.0), 2.0**31)):
        yield ("a flat dot product: " + comment, crossing(speed, slope),
               row("fluid 0 0", *moved(speed, slope, product)))
    for comment, speed in ("its x alone", (-1.0, 0.0)), ("its y alone", (0.0, -1.0)):
        yield "a flat dot product, -1: " + comment, crossing(speed, (1.0, 1.0)), "refused 10 54\n"
    yield "a flat dot product of 0", crossing((1.0, -1.0), (1.0, 1.0)), swept("ranout", 1)


def crossing(speed, slope):
    """A particle of density 1 that moves against a wall which stands; the wall's weight is 0."""
    first = particle([to(0, 0)], [to(0, 0, 0.0, lifted(slope))], velocity=lifted(speed))
    return flat(scene([fluid(1.0, first)], [wall(stone(beside(0, 0, 1.0)))], most=1))


def lifted(v): return v[0], 0.0, v[1]


def moved(speed, slope, product):
    """The answers of such a particle: dii is -slope, aii is -2 times the slope's square, and the
    wall pushes by the pressure times the slope."""
    square = slope[0] * slope[0] + slope[1] * slope[1]
    pressure = 0.5 * (1.0 - (1.0 + product)) / (-2.0 * square)
    velocity = [v + (0.0 - g * pressure) for v, g in zip(speed, slope)]
    return [*velocity, *velocity, pressure]


# ---- the other cases without y

def without_y(cases):
    """What is said of a case's text is kept where y is +0: the two are twins (flat_twins.py)."""
    for comment, data, *pieces in cases:
        said = [flat_text(piece, Y) for piece in pieces if not piece.startswith("refused")]
        yield comment + ", flat", flat(data, Y), *(said if is_idle(data, Y) else ())


def by_halves():
    return [case for case in sums() if case[1][1] & 15 in (2, 3)]


# ---- the longest scenes

def sizes():
    rows = flat(many_particles(355, [], [wall()]))
    stones = wall(*[stone(velocity=X, force=(k / 3.0, 0.0, -k / 7.0)) for k in range(991)], keeps=1)
    longest = flat(scene([], [stones, wall(stone())], least=254, most=255))
    assert len(rows) == len(longest) == LONGEST
    yield "32,768 bytes with the most flat fluid particles", rows, "step ranout 12 ", "fluid 0 354 "
    yield ("32,768 bytes with the longest flat text", longest, swept("settled", 255),
           row("wall 0 990", 0.0, 990 / 3.0, -990 / 7.0), row("wall 1 0", 0.0))
    yield ("32,768 bytes, the last 19 beyond the last flat wall", changed(longest, 1, b"\x10"),
           "refused 5 32749\n")
    yield "one byte more, flat", rows + b"\0", "too long\n"


def flat_cases():
    others = [*starred(), *readings(), *of_ihmsen(), *by_halves()]
    return [*of_two_axes(), *dot_products(), *without_y(others), *sizes()]
