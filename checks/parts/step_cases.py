"""Cases of the step, for cases_step.py: comment, scene, and the lines (or pieces of lines) that the
specification or plain reckoning puts into its text."""
import math

from parts.step_rules import bits, row
from parts.step_scenes import (EMPTY, LEAST, X, Z, ZERO, ZEROS, beside, changed, fluid, one, overflowing, pair,
                               particle, pressing, rich, rising, scene, scene_a, small_aii, stone, to, torn, wall,
                               weighed, weightless)

TEXT_A = ("step settled 2 0000000000000000 0\nclock 3FE0000000000000 4000000000000000 3FE0000000000000\n"
          "fluid 0 0 0000000000000000 0000000000000000 BFF0000000000000 "
          "0000000000000000 0000000000000000 C000000000000000 0000000000000000\n")
PLAIN = [wall(stone(beside(0, 0, 1.0)))]      # the wall of `overflowing` and `rising`


def swept(ending, n, error=0.0, passed_over=0): return "step %s %d %s %d\n" % (ending, n, bits(error), passed_over)
def still(pressure, number=0): return row("fluid 0 %d" % number, *ZERO, *ZERO, pressure)


# ---- the specification's own scenes, starred there

def starred():
    yield "empty scene", EMPTY, swept("settled", 2), row("clock", 0.0, 0.0, 0.0)
    yield "most 0", changed(EMPTY, 3, b"\0"), "step unswept 0\n"
    yield "most 1", changed(EMPTY, 3, b"\1"), swept("ranout", 1)
    yield "scene A", scene_a(), TEXT_A
    for most, error in (1, 1.0), (2, 2.0), (50, 2.0):
        yield "scene B", scene([pair()], most=most), swept("ranout", most, error), still(0.5), still(0.5, 1)
    kept = wall(stone(beside(0, 0, 4.0), force=ZERO), keeps=1)
    force = scene([pressing()], [kept], most=0, dt=0.5, least=0, limit=0.0)
    yield ("a wall's force", force, "step unswept 0\n", row("fluid 0 0", 0.0, 0.0, -0.125, 0.0, 0.0, -0.25, 2.0),
           row("wall 0 0", 0.25, 0.0, 0.0, 0.5))
    for weights, volume in ((2.0, 2.0), 0.25), ((1.0, -1.0), 0.0), ((), 0.0):
        yield "wall weights", weighed(*weights), row("wall 0 0", volume)


# ---- points of order, and numbers at the edges of the rules

def endings():
    """The end of the iterations, and the clock."""
    for least, most, ending in ((50, 50, "ranout"), (49, 50, "settled"), (255, 255, "ranout"), (254, 255, "settled"),
                                (0, 1, "settled")):
        yield "least by most", changed(EMPTY, 2, bytes([least, most])), swept(ending, most)
    yield "limit -0 is met by error 0", scene_a(limit=-0.0), swept("settled", 2)
    yield "limit below 0 is never met", scene_a(limit=-LEAST, most=3), swept("ranout", 3)
    yield "limit met exactly", scene([pair()], limit=1.0, least=0), swept("settled", 1, 1.0)
    lower = scene([pair()], limit=1.0 - 2.0**-53, least=0, most=3)
    yield "limit one double lower", lower, swept("ranout", 3, 2.0)
    for dt, inv_dt in (-0.0, 0.0), (-0.5, -2.0), (LEAST, math.inf), (2.0**-1024, math.inf), (2.0**-1023, 2.0**1023):
        yield ("step lengths -0, below 0, and so small that inv_dt is infinite", scene_a(dt=dt),
               row("clock", dt, inv_dt, 1.0 - dt))


def coefficients():
    """Warm pressures, aii, densities and sums."""
    for warm, most, pressure in (-4.0, 0, -2.0), (-4.0, 1, 0.0), (-LEAST, 0, -0.0):
        yield "negative warm pressures", scene([one(warm=warm)], most=most), still(pressure)
    unmoved = scene([one(velocity=ZEROS, acceleration=ZEROS)], gravity=ZEROS, most=0)
    yield "0 + acceleration × dt turns -0 into +0", unmoved, still(0.0)
    above = math.nextafter(1e-9, 1.0)
    for size, pressure in (1e-9, 0.0), (-1e-9, 0.0), (above, 0.5 / above), (-above, 0.0):
        yield "|aii| at 1e-9 and just above", small_aii(size), " %s\nfluid 0 1" % bits(pressure)
    for weight in 0.0, 1.0:
        heavy = fluid(1e200, particle([to(0, 0, weight)], volume=1e200))
        yield "a density that is not a number, an infinite one", scene([heavy]), swept("settled", 2)
    fast = 1.7e308, 0.0, 0.0
    carried = scene([one([to(0, 0, 1.0, X)], velocity=fast, acceleration=fast)])
    yield "a predicted density that is not a number", carried, swept("settled", 2)
    yield "a density whose square is 0", scene([one([to(0, 0, 1e-200, X)])], most=3)
    losing, keeping = ([to(0, 0, weight) for weight in weights] for weights in ((1e16, 1.0, -1e16), (1e16, -1e16, 1.0)))
    yield "sums go in list order: 1 is lost", scene([one(losing)]), "refused 9 62\n"
    yield "and is not", scene([one(keeping)]), swept("settled", 2)
    for weights, volume in (((1e16, 1.0, -1e16), 0.0), ((1e16, -1e16, 1.0), 1.0), ((1.7e308, 1.7e308, -1.7e308), 0.0),
                            ((-LEAST,), -math.inf)):
        yield ("wall weights in list order, an infinite sum, an infinite volume", weighed(*weights),
               row("wall 0 0", volume))


def averages():
    """Empty models, averages and errors."""
    yield "an empty fluid and an empty wall among others", rich()
    hollow = [fluid(0.0), pair(1), fluid(-0.0), pair(3, 2.0, 0.5), fluid(1e308)]
    yield ("empty fluids have no average", scene(hollow, [wall(), wall(keeps=1), wall()], most=1),
           swept("ranout", 1, 1.0))
    for fluids in [pair(0), pair(1, 2.0, 0.5)], [pair(0, 2.0, 0.5), pair(1)]:
        yield "averages 1 and 0.25 in both orders", scene(fluids, most=1), swept("ranout", 1, 1.0)
    yield ("a negative average counts as 0", scene([pair(0, -1.0, -1.0)], most=1), swept("ranout", 1),
           row("fluid 0 0", -1.0, 0.0, 0.0, -1.0, 0.0, 0.0, 1.0))
    barely = pair(rest=-2.0**500, volume=-2.0**-250, speed=0.0, slope=2.0**250, weight=-2.0**250, warm=2.0**-572)
    yield "terms -5e-324 and 0: an average of -0 leaves +0", scene([barely], most=1), swept("ranout", 1)
    half = bits(0.5 * (1.0 - (1.0 + 0.4 * 1.78e308)) / (-0.8 * 0.4))
    yield ("0.5 goes before the division, which would overflow", scene([pair(speed=0.89e308, slope=0.4)], most=1),
           " %s\nfluid 0 1" % half)
    yield "eight fluids and eight walls", scene([fluid(1.0)] * 8, [wall(), wall(keeps=1)] * 4), swept("settled", 2)


def passed_over():
    """Averages that are not a number, and what is taken for one. Each comment names one scene."""
    yield ("an infinite pressure stays", scene([overflowing(0)], PLAIN, most=1), swept("ranout", 1, passed_over=1),
           " 7FF0000000000000\nfluid 0 1")
    yield ("and then is not-a-number, which becomes +0: passed over before, not at the end",
           scene([overflowing(0)], PLAIN), swept("settled", 2), " 0000000000000000\nfluid 0 1")
    for place, fluids in ("first", [overflowing(0), pair(1)]), ("second", [pair(0), overflowing(1)]):
        yield "the %s of two passed over, ran out" % place, scene(fluids, PLAIN, most=1), swept("ranout", 1, 1.0, 1)
        yield ("the %s of two passed over, settled" % place, scene(fluids, PLAIN, least=0, limit=1.0),
               swept("settled", 1, 1.0, 1))
    for comment, fluids in (("both passed over", [torn(0), torn(1)]), ("settled since passed over", [rising(0)]),
                            ("one passed over, then the other", [overflowing(0), rising(1)]),
                            ("passed over between empty fluids", [fluid(0.0), torn(1), fluid(0.0)])):
        yield comment, scene(fluids, PLAIN), swept("settled", 2, passed_over=1)
    for most, error, yes in (1, 2.0**998, 0), (3, 1.75 * 2.0**998, 0), (4, 0.0, 1):
        yield ("passed over in each second iteration, %d of them" % most,
               scene([rising(0)], PLAIN, most=most, limit=-1.0), swept("ranout", most, error, yes))
    yield "passed over 255 times", scene([torn(0)], least=254, most=255), swept("settled", 255, passed_over=1)
    yield "not passed over without an iteration", scene([overflowing(0)], PLAIN, most=0), "step unswept 0\n"
    yield "an empty fluid is not passed over", scene([fluid(0.0), one([to(1, 0)]), fluid(0.0)]), swept("settled", 2)
    for comment, speeds, *end in (
            ("infinite terms of both signs make no number", [(2.0, 0.0)], "settled", 1, 0.0, 1),
            ("the same, the negative first", [(0.0, 2.0)], "settled", 1, 0.0, 1),
            ("0 / 0 makes none either", [(1.0,)], "settled", 1, 0.0, 1),
            ("an infinite average is not passed over", [(2.0, 3.0)], "ranout", 1, math.inf, 0),
            ("nor is one of -infinity", [(0.0, -0.5)], "settled", 1, 0.0, 0),
            ("nor are infinite ones of both signs", [(2.0,), (0.0,)], "ranout", 1, math.inf, 0)):
        yield comment, scene(weightless(*speeds), least=0, most=1), swept(*end)


def contacts():
    """Pushes on walls, contacts with itself, and pressures of one iteration from those before."""
    kept = (wall(stone(beside(0, 0, 4.0), force=(1.0, 2.0, 4.0)), stone(force=ZEROS), keeps=1),
            wall(stone(beside(0, 1, 3.0))), wall(stone(force=X), keeps=1))
    yield ("two fluids press on one wall particle; no contact names the other ones",
           scene([pressing(0), pressing(1, 2.0)], kept, most=0, dt=0.5), row("wall 0 0", 0.25, 1.0, 2.0, 5.5),
           row("wall 0 1", 0.0, *ZEROS), row("wall 1 0", 1.0 / 3.0), row("wall 2 0", 0.0, *X))
    itself, below, beneath = to(0, 0, 0.7, X), to(0, 0, 0.2, X), to(1, 0, 0.3, Z)
    first = particle([itself, itself, to(0, 1, 0.1, Z)], [beneath, below, beneath], warm=3.0, velocity=X)
    second = particle([to(0, 0, 0.4, Z), to(0, 1, 0.9, (0.1, 0.2, 0.3))], [below, below], warm=1.0,
                      velocity=(0.1, -0.2, -3.0))
    bed = [wall(stone(*[beside(0, 0, 1.1)] * 2, velocity=Z, force=(0.1, 0.2, 0.3)), keeps=1),
           wall(stone(beside(1, 0, 0.9), beside(0, 0, 0.3), velocity=X))]
    near = [[to(0, k, 0.6), to(0, (k + 1) % 4, 0.5, X), to(0, (k + 3) % 4, 0.5, (-0.5, 0.1, 0.0))] for k in range(4)]
    ring = fluid(1.0, *[particle(near[k], velocity=(0.3 * k, 0.1, 0.7)) for k in range(4)])
    for most in 0, 1, 2, 50:
        yield ("contacts with itself, repeated ones, walls kept and not kept",
               scene([fluid(1.5, first, second)], bed, dt=0.1, most=most, gravity=(0.0, -9.81, 0.0), remaining=0.3))
        yield "next pressures are not written over the old", scene([ring], most=most, dt=0.3, limit=1e-3)


def readings():
    return [*endings(), *coefficients(), *averages(), *passed_over(), *contacts()]
