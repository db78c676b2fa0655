"""Cases of versions and of rules 0 and 1, for cases_step.py, in the form of step_cases.py. Each
comment on rule 1 names one scene. Rules 2 and 3 are in sum_cases.py."""
import math

from parts.drawing import LARGEST
from parts.step_cases import PLAIN, TEXT_A, passed_over, still, swept
from parts.step_rules import row
from parts.step_scenes import (EMPTY, LEAST, X, changed, fluid, one, overflowing, pair, particle, rich, rising, scene,
                               scene_a, sinking, small_aii, to, torn, under, weightless)

LOWER, ABOVE = 1.0 - 2.0**-53, math.nextafter(1e-9, 1.0)
PULLED = pair(warm=4.0)      # Ihmsen's errors -0.5, -0.25, -0.125, ..: one pressure stays 0, the other falls to 1


def by_ihmsen(*given, **head): return under(scene(*given, **head), 2, 1)


# ---- version 2, rule 0: as version 1

def of_salva():
    yield "scene A in version 2", under(scene_a(), 2, 0), TEXT_A
    for most, error in (1, 1.0), (2, 2.0), (50, 2.0):
        yield ("scene B in version 2, rule 0", under(scene([pair()], most=most), 2, 0), swept("ranout", most, error),
               still(0.5), still(0.5, 1))
    yield "models of all sorts in version 2, rule 0", under(rich(), 2, 0), "wall 2 0 "
    for comment, data, *pieces in list(passed_over())[::3]:
        yield comment + ", in version 2", under(data, 2, 0), *pieces


# ---- rule 1

def starred():
    """Scene B, the specification's own; the empty scene; and scene A, which has no pressure."""
    yield "scene B by Ihmsen", by_ihmsen([pair()]), swept("settled", 2), still(0.5), still(0.5, 1)
    yield "its first error", by_ihmsen([pair()], most=1), swept("ranout", 1, 1.0), still(0.5), still(0.5, 1)
    yield "the empty scene by Ihmsen", under(EMPTY, 2, 1), swept("settled", 2)
    yield "scene A by Ihmsen", under(scene_a(), 2, 1), TEXT_A
    yield "scene B by Ihmsen, no iteration", by_ihmsen([pair()], most=0), "step unswept 0\n"


def limits():
    """Errors above 0, 0 and below 0 against limits."""
    yield "error 1 meets limit 1", by_ihmsen([pair()], least=0, limit=1.0), swept("settled", 1, 1.0)
    yield "but not the double below", by_ihmsen([pair()], least=0, limit=LOWER), swept("settled", 2)
    yield "error 0 meets limit -0", by_ihmsen([pair()], limit=-0.0), swept("settled", 2)
    yield "error 0 and a limit below 0", by_ihmsen([pair()], limit=-LEAST, most=3), swept("ranout", 3)
    yield "an error below 0 meets any limit above", by_ihmsen([PULLED], least=0), swept("settled", 1, -0.5)
    yield "an error below 0 meets its own bits", by_ihmsen([PULLED], least=0, limit=-0.5), swept("settled", 1, -0.5)
    yield ("but not the double below it", by_ihmsen([PULLED], least=0, limit=math.nextafter(-0.5, -1.0), most=4),
           swept("ranout", 4, -0.0625))
    yield "an error below 0 at least", by_ihmsen([PULLED], limit=-0.125), swept("settled", 2, -0.25)
    yield ("least in the last iteration, error below 0", by_ihmsen([PULLED], least=3, most=4, limit=-0.0625),
           swept("settled", 4, -0.0625))
    yield ("a limit below 0 met before least alone", by_ihmsen([PULLED], least=2, most=4, limit=-0.25),
           swept("ranout", 4, -0.0625))
    yield ("error -infinity meets the least limit", by_ihmsen([sinking(0)], PLAIN, limit=-LARGEST),
           swept("settled", 2, -math.inf))


def largest():
    """Of averages that are numbers."""
    for comment, fluids, error in (
            ("averages 1 and 0.25", [pair(0), pair(1, 2.0, 0.5)], 1.0),
            ("averages 0.25 and 1", [pair(0, 2.0, 0.5), pair(1)], 1.0),
            ("equal averages", [pair(0), pair(1)], 1.0),
            ("averages -0.5 and -2", [PULLED, pair(1, -1.0, -1.0)], -0.5),
            ("averages -2 and -0.5", [pair(0, -1.0, -1.0), pair(1, warm=4.0)], -0.5),
            ("averages -0.5 and 0", [PULLED, one([to(1, 0)])], 0.0),
            ("averages 0 and -0.5", [one(), pair(1, warm=4.0)], 0.0),
            ("average -0.5 between empty fluids", [fluid(1.0), pair(1, warm=4.0), fluid(0.0)], -0.5),
            ("no fluid with a particle", [fluid(1.0), fluid(-1.0)], 0.0),
            ("averages -infinity and 1", [sinking(0), pair(1)], 1.0),
            ("averages -infinity alone", [sinking(0), sinking(1)], -math.inf)):
        yield comment, by_ihmsen(fluids, PLAIN, most=1), swept("ranout", 1, error)
    below = by_ihmsen([pair(0, -1.0, -1.0)])
    yield "terms of -0, by a rest density below 0, make error +0", below, swept("settled", 2)
    yield "error -2 before it", changed(below, 3, b"\1"), swept("ranout", 1, -2.0)
    for comment, speeds, most, error in (
            ("averages +infinity and 0", [(2.0,)], 1, math.inf), ("averages 0 and -infinity", [(0.0,)], 2, 0.0),
            ("averages +infinity and -infinity", [(2.0,), (0.0,)], 2, math.inf)):
        yield (comment, by_ihmsen(weightless(*speeds), least=0, most=most, limit=-LEAST),
               swept("ranout", most, error))
    yield ("error +infinity and the greatest limit", by_ihmsen(weightless((2.0,)), most=3, limit=LARGEST),
           swept("ranout", 3, math.inf))


def not_numbers():
    """Averages that are not a number: none is passed over, and such an error does not settle."""
    for comment, fluids in (("the only average", [torn(0)]), ("the first of two averages", [overflowing(0), pair(1)]),
                            ("the second of two averages", [pair(0), overflowing(1)]),
                            ("the middle of three averages", [pair(0), torn(1), sinking(2)]),
                            ("all averages", [overflowing(0), torn(1)]),
                            ("an average between empty fluids", [fluid(0.0), torn(1), fluid(0.0)])):
        yield (comment + " not a number", by_ihmsen(fluids, PLAIN, least=0, most=1, limit=LARGEST),
               swept("ranout", 1, math.nan))
    yield "not a number, then 0", by_ihmsen([overflowing(0)], PLAIN, least=0), swept("settled", 2)
    for most, error in (1, 2.0**998), (2, math.nan), (3, 2.0**996), (4, math.nan):
        yield ("not a number in each second iteration, %d of them" % most,
               by_ihmsen([rising(0)], PLAIN, most=most), swept("ranout", most, error))
    yield ("not a number at least, the limit met before", by_ihmsen([rising(0)], PLAIN, most=2, limit=2.0**998),
           swept("ranout", 2, math.nan))
    yield "not a number 255 times", by_ihmsen([torn(0)], least=0, most=255), swept("ranout", 255, math.nan)
    for comment, *speeds in (("infinite terms of both signs make no number", (2.0, 0.0)),
                             ("the same, the negative first", (0.0, 2.0)), ("0 / 0 makes none", (1.0,)),
                             ("not a number beside +infinity", (2.0,), (1.0,)),
                             ("not a number before -infinity", (1.0,), (0.0,))):
        yield comment, by_ihmsen(weightless(*speeds), most=2, limit=LARGEST), swept("ranout", 2, math.nan)


def terms():
    """Where a particle has a term, and its rounding."""
    for size, error in (1e-9, 0.0), (ABOVE, 0.25):
        yield "a term of |aii| %r by Ihmsen" % size, under(small_aii(size), 2, 1), swept("ranout", 1, error)
    first = particle([to(0, 0, 0.7, X), to(0, 1, 0.1, (0.1, 0.2, 0.3))], [to(0, 0, 0.3, (0.3, -0.1, 0.7))],
                     velocity=X, warm=3.0)
    second = particle([to(0, 0, 0.4, (-0.1, -0.2, -0.3)), to(0, 1, 0.9)], velocity=(-0.3, 0.1, 0.0))
    for comment, flowing in (
            ("a predicted density near rest", pair(speed=1e-3 / 3.0, slope=7.0, warm=0.1)),
            ("one far above", pair(rest=1e3 / 7.0, volume=0.3, speed=1.0 / 3.0, slope=0.7, weight=5.0, warm=9.0)),
            ("with a wall", fluid(1.5, first, second))):
        for most in 1, 2, 5, 50:
            yield "%s, iterations: %d" % (comment, most), by_ihmsen([flowing], PLAIN, most=most, limit=-1.0, dt=0.7)
    yield "models of all sorts by Ihmsen", under(rich(), 2, 1), row("wall 2 0", 2.0)


def of_ihmsen():
    return [*starred(), *limits(), *largest(), *not_numbers(), *terms()]


def rules():
    return [*of_salva(), *of_ihmsen()]
