"""Cases of the two summations, for cases_step.py, in the form of step_cases.py. Each comment of
`sums`, with its rule, names one scene."""
import math

from parts.drawing import LARGEST
from parts.rule_cases import of_ihmsen
from parts.step_cases import readings, starred, swept
from parts.step_scenes import BEDS, LEAST, faint, fluid, laden, level, scene, torn, under, weightless

LARGE = 2.0**54                                        # 2 is lost beside it, 4 is not
HALF = 2.0**1023                                       # of what overflows
HIGH, LOW = 0.75 * HALF, -0.4375 * HALF                # three of HIGH overflow, and five of LOW
SALVAS, IHMSENS = (0, 2), (1, 3)                       # the rules of a criterion: in order, by halves


def case(comment, rule, data, *end): return "%s, rule %d" % (comment, rule), under(data, 2, rule), swept(*end)


def ranout(comment, rules, errors, fluids, walls=BEDS, **head):
    """The scene under these rules, with the errors of its only iteration."""
    for rule, error in zip(rules, errors):
        yield case(comment, rule, scene(fluids, walls, most=1, **head), "ranout", 1, error)


def of_all(comment, in_order, by_halves, fluids):
    """The same by both criteria, and in version 1."""
    yield comment + ", version 1", scene(fluids, BEDS, most=1), swept("ranout", 1, in_order)
    for rules in SALVAS, IHMSENS:
        yield from ranout(comment, rules, (in_order, by_halves), fluids)


# ---- the sums

def lost():
    """Terms of 2 beside a large one: alone they are lost, added up before some are not."""
    for n, kept in (1, 0), (2, 0), (3, 4), (4, 4), (5, 8), (7, 12), (8, 12), (9, 16):
        yield from of_all("%d terms, the first large" % n, LARGE / n, (LARGE + kept) / n,
                          [laden(LARGE, *[2.0] * (n - 1))])
    for n, in_order, by_halves in (2, 0, 0), (3, 4, 0), (4, 8, 4), (5, 8, 4), (7, 12, 8), (8, 16, 12), (9, 16, 12):
        yield from of_all("%d terms, the last large" % n, (LARGE + in_order) / n, (LARGE + by_halves) / n,
                          [laden(*[2.0] * (n - 1), LARGE)])
    yield from of_all("large terms that cancel at the end", 0.0, 0.5, [laden(LARGE, 2.0, 2.0, -LARGE)])
    yield from of_all("and that cancel within a half", 1.0, 1.0, [laden(LARGE, -LARGE, 2.0, 2.0)])


def fluids_apart():
    """Each fluid has a sum of its own, and an empty one none."""
    three, other = laden(LARGE, 2.0, 2.0), laden(*[2.0] * 3)
    for comment, fluids in (("an empty fluid between two", [three, fluid(1.0), other]),
                            ("the same, the other first", [other, fluid(1.0), three]),
                            ("empty fluids around", [fluid(-1.0), three, fluid(0.0)])):
        yield from of_all(comment, LARGE / 3, (LARGE + 4) / 3, fluids)
    yield from of_all("the larger sum in another fluid", (LARGE + 4) / 3, (LARGE + 4) / 3,
                      [three, laden(2.0, 2.0, LARGE)])
    for comment, fluids in (("an average below 0 beside an empty fluid", [fluid(1.0), laden(-8.0, -2.0, 4.0)]),
                            ("averages below 0", [laden(-4.0), laden(-2.0, -2.0, -2.0)])):
        yield from ranout(comment, SALVAS, (0.0, 0.0), fluids)
        yield from ranout(comment, IHMSENS, (-2.0, -2.0), fluids)
    for rule in 2, 3:
        yield case("no particle", rule, scene([fluid(1.0)] * 2), "settled", 2)
        yield case("no fluid", rule, scene([]), "settled", 2)


def overflows():
    """A sum that is infinite in order alone, by halves alone, and one with two infinite halves."""
    for comment, terms, infinite, total in (
            ("infinite in order, 4 terms", (HIGH, HIGH, HIGH, LOW), (0, 1), 1.8125 * HALF),
            ("infinite in order, 5 terms", (HIGH, HIGH, HIGH, LOW, LOW), (0, 1), 1.375 * HALF),
            ("infinite by halves, 7 terms", (LOW, LOW, 0.0, HIGH, HIGH, HIGH, 0.0), (2, 3), 1.375 * HALF),
            ("infinite by halves, 8 terms", (LOW, LOW, 0.0, 0.0, HIGH, HIGH, HIGH, 0.0), (2, 3), 1.375 * HALF)):
        for rule in range(4):
            end = ("ranout", 1, math.inf) if rule in infinite else ("settled", 1, total / len(terms))
            yield case(comment, rule, scene([laden(*terms)], BEDS, least=0, most=1, limit=LARGEST), *end)
    for low in 5, 6:
        halves = scene([laden(*[HIGH] * 5, *[LOW] * low)], BEDS, least=0, most=1)
        for rule, *end in ((0, "ranout", 1, math.inf), (1, "ranout", 1, math.inf), (2, "settled", 1, 0.0, 1),
                           (3, "ranout", 1, math.nan)):
            yield case("infinite halves of both signs, %d terms" % (5 + low), rule, halves, *end)


def limits():
    """Met by the one sum alone."""
    for comment, terms, met in (("the sum by halves is above the limit", (LARGE, 2.0, 2.0), (0, 1)),
                                ("the sum in order is above the limit", (2.0, 2.0, LARGE), (2, 3))):
        for rule in range(4):
            error = LARGE / 3 if rule in met else (LARGE + 4) / 3
            yield case(comment, rule, scene([laden(*terms)], BEDS, least=0, most=1, limit=LARGE / 3),
                       "settled" if rule in met else "ranout", 1, error)


# ---- terms of -0, which a sum from +0 does not keep

def minus_zeros():
    for comment, fluids, by_halves in (
            ("one term of -0", [level(2.0)], -0.0), ("three terms of -0", [level(2.0, 2.0, 2.0)], -0.0),
            ("a term of -0 and one of +0", [level(2.0, -64.0)], 0.0),
            ("averages -0 and +0", [level(2.0), laden(0.0)], -0.0),
            ("averages +0 and -0", [laden(0.0), level(2.0)], 0.0),
            ("averages -0 of two terms and +0", [level(2.0, 2.0), laden(0.0)], -0.0),
            ("averages +0 and -0 of three terms", [laden(0.0), level(2.0, 2.0, 2.0)], 0.0),
            ("averages -0, +0 and -0", [level(2.0, 2.0), laden(0.0, 0.0), level(2.0)], -0.0),
            ("averages +0, -0 and +0", [laden(0.0), level(2.0), laden(0.0)], 0.0),
            ("averages -2, -0 and +0", [laden(-2.0), level(2.0), laden(0.0)], -0.0),
            ("averages -2, +0 and -0", [laden(-2.0), laden(0.0), level(2.0)], 0.0),
            ("averages -0 and -2", [level(2.0, 2.0), laden(-2.0)], -0.0),
            ("averages -2 and -0", [laden(-2.0), level(2.0, 2.0)], -0.0),
            ("average -0 between empty fluids", [fluid(1.0), level(2.0), fluid(0.0)], -0.0)):
        yield from ranout(comment, IHMSENS, (0.0, by_halves), fluids, limit=-LEAST)
    for limit, *end in (0.0, "settled", 2), (-0.0, "settled", 2), (LEAST, "settled", 2), (-LEAST, "ranout", 50):
        for rule, error in zip(IHMSENS, (0.0, -0.0)):
            for n in 1, 2, 3:
                yield case("terms of -0: %d, limit %r" % (n, limit), rule,
                           scene([level(*[2.0] * n)], BEDS, limit=limit), *end, error)
    for rule in SALVAS:
        for comment, fluids in (("one term of -0 by Salva", [faint()]), ("two averages of -0", [faint(), faint()]),
                                ("averages of -0 and +0", [faint(), laden(0.0)]),
                                ("averages of +0 and -0", [laden(0.0), faint()])):
            yield case(comment, rule, scene(fluids, BEDS, limit=-LEAST, most=1), "ranout", 1)


# ---- what the summation does not change

def as_rule_0():
    """Several scenes may have the same comment."""
    for comment, data, *pieces in [*starred(), *readings()]:
        yield comment + ", rule 2", under(data, 2, 2), *pieces


def as_rule_1():
    """But for the sign of a sum of terms of -0."""
    sign = "terms of -0, by a rest density below 0, make error +0"
    for comment, data, *pieces in of_ihmsen():
        if comment != sign:
            yield comment + ", rule 3", under(data, 2, 3), *pieces
        else:
            yield case("terms of -0, by a rest density below 0", 3, data, "settled", 2, -0.0)


def no_numbers():
    """Terms that are infinite or not a number, three and more of them."""
    for comment, speeds, salva, ihmsen in (
            ("three infinite terms of one sign", (2.0, 3.0, 2.0), (math.inf, 0), math.inf),
            ("three infinite terms of both signs", (2.0, 3.0, 0.0), (0.0, 1), math.nan),
            ("a term that is not a number in the first half", (1.0, 2.0, 2.0, 2.0), (0.0, 1), math.nan),
            ("a term that is not a number in the second half", (2.0, 2.0, 2.0, 1.0, 2.0), (0.0, 1), math.nan)):
        for rule in SALVAS:
            yield case(comment, rule, scene(weightless(speeds), most=1, limit=-1.0), "ranout", 1, *salva)
        for rule in IHMSENS:
            yield case(comment, rule, scene(weightless(speeds), most=2, limit=-1.0), "ranout", 2, ihmsen)
    for rule in IHMSENS:
        yield case("not a number beside three terms", rule, scene([laden(2.0, 2.0, 2.0), torn(1)], BEDS, most=1),
                   "ranout", 1, math.nan)
        yield case("not a number behind them", rule, scene([torn(0), laden(2.0, 2.0, 2.0)], BEDS, most=1),
                   "ranout", 1, math.nan)
    for rule in SALVAS:
        yield case("passed over beside three terms", rule, scene([laden(2.0, 2.0, 2.0), torn(1)], BEDS, most=1),
                   "ranout", 1, 2.0, 1)


def sums():
    return [*lost(), *fluids_apart(), *overflows(), *limits(), *minus_zeros(), *as_rule_1(), *no_numbers()]
