"""Which branches of the sum by halves a scene under rules 2 and 3 meets, for branches.py."""
import math

from parts.step_rules import bits, by_halves, total

NAMES = """one term|two terms|three terms|four terms|five to eight terms|nine or more terms|an empty fluid beside one
the average in order|another average than in order|greater than in order|less than in order
an average -0 of one term|an average -0 of several terms|an average +0 of terms -0 and +0
infinite, in order a number|a number, in order infinite|not a number, in order infinite|infinite, as in order
settled, in order not|not settled, in order so
Salva's error +0 of an average -0|Ihmsen's error -0|Ihmsen's error -0 before +0|Ihmsen's error +0 before -0
Ihmsen's error -0 meets a limit of 0""".replace("\n", "|").split("|")
MINUS, PLUS = bits(-0.0), bits(0.0)


def of_fluid(terms):
    """Of one fluid with particles."""
    n, ours, in_order = len(terms), by_halves(terms), total(terms)
    same = bits(ours / n) == bits(in_order / n)
    for name, least, most in (("one term", 1, 1), ("two terms", 2, 2), ("three terms", 3, 3), ("four terms", 4, 4),
                              ("five to eight terms", 5, 8), ("nine or more terms", 9, n)):
        yield name, least <= n <= most
    yield "the average in order", n > 2 and ours != 0.0 and same
    yield "another average than in order", ours != 0.0 and not same
    yield "greater than in order", math.inf > ours > in_order > -math.inf
    yield "less than in order", -math.inf < ours < in_order < math.inf
    yield "an average -0 of one term", n == 1 and bits(ours) == MINUS
    yield "an average -0 of several terms", n > 1 and bits(ours) == MINUS
    yield "an average +0 of terms -0 and +0", {bits(x) for x in terms} == {MINUS, PLUS}
    yield "infinite, in order a number", math.isinf(ours) and math.isfinite(in_order)
    yield "a number, in order infinite", math.isfinite(ours) and math.isinf(in_order)
    yield "not a number, in order infinite", math.isnan(ours) and math.isinf(in_order)
    yield "infinite, as in order", math.isinf(ours) and ours == in_order


def of_error(by_ihmsen, averages, error):
    """Of one iteration."""
    signs = [bits(average) for average in averages]
    yield "Salva's error +0 of an average -0", not by_ihmsen and error == 0.0 and MINUS in signs
    yield "Ihmsen's error -0", bits(error) == MINUS
    yield "Ihmsen's error -0 before +0", bits(error) == MINUS and PLUS in signs
    yield "Ihmsen's error +0 before -0", by_ihmsen and bits(error) == PLUS and MINUS in signs


def met(s, by_ihmsen, iterations):
    """The branches of a scene, with the averages, terms and error of each iteration."""
    found = []
    for k, (averages, terms, error) in enumerate(iterations):
        found += of_error(by_ihmsen, averages, error)
        for of_one in filter(None, terms):
            found += of_fluid(of_one)
        found.append(("an empty fluid beside one", [] in terms and any(terms)))
        in_order, _ = s.criterion.error([total(of_one) / len(of_one) for of_one in terms if of_one])
        found.append(("settled, in order not", k >= s.least and error <= s.limit and not in_order <= s.limit))
        found.append(("not settled, in order so", k >= s.least and in_order <= s.limit and not error <= s.limit))
        found.append(("Ihmsen's error -0 meets a limit of 0",
                      k >= s.least and bits(error) == MINUS and bits(s.limit) == PLUS))
    return {name for name, holds in found if holds}
