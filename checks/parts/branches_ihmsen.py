"""Which branches of Ihmsen's criterion a scene meets, for branches.py."""
import math

from parts.step_rules import bits

NAMES = """settled|ran out|unswept
no average|one average|equal averages, the largest|an average greater than the first|an average greater than the last
an average below 0|an average +infinity|an average -infinity|averages -infinity alone
infinite averages of both signs|terms -0 alone
not a number in the first average alone|not a number in a later average alone|not a number in several averages
not a number beside +infinity|not a number beside an empty fluid|not a number though each term is a number
error below 0|error +0|error above 0|error +infinity|error -infinity|error not a number
error below 0 beside an empty fluid
limit below 0 met|limit below 0 met exactly|limit below 0 missed by an error below 0
not a number at the end, limit met before|not a number before, settled""".replace("\n", "|").split("|")


def of_numbers(averages):
    """Of averages that are all numbers."""
    if averages:
        largest = max(averages)
        yield "equal averages, the largest", averages.count(largest) > 1
        yield "an average greater than the first", largest > averages[0]
        yield "an average greater than the last", largest > averages[-1]
        yield "an average below 0", any(-math.inf < average < 0.0 for average in averages)
        yield "an average +infinity", math.inf in averages
        yield "an average -infinity", -math.inf in averages
        yield "averages -infinity alone", set(averages) == {-math.inf}
        yield "infinite averages of both signs", {-math.inf, math.inf} <= set(averages)


def of_averages(averages, terms):
    """Of one iteration; the terms are listed by fluid, of empty ones too."""
    no_numbers = [math.isnan(average) for average in averages]
    yield "no average", not averages
    yield "one average", len(averages) == 1
    if not any(no_numbers):
        yield from of_numbers(averages)
    else:
        yield "not a number in the first average alone", len(averages) > 1 and not any(no_numbers[1:])
        yield "not a number in a later average alone", no_numbers.count(True) == 1 and not no_numbers[0]
        yield "not a number in several averages", no_numbers.count(True) > 1
        yield "not a number beside +infinity", math.inf in averages
        yield "not a number beside an empty fluid", [] in terms
    numbers_alone = [average for average, of_fluid in zip(averages, filter(None, terms))
                     if not any(map(math.isnan, of_fluid))]
    yield "not a number though each term is a number", any(map(math.isnan, numbers_alone))
    yield "terms -0 alone", averages and {bits(x) for of_fluid in terms for x in of_fluid} == {bits(-0.0)}


def of_error(error, terms):
    yield "error below 0", -math.inf < error < 0.0
    yield "error below 0 beside an empty fluid", error < 0.0 and [] in terms
    yield "error +0", bits(error) == bits(0.0)
    yield "error above 0", 0.0 < error < math.inf
    yield "error +infinity", error == math.inf
    yield "error -infinity", error == -math.inf
    yield "error not a number", math.isnan(error)


def of_end(ending, errors, limit):
    settled, before = ending == "settled", errors[:-1]
    yield "limit below 0 met", settled and limit < 0.0
    yield "limit below 0 met exactly", settled and limit < 0.0 and errors[-1] == limit
    yield "limit below 0 missed by an error below 0", any(limit < error < 0.0 for error in errors)
    yield ("not a number at the end, limit met before",
           math.isnan(errors[-1]) and any(error <= limit for error in before))
    yield "not a number before, settled", settled and any(map(math.isnan, before))


def met(ending, iterations, limit):
    """The branches of a scene that ends so, with the averages, terms and error of each iteration."""
    found = [(ending, True)]
    for averages, terms, error in iterations:
        found += [*of_averages(averages, terms), *of_error(error, terms)]
    if iterations:
        found += of_end(ending, [error for _, _, error in iterations], limit)
    return {name for name, holds in found if holds}
