"""A flat scene and its twin, the solid scene with an axis of +0 in every vector: the texts that the
two must have in common, and when. For flat_twins.py, which says why, and flat_cases.py."""
import math

from parts.packing import solid
from parts.step_rules import SOLID, Refused, iteration, prepare, walk


# ---- texts

def flat_line(line, dropped):
    """A line of a solid scene's text, or a piece of one, without an axis."""
    head, numbers = line.split(" ")[:3], line.split(" ")[3:]
    vectors = {("fluid", 1 + 2 * SOLID): (0, SOLID), ("wall", 1 + SOLID): (1,)}
    gone = {at + dropped for at in vectors.get((head[0], len(numbers)), ())}
    return " ".join(head + [number for k, number in enumerate(numbers) if k not in gone])


def flat_text(text, dropped):
    """A solid scene's text without an axis."""
    return "\n".join(flat_line(line, dropped) for line in text.split("\n"))


def refusal(data, text):
    """The number of a refusal, and of 9 and 10 the particle's flat number: places hang on the axes.
    None where nothing is refused."""
    if not text.startswith("refused"):
        return None
    number, place = map(int, text.split()[1:])
    return number, [p.place for _, p in walk(data).all].index(place) if number in (9, 10) else None


def same(data, added, flat_answer, solid_answer):
    """Do a flat scene's text and that of its twin say the same?"""
    twin = solid(data, added)
    if refusal(data, flat_answer) or refusal(twin, solid_answer):
        return refusal(data, flat_answer) == refusal(twin, solid_answer)
    return flat_answer == flat_text(solid_answer, added)


# ---- when they must

def all_finite(numbers): return all(map(math.isfinite, numbers))


def must_agree(data, added):
    """Is the added axis a zero times finite numbers, up to the end of the last iteration? The scene
    is a flat one with all its fields."""
    try:
        s = walk(solid(data, added))
        prepare(s)
    except Refused:
        return True
    drops = [p for _, p in s.all]
    if s.most > 0 and not all(p.dii[added] == 0.0 and math.isfinite(p.e) for p in drops):
        return False
    for i in range(s.most):
        if not all_finite(x for p in drops for c in p.near for x in (p.pressure, c.named.pressure)):
            return False
        error, _ = iteration(s)
        if any(p.dij[added] != 0.0 for p in drops):
            return False
        if error <= s.limit and i >= s.least:
            break
    return True
