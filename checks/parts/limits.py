"""Scenes with a limit at the error of one of their iterations, or a double beside it, for
made_scenes.py: the iteration that settles, if one does, then hangs on every bit of the errors."""
import math

from parts.step_rules import Refused, iteration, prepare, walk
from parts.step_scenes import changed, doubles

MOST = 8      # errors that are worked out


def errors(data):
    """Those of a scene's first iterations; none if it is refused."""
    try:
        s = walk(data)
        prepare(s)
    except Refused:
        return []
    return [iteration(s)[0] for _ in range(min(s.most, MOST))]


def at_an_error(d, data):
    """The scene with such a limit, and `least` at that iteration or before it; as it is where no
    error is finite."""
    finite = [(i, error) for i, error in enumerate(errors(data)) if math.isfinite(error)]
    if not finite:
        return data
    i, error = d.of(finite)
    limit = d.of((error, error, math.nextafter(error, -math.inf), math.nextafter(error, math.inf)))
    if not math.isfinite(limit):
        limit = error
    return changed(changed(data, 2, bytes([d.below(i + 1)])), 20, doubles(limit))
