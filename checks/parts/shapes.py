"""The kernel's exact shapes, how far the computed ones lie from them, and the points at which that is
measured; for shape_picture.py. Every difference is one of fractions: no float takes part in it."""
import itertools
import math
import struct
from fractions import Fraction

from parts.drawing import LARGEST, Draw, normalizer, shapes as computed

HALF = Fraction(1, 2)
WEIGHT_BOUND, SLOPE_BOUND = Fraction(1, 2**50), Fraction(1, 2**49)
# Up to the double 1e-5 the computed slope is 0, and the exact one is not below LEAST_SLOPE.
CUT, LEAST_SLOPE = 1e-5, Fraction("-0.00012")
# Large errors, of weight and slope, are at these doubles.
FARTHEST = 0.3554674363481153, 0.4998947832772881
# An error of the weight at a distance, in units of the normalizer, is at most this; a large one is at this
# distance, with this radius.
KERNEL_BOUND = Fraction(5, 2**52)
FARTHEST_PAIR = 2.4505837635243273, 6.897206044156914


class Beyond(Exception):
    """A shape is not as near to the exact one as is proved. Its argument is a message."""


# ---- the shapes

def exact_weight(q):
    """Monaghan's weight at the fraction q."""
    return 1 - 6 * (q**2 - q**3) if q <= HALF else 2 * (1 - q) ** 3 if q <= 1 else Fraction(0)


def exact_slope(q):
    """Monaghan's slope at the fraction q."""
    return 6 * q * (3 * q - 2) if q <= HALF else -6 * (1 - q) ** 2 if q <= 1 else Fraction(0)


def errors(q):
    """How far the computed weight and slope at the double q lie from the exact ones. Beyond, if that
    is farther than is proved."""
    (weight, slope), exact = map(Fraction, computed(q)), Fraction(q)
    off = abs(weight - exact_weight(exact)), abs(slope - exact_slope(exact))
    if off[0] > WEIGHT_BOUND:
        raise Beyond("the weight at q = %r is not within 2^-50 of the exact one" % q)
    if q > CUT and off[1] > SLOPE_BOUND:
        raise Beyond("the slope at q = %r is not within 2^-49 of the exact one" % q)
    if q <= CUT and not (slope == 0 and LEAST_SLOPE <= exact_slope(exact) <= 0):
        raise Beyond("the slope at q = %r is not 0, or the exact one is not from -0.00012 to 0" % q)
    return off


def kernel_error(r, h, weight):
    """How far this weight at the distance r, with the radius h, lies from the normalizer times the
    exact weight at r / h: in units of its bound."""
    scale = Fraction(normalizer(h))
    return abs(Fraction(weight) / scale - exact_weight(Fraction(r) / Fraction(h))) / KERNEL_BOUND


# ---- the points

SPREAD = 99991      # a prime, so that a double next to k / SPREAD, below 1, is no short binary fraction
CLOSE, CLOSE_END = 199, Fraction("2e-5")      # so many points up to there


def spread():
    """Doubles above CUT up to 1, evenly spread."""
    return [k / SPREAD for k in range(1, SPREAD + 1)]


def close():
    """Doubles from 0 to 2e-5, on both sides of CUT."""
    steps = CLOSE * CLOSE_END.denominator
    return [k * CLOSE_END.numerator / steps for k in range(CLOSE + 1)]


def edges():
    """Both zeros, the ends of the pieces with the doubles beside them, all powers of 2 up to 1, and
    doubles beyond 1."""
    ends = [math.nextafter(x, to) for x in (CUT, 0.5, 1.0) for to in (0.0, x, 2.0)]
    return [0.0, -0.0, *ends, *(2.0**-k for k in range(1075)), 1.5, LARGEST]


def sized_pairs(seed, n):
    """Distances up to 1.1 radii, and radii of all sizes for which the normalizer is finite and not 0."""
    return list(itertools.islice(pair_stream(Draw(seed)), n))


def pair_stream(d):
    while True:
        h = math.ldexp(1.0 + d.unit(), d.of((d.below(17) - 8, d.below(2 * 342) - 342)))
        edge = d.of((CUT, 0.5, 1.0)) * d.of((1.0, 1.0 - 2.0**-53, 1.0 + 2.0**-52))
        tiny = math.ldexp(d.unit(), -d.below(1075))
        q = d.weighted(((8, 1.1 * d.unit()), (2, edge), (2, tiny), (1, d.zero())))
        if 0.0 < normalizer(h) < math.inf:
            yield q * h, h


def double(digits):
    """The double with these 16 hex digits."""
    return struct.unpack(">d", bytes.fromhex(digits))[0]
