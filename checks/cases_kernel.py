#!/usr/bin/env python3
"""The cases of crates/cases_kernel and the lines that it must print.

  checks/cases_kernel.py          compares src/cases.rt and stdout with what is worked out here
  checks/cases_kernel.py --write  writes both

Every result is worked out with exact fractions (fractions.Fraction) and rounded once per operation,
to the nearest double, ties to even, by `rounded` below; zeros, infinities and not-a-numbers follow
IEEE 754's rules, spelled out here. No float of this language takes part in a result; afterwards the
same formulas are run on floats and must agree.
"""
import argparse
import pathlib
import random
import struct
import sys
from fractions import Fraction

CRATE = pathlib.Path(__file__).resolve().parent.parent / "crates" / "cases_kernel"
SIGN, INFINITY, NAN = 1 << 63, 0x7FF << 52, 0x7FF8 << 48


# ---- a double is its bits; a finite one is also a sign and an exact fraction

def is_nan(b):
    return b & ~SIGN > INFINITY


def is_infinite(b):
    return b & ~SIGN == INFINITY


def negative(b):
    return b >> 63 == 1


def magnitude(b):
    field, digits = b >> 52 & 0x7FF, b & ((1 << 52) - 1)
    return Fraction(digits, 2**1074) if field == 0 else Fraction((1 << 52 | digits) * 2 ** (field - 1), 2**1074)


def value(b):
    return -magnitude(b) if negative(b) else magnitude(b)


def rounded(sign, x):
    """The double nearest to the fraction x, which is at least 0, with a sign; ties to even."""
    units = x * 2**1074
    whole = units.numerator // units.denominator
    dropped = max(whole.bit_length() - 53, 0)
    step = Fraction(2**dropped)
    kept, rest = divmod(units, step)
    if rest * 2 > step or (rest * 2 == step and kept % 2 == 1):
        kept += 1
    pattern = (dropped << 52) + int(kept)      # the leading digit carries into the exponent's field
    return (SIGN if sign else 0) | min(pattern, INFINITY)


# ---- the operations

def add(a, b):
    if is_nan(a) or is_nan(b) or (is_infinite(a) and is_infinite(b) and a != b):
        return NAN
    if is_infinite(a):
        return a
    if is_infinite(b):
        return b
    total = value(a) + value(b)
    return rounded(total < 0 if total else negative(a) and negative(b), abs(total))


def neg(a):
    return a if is_nan(a) else a ^ SIGN


def sub(a, b):
    return add(a, neg(b))


def mul(a, b):
    sign = negative(a) != negative(b)
    if is_nan(a) or is_nan(b):
        return NAN
    if is_infinite(a) or is_infinite(b):
        return NAN if magnitude_zero(a) or magnitude_zero(b) else (SIGN if sign else 0) | INFINITY
    return rounded(sign, magnitude(a) * magnitude(b))


def div(a, b):
    sign = negative(a) != negative(b)
    if is_nan(a) or is_nan(b) or (is_infinite(a) and is_infinite(b)) or (magnitude_zero(a) and magnitude_zero(b)):
        return NAN
    if is_infinite(a) or magnitude_zero(b):
        return (SIGN if sign else 0) | INFINITY
    if is_infinite(b):
        return SIGN if sign else 0
    return rounded(sign, magnitude(a) / magnitude(b))


def magnitude_zero(b):
    return b & ~SIGN == 0


def at_most(a, b):
    if is_nan(a) or is_nan(b):
        return False
    return order(a) <= order(b)


def order(b):
    return -(b & ~SIGN) if negative(b) else b


# ---- METHOD 1 and 2

ONE, TWO, THREE, SIX, EIGHT, HALF = (rounded(False, Fraction(x)) for x in (1, 2, 3, 6, 8, Fraction(1, 2)))
PI, EPS = 0x400921FB54442D18, rounded(False, Fraction(1, 100000))
NUMERATORS = {2: rounded(False, Fraction(40, 7)), 3: EIGHT}


def normalizer(axes, h):
    divisor = PI
    for _ in range(axes):
        divisor = mul(divisor, h)
    return div(NUMERATORS[axes], divisor)


def weight(axes, r, h):
    q = div(r, h)
    if at_most(q, HALF):
        q2 = mul(q, q)
        shape = add(ONE, mul(sub(mul(q2, q), q2), SIX))
    elif at_most(q, ONE):
        t = sub(ONE, q)
        shape = mul(mul(mul(t, t), t), TWO)
    else:
        shape = 0
    return mul(normalizer(axes, h), shape)


def slope(axes, r, h):
    q = div(r, h)
    if (not at_most(q, ONE) and not is_nan(q)) or at_most(q, EPS):
        shape = 0
    elif at_most(q, HALF):
        shape = mul(mul(sub(mul(q, THREE), TWO), q), SIX)
    else:
        t = sub(ONE, q)
        shape = mul(mul(neg(t), t), SIX)
    return div(mul(normalizer(axes, h), shape), h)


def refusal(r, h):
    finite = lambda b: not is_nan(b) and not is_infinite(b)
    if not finite(r) or (negative(r) and not magnitude_zero(r)):
        return 11
    if not finite(h) or negative(h) or magnitude_zero(h):
        return 12
    return 0


def advanced(step, remaining):
    return step, 0 if magnitude_zero(step) else div(ONE, step), sub(remaining, step)


# ---- the cases

def bits(x):
    return struct.unpack(">Q", struct.pack(">d", x))[0]


def pairs():
    b = bits
    nan, other_nan, inf = NAN, 0xFFF0000000000001, INFINITY
    around = [b(x) + k for x in (0.5, 1.0) for k in (-1, 0, 1)] + [EPS + k for k in (-1, 0, 1)]
    shapes = [0, SIGN, b(0.25), b(0.75), b(0.125), b(2.0)] + around
    cases = [(r, ONE) for r in shapes]
    cases += [(b(r), b(h)) for r, h in [(1.0, 2.0), (1.5, 2.0), (0.3, 0.7), (0.1, 0.3), (2.0, 3.0), (0.01, 0.02),
                                        (7.0, 7.0), (3.0, 10.0)]]
    cases += [(1, ONE), (1, 1), (0x000FFFFFFFFFFFFF, ONE), (b(1e-310), b(3e-310)), (b(1e-200), b(2e-200)),
              (b(1e-105), b(1.5e-105))]
    cases += [(b(1e200), b(2e200)), (b(1.5e308), b(1.7e308)), (b(1.7e308), b(1e-300)), (b(1e100), b(3e102)),
              (b(1.0), b(1e103)), (0, b(1e-320))]
    # where a normalizer becomes infinite and where it becomes 0, in three dimensions and in two
    cases += [(0, b(2.0**-340)), (0, b(2.0**-341)), (0, b(2.0**-511)), (0, b(2.0**-512)), (b(1e-154), b(1.5e-154)),
              (b(1.0), b(7e153)), (b(3e153), b(7e153)), (b(1.0), b(1e154))]
    refused = [(b(-1.0), ONE), (SIGN | 1, ONE), (inf, ONE), (SIGN | inf, ONE), (nan, ONE), (other_nan, ONE),
               (b(-1.0), 0)]
    refused += [(ONE, 0), (ONE, SIGN), (ONE, b(-2.0)), (ONE, inf), (ONE, SIGN | inf), (ONE, nan), (SIGN, SIGN | 1)]
    rng = random.Random(34)
    draw = [(rng.uniform(0, 1.2), rng.uniform(0.05, 1.5)) for _ in range(24)]
    return cases + refused + [(b(r * h), b(h)) for r, h in draw]


def clocks():
    b = bits
    return [(b(0.5), b(1.0)), (0, b(1.0)), (SIGN, b(1.0)), (SIGN, SIGN), (b(1.0), 0), (b(-0.25), b(0.1)),
            (b(0.1), b(0.3)), (b(3.0), b(1e16)), (1, 0), (1, 1),
            (0x0010000000000000, b(1e-308)), (b(1.7e308), b(-1.7e308)), (0x7FD0000000000001, b(1e300))]


# ---- the same on floats, as a second opinion

def as_float(b):
    return struct.unpack(">d", struct.pack(">Q", b))[0]


def float_div(a, b):
    if b != 0:
        return a / b
    if a == 0 or a != a:
        return float("nan")
    return float("inf") * (1 if (a > 0) == (struct.pack(">d", b)[0] < 128) else -1)


def float_kernel(axes, r, h):
    r, h = as_float(r), as_float(h)
    area = as_float(PI) * h * h
    norm, q = float_div(8.0, area * h) if axes == 3 else float_div(40.0 / 7.0, area), r / h
    q2, t = q * q, 1.0 - q
    w = 1.0 + (q2 * q - q2) * 6.0 if q <= 0.5 else t * t * t * 2.0 if q <= 1.0 else 0.0
    s = 0.0 if q > 1.0 or q <= 1e-5 else (q * 3.0 - 2.0) * q * 6.0 if q <= 0.5 else -t * t * 6.0
    return norm * w, float_div(norm * s, h)


def agrees(b, x):
    return x != x if is_nan(b) else bits(x) == b


# ---- the two files

def lines():
    hexed = lambda *bs: " ".join(f"{NAN if is_nan(b) else b:016x}" for b in bs)
    out = []
    for r, h in pairs():
        number = refusal(r, h)
        for axes, names in (3, ("weight", "slope")), (2, ("weight_2d", "slope_2d")):
            answers = weight(axes, r, h), slope(axes, r, h)
            if number == 0:
                assert all(agrees(a, x) for a, x in zip(answers, float_kernel(axes, r, h))), (axes, hex(r), hex(h))
            for name, a in zip(names, answers):
                out.append(f"{name} {hexed(r, h)} " + (f"refused {number}" if number else hexed(a)))
    for step, remaining in clocks():
        dt, inverse, left = advanced(step, remaining)
        assert agrees(left, as_float(remaining) - as_float(step))
        assert magnitude_zero(step) or agrees(inverse, float_div(1.0, as_float(step)))
        out.append(f"clock {hexed(step, remaining)} {hexed(dt, inverse, left)}")
    return "".join(line + "\n" for line in out)


def table(name, doubles):
    return f"pub const {name}: [u64; {len(doubles)}] = [\n" + "".join(f"    0x{b:016x},\n" for b in doubles) + "];\n"


def source():
    firsts, seconds = zip(*pairs(), *clocks())
    return "\n".join([
        "// The cases as checks/cases_kernel.py lists them, each double by its bits: first those of the kernel.\n"
        f"pub const OF_THE_KERNEL: usize = {len(pairs())};\n"
        f"pub const IN_ALL: usize = {len(firsts)};\n",
        "// A distance, or the clock's step length.\n" + table("FIRST", firsts),
        "// The radius, or the remaining time.\n" + table("SECOND", seconds),
    ])


def main():
    parser = argparse.ArgumentParser(description=__doc__, formatter_class=argparse.RawDescriptionHelpFormatter)
    parser.add_argument("--write", action="store_true")
    options = parser.parse_args()
    made = {CRATE / "src" / "cases.rt": source(), CRATE / "stdout": lines()}
    if options.write:
        for path, text in made.items():
            path.write_text(text)
        return
    squeezed = lambda text: "".join(text.split())      # the formatter may break lines elsewhere
    wrong = [path.name for path, text in made.items() if squeezed(path.read_text()) != squeezed(text)]
    print("differs: " + ", ".join(wrong) if wrong else f"{len(pairs())} pairs and {len(clocks())} clocks agree")
    sys.exit(1 if wrong else 0)


if __name__ == "__main__":
    main()
