#!/usr/bin/env python3
"""Draws the kernel's two shapes and their measured errors: writes docs/shapes.svg.

  checks/shape_picture.py                     writes the picture
  checks/shape_picture.py --check             says whether it is what would be written (status 1 if
                                              not)
  checks/shape_picture.py --subject PROGRAM   draws nothing: holds what is drawn to the proved code,
                                              and measures the errors of its weights

An error is the exact difference, in fractions, between a computed shape (METHOD 1.2, 1.3) and the
exact one (METHOD 1.5). Status 2, and no picture, if one is above the bound that is proved, or if a
file can't be used.

PROGRAM is bindings/c/kernel_pairs.c, whose head says how it is built. Its weight and slope have to be
METHOD's formulas on Python's floats, bit for bit: at every measured q, as a distance with the radius 1,
and at distances with radii of all sizes for which the normalizer is finite and not 0. Of all these
weights the largest error is printed, in units of its proved bound, 5 × 2^-52 normalizers. Status 1
after a difference, or if an error is above the bound.
"""
import argparse
import pathlib
import sys
from fractions import Fraction
from xml.sax.saxutils import escape

from parts import shapes
from parts.kernel_pairs import answers, bits, kernel_line
from parts.pictures import SANS, kept
from parts.sides import Failed
from reference import Stop

PICTURE = pathlib.Path(__file__).resolve().parent.parent / "docs/shapes.svg"


# ---- numbers as texts, by whole numbers alone, so that every machine writes the same

def decimal(x, places):
    """The fraction x, rounded to at most so many places."""
    whole, rest = divmod(round(abs(x) * 10**places), 10**places)
    digits = ("%d.%0*d" % (whole, places, rest)).rstrip("0").rstrip(".")
    return "-" + digits if x < 0 and digits != "0" else digits


def power(x):
    """The fraction x as a power of 2, its exponent rounded to hundredths: a hundred times the
    logarithm, and a half, is half the logarithm of y."""
    y = 2 * x**200
    whole = y.numerator.bit_length() - y.denominator.bit_length()
    whole -= y < Fraction(2) ** whole
    return "2^" + decimal(Fraction(whole // 2, 100), 2)


# ---- panels; lengths in pixels

WIDTH, HEIGHT = 900, 896
WIDE, HIGH = 366, 190                             # a plot
LEFTS, TOPS = (66, 516), (86, 366, 646)           # of the plots
DARK, GREY, GRID, BLUE, RED = "#1b2330", "#3c4656", "#dde2ea", "#2c5ba6", "#a63f57"
QUARTERS, FIFTHS = ("0", "0.25", "0.5", "0.75", "1"), ("0", "0.2", "0.4", "0.6", "0.8", "1")


def pixel(x): return decimal(x, 1)


def label(x, y, words, more=""):
    return '<text x="%s" y="%s"%s>%s</text>' % (pixel(x), pixel(y), more and " " + more, escape(words))


def drawn(path, colour, more=""):
    return '<path d="%s" fill="none" stroke="%s"%s/>' % (path, colour, more and " " + more)


MIDDLE, END = 'text-anchor="middle"', 'text-anchor="end"'
HEADING = 'font-size="14" font-weight="bold" fill="%s"'


class Panel:
    """A plot in a column and a row. The labels of its ticks go from end to end, along q and up."""

    def __init__(self, column, row, along, up):
        self.left, self.top, self.along, self.up = LEFTS[column], TOPS[row], along, up

    def x(self, q):
        first, last = Fraction(self.along[0]), Fraction(self.along[-1])
        return self.left + WIDE * (q - first) / (last - first)

    def y(self, value):
        first, last = Fraction(self.up[0]), Fraction(self.up[-1])
        return self.top + HIGH * (last - value) / (last - first)

    def at(self, q, value): return "%s %s" % (pixel(self.x(q)), pixel(self.y(value)))
    def line(self, points): return "M" + "L".join(self.at(q, value) for q, value in points)

    def label(self, right, down, words, more=""):
        """A label at a place that is counted from the plot's corner."""
        return label(self.left + right, self.top + down, words, more)

    def ground(self, title, colour):
        """What lies below the curves: lines with ticks, the title and the names."""
        across, down = [self.x(Fraction(q)) for q in self.along], [self.y(Fraction(v)) for v in self.up]
        lines = ["M%s %dv%d" % (pixel(x), self.top, HIGH) for x in across]
        lines += ["M%d %sh%d" % (self.left, pixel(y), WIDE) for y in down]
        yield drawn("".join(lines), GRID)
        yield label(self.left - 50, self.top - 18, title, HEADING % colour)
        for x, words in zip(across, self.along):
            yield label(x, self.top + HIGH + 17, words, MIDDLE)
        for y, words in zip(down, self.up):
            yield label(self.left - 7, y + 4, words, END)
        yield self.label(WIDE // 2, HIGH + 34, "q", MIDDLE)

    def mark(self, q, value, colour):
        return ('<circle cx="%s" cy="%s" r="4" fill="%s" stroke="#ffffff"/>'
                % (pixel(self.x(q)), pixel(self.y(value)), colour))


def shape_panel(column, title, shape, up, colour, right, down, pieces):
    """An exact shape, with its formulas at a place."""
    panel = Panel(column, 0, QUARTERS, up)
    yield from panel.ground(title, colour)
    curve = ((Fraction(k, WIDE // 2), shape(Fraction(k, WIDE // 2))) for k in range(WIDE // 2 + 1))
    yield drawn(panel.line(curve), colour, 'stroke-width="2"')
    for k, words in enumerate(pieces):
        yield panel.label(right, down + 18 * k, words, END)


def by_column(found):
    """The least and the largest error of each pixel column, from pairs of q and an error."""
    ends = {}
    for q, error in found:
        column = min(int(q * WIDE), WIDE - 1)
        least, most = ends.get(column, (error, error))
        ends[column] = min(least, error), max(most, error)
    return ends


def error_panel(column, name, bound, colour, found, known):
    """Errors in units of their bound; `known` is a point with a large one."""
    panel, limit = Panel(column, 1, QUARTERS, FIFTHS), power(bound)
    yield from panel.ground("Error |%s - %s*|, in units of %s" % (name, name, limit), colour)
    strokes = ("M%sV%s" % (panel.at(Fraction(2 * k + 1, 2 * WIDE), least / bound), pixel(panel.y(most / bound)))
               for k, (least, most) in sorted(by_column(found).items()))
    yield drawn("".join(strokes), colour)
    yield drawn(panel.line([(0, 1), (1, 1)]), DARK, 'stroke-width="2"')
    yield panel.label(WIDE - 6, 18, "proved bound: " + limit, END)
    q, most = max([*found, known], key=lambda point: point[1])
    yield panel.mark(q, most / bound, DARK)
    right, down = panel.x(q) - panel.left, panel.y(most / bound) - panel.top
    yield panel.label(right, down - 31, "largest measured error: " + power(most), MIDDLE)
    yield panel.label(right, down - 15, "at q = %r" % float(q), MIDDLE)


def close_panel():
    """The slope close to zero, where the computed one is cut to 0."""
    panel = Panel(1, 2, ("0", "5e-6", "1e-5", "1.5e-5", "2e-5"),
                  ("-0.00025", "-0.0002", "-0.00015", "-0.0001", "-0.00005", "0"))
    yield from panel.ground("S and S* close to zero", RED)
    cut, end = Fraction(shapes.CUT), shapes.CLOSE_END
    slopes = [(Fraction(q), Fraction(shapes.computed(q)[1])) for q in shapes.close()]
    for part in [p for p in slopes if p[0] <= cut] + [(cut, 0)], [p for p in slopes if p[0] > cut]:
        yield drawn(panel.line(part), RED, 'stroke-width="5" stroke-opacity="0.45"')
    yield drawn(panel.line([(0, 0), (end, shapes.exact_slope(end))]), DARK, 'stroke-width="1.5"')
    yield drawn(panel.line([(0, shapes.LEAST_SLOPE), (cut, shapes.LEAST_SLOPE)]), DARK,
                'stroke-width="2" stroke-dasharray="6 4"')
    least = shapes.exact_slope(cut)
    yield panel.mark(cut, 0, RED)
    yield panel.mark(cut, least, DARK)
    yield panel.label(196, 18, "S is 0 up to 1e-5", 'fill="%s"' % RED)
    yield panel.label(196, 56, "S* at the double 1e-5:")
    yield panel.label(196, 71, decimal(least, 10))
    yield panel.label(22, 64, "S*")
    yield panel.label(WIDE - 6, 140, "S and S*", END)
    yield panel.label(8, 110, "proved up to 1e-5:")
    yield panel.label(8, 126, "S* is not below " + decimal(shapes.LEAST_SLOPE, 5))


# ---- the picture

CAPTION = """W and S are the computed shapes (METHOD 1.2, 1.3), W* and
S* the exact ones (METHOD 1.5). The upper row shows W* and
S*; at its scale W and S look the same.

Errors are measured at %d doubles: k / %d, rounded,
for k from 1 on; and at the two that are marked. %d is a
prime, so no such double below 1 is a short binary fraction.
Each error is an exact difference of fractions. For each
pixel column one stroke goes from the least error of its
doubles to the largest.

The bounds are proved for every finite double q from 0 on,
that of S for those above the double 1e-5."""


def measured():
    """Every q with both errors, at the points that are drawn; and two points with large errors, each
    with its own."""
    for q in shapes.close() + shapes.edges():
        shapes.errors(q)
    found = [(Fraction(q), *shapes.errors(q)) for q in shapes.spread()]
    return found, [(Fraction(q), shapes.errors(q)[k]) for k, q in enumerate(shapes.FARTHEST)]


def svg():
    """The picture's text."""
    found, (weight_known, slope_known) = measured()
    out = ['<svg xmlns="http://www.w3.org/2000/svg" width="%d" height="%d" viewBox="0 0 %d %d" '
           'font-family="%s" font-size="12" fill="%s">' % (WIDTH, HEIGHT, WIDTH, HEIGHT, SANS, DARK),
           "<title>The kernel's two shapes and their measured errors</title>",
           '<rect width="100%" height="100%" fill="#ffffff"/>',
           label(16, 34, "The kernel's two shapes and their measured errors", 'font-size="17"')]
    out += shape_panel(0, "Weight shape W", shapes.exact_weight, QUARTERS, BLUE, WIDE - 6, 22,
                       ("1 - 6 (q^2 - q^3) up to 1/2", "2 (1 - q)^3 up to 1"))
    out += shape_panel(1, "Slope shape S", shapes.exact_slope, ("-2", "-1.5", "-1", "-0.5", "0"), RED, WIDE - 6, 158,
                       ("6 q (3 q - 2) up to 1/2", "-6 (1 - q)^2 up to 1"))
    out += error_panel(0, "W", shapes.WEIGHT_BOUND, BLUE, [(q, error) for q, error, _ in found], weight_known)
    out += error_panel(1, "S", shapes.SLOPE_BOUND, RED, [(q, error) for q, _, error in found], slope_known)
    out += close_panel()
    out.append(label(16, TOPS[2] - 18, "How the errors are measured", HEADING % GREY))
    out += [label(16, TOPS[2] + 6 + 18 * k, words, 'fill="%s"' % GREY)
            for k, words in enumerate((CAPTION % (3 * (shapes.SPREAD,))).splitlines()) if words]
    return "\n".join([*out, "</svg>"]) + "\n"


# ---- the proved code

SEED, PAIRS = 1, 20000


class Different(Exception):
    """The program's answer is not what is worked out here. Its argument is a message."""


def largest(program, pairs):
    """The largest error of the program's weights, in units of its bound, with distance and radius."""
    lines = answers([program], pairs)
    if len(lines) != len(pairs):
        raise Stop("%d pairs, but %d answers: give the program of bindings/c/kernel_pairs.c" % (len(pairs), len(lines)))
    for (r, h), line in zip(pairs, lines):
        ours = kernel_line(r, h)
        if line != ours:
            raise Different("distance %s radius %s\nhere:        %s\nthe program: %s" % (bits(r), bits(h), ours, line))
    return max((shapes.kernel_error(r, h, shapes.double(line[:16])), r, h) for (r, h), line in zip(pairs, lines))


def held(path):
    """Holds the shapes to a program, and measures its weights. The status."""
    if not path.is_file():
        raise Stop("%s is not there: build it as the head of bindings/c/kernel_pairs.c says" % path)
    points = [*shapes.spread(), *shapes.close(), *shapes.edges(), *shapes.FARTHEST]
    status = 0
    for name, pairs in (("measured q, with the radius 1", [(q, 1.0) for q in points]),
                        ("distances, with radii of all sizes",
                         [*shapes.sized_pairs(SEED, PAIRS), shapes.FARTHEST_PAIR])):
        most, r, h = largest(str(path.resolve()), pairs)
        print("%d %s: no difference; the largest error of a weight is %s of its bound, at distance %s radius %s"
              % (len(pairs), name, decimal(most, 4), bits(r), bits(h)))
        if most > 1:
            print("this error is above its bound")
            status = 1
    return status


def main():
    plain = argparse.RawDescriptionHelpFormatter
    parser = argparse.ArgumentParser(description=__doc__, formatter_class=plain)
    one = parser.add_mutually_exclusive_group()
    one.add_argument("--check", action="store_true")
    one.add_argument("--subject", metavar="PROGRAM", type=pathlib.Path)
    options = parser.parse_args()
    try:
        if options.subject is not None:
            return held(options.subject)
        return kept(PICTURE, svg(), options.check, "checks/shape_picture.py")
    except Different as e:
        print(e)
        return 1
    except (shapes.Beyond, Stop, Failed) as e:
        print(e, file=sys.stderr)
    except OSError as e:
        print("%s: %s" % (e.filename, e.strerror), file=sys.stderr)
    return 2


if __name__ == "__main__":
    sys.exit(main())
