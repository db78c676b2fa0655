#!/usr/bin/env python3
"""Draws the crates and what each builds on: reads crates.txt and writes docs/crates.svg.

  checks/crate_picture.py           writes the picture
  checks/crate_picture.py --check   says whether it is what would be written (status 1 if not)

A line `# ---- NAME` of crates.txt heads a section. Each section is a band of the picture, the
first one lowest, and in its band a crate stands above those that it builds on. An arrow leads from
a crate to one that it builds on; arrows that others imply are left out, and so are the kit's own
crates. An arrow that has to pass a row of crates gets a place of its own there, so it runs through
no crate; arrows to the same crate join. Status 2 if crates.txt is wrong or a file can't be used.
"""
import argparse
import collections
import itertools
import pathlib
import sys
from types import SimpleNamespace as Record
from xml.sax.saxutils import escape

from parts.layout import in_rows, linked, orders, placed, strain
from parts.pictures import SANS, kept

ROOT = pathlib.Path(__file__).resolve().parent.parent
LIST, PICTURE = ROOT / "crates.txt", ROOT / "docs/crates.svg"
KIT = {"std", "io", "libc", "os", "bytes", "check"}


class Wrong(Exception):
    """Its argument is a message."""


# ---- what crates.txt says

def parsed(text):
    """`sections`: the crates of each, by its name. `builds_on`: for each crate those of the list.
    `unlisted`: what is neither of the list nor of the kit, with the crates that build on it."""
    sections, named, section = {}, {}, ""
    for number, line in enumerate(text.splitlines(), 1):
        if line.startswith("# ----"):
            section = line.strip("#- \t")
        line = line.split("#")[0].strip()
        if line:
            crate, colon, others = (part.strip() for part in line.partition(":"))
            crate = crate.removesuffix(" staticlib").rstrip()      # a static library
            if not colon or not crate.isidentifier():
                raise Wrong("line %d: give a crate, a colon and what it builds on" % number)
            if crate in named:
                raise Wrong("line %d: %s has a line already; keep one of them" % (number, crate))
            sections.setdefault(section, []).append(crate)
            named[crate] = [other for other in dict.fromkeys(others.split()) if other not in KIT]
    if not named:
        raise Wrong("it lists no crate")
    builds_on = {crate: [o for o in others if o in named] for crate, others in named.items()}
    unlisted = collections.defaultdict(list)
    for crate, other in ((crate, other) for crate, others in named.items() for other in others):
        if other not in named:
            unlisted[other].append(crate)
    return Record(sections=sections, builds_on=builds_on, unlisted=unlisted)


def all_below(builds_on):
    """For each crate all that it stands on, directly or not."""
    found = {}

    def visit(crate, above):
        if crate in above:
            raise Wrong("crates build on each other in a circle through " + crate)
        if crate not in found:
            below = [visit(other, above | {crate}) | {other} for other in builds_on[crate]]
            found[crate] = set().union(*below)
        return found[crate]

    for crate in builds_on:
        visit(crate, frozenset())
    return found


def direct(builds_on):
    """For each crate those that it builds on, without those that another one of them stands on."""
    below = all_below(builds_on)
    return {crate: [other for other in others if not any(other in below[o] for o in others)]
            for crate, others in builds_on.items()}


# ---- the plan; lengths in pixels

HIGH, BETWEEN = 26, 24                            # a box; from row to row
PAD, APART, EDGE, NARROWEST = 14, 8, 16, 720      # around a band's rows; bands; the picture
LETTER, NAME_LETTER = 7.9, 8.2                    # as wide as one of a crate's, of a section's


def heights(rows, section_of, links, x):
    """The top of each row, and the bands from the highest down. Between rows there is more room
    where a line goes far to the side."""
    tops, bands, y = [0] * len(rows), [], EDGE // 2
    for k in reversed(range(len(rows))):
        aside = [abs(x[a] - x[b]) for gap in links[k:k + 1] for a, b in gap]
        more = min(30, max(aside, default=0) // 8)
        if bands and bands[-1].name == section_of[k]:
            y += BETWEEN + more
        else:
            if bands:
                bands[-1].bottom = y + PAD + more // 2
                y = bands[-1].bottom + APART
            bands.append(Record(name=section_of[k], top=y))
            y += PAD + more // 2
        tops[k], y = y, y + HIGH
    bands[-1].bottom = y + PAD
    return tops, bands


def laid_out(crates):
    """`boxes`: left, top, width and height for each crate. `bands`: name, top and bottom. `routes`:
    for each arrow points, from which to the next it goes over a gap, then through a row, and so on.
    """
    rows, section_of, routes = in_rows(crates.sections, direct(crates.builds_on))
    links = linked(rows, routes)
    name_of = {node: section_of[k] for k, row in enumerate(rows) for node in row}
    bent = {node: isinstance(node, tuple) for node in name_of}
    longest = {name: max(map(len, part)) for name, part in crates.sections.items()}
    widths = {node: 0 if bent[node] else 2 * round(LETTER * longest[name] / 2 + 10)
              for node, name in name_of.items()}      # the same in a band, and even

    def weight(upper, lower):
        """Straight should be above all what passes rows, then what connects crates of a band."""
        if bent[upper]:
            return 8 if bent[lower] else 3
        return 1 if bent[lower] else 6 if name_of[upper] == name_of[lower] else 2

    pulls = {link: weight(*link) for gap in links for link in gap}
    tried = [(order, placed(order, pulls, widths)) for order in orders(rows, links)]
    rows, x = min(tried, key=lambda found: strain(found[1], pulls))
    names = 2 * EDGE + round(NAME_LETTER * max(map(len, section_of)))      # they stand on the left
    least = min(x[node] - widths[node] // 2 for node in x)
    x = {node: at - least + names for node, at in x.items()}
    tops, bands = heights(rows, section_of, links, x)
    row_of = {node: k for k, row in enumerate(rows) for node in row}
    points = {}
    for arrow, nodes in routes.items():
        sides = (0, HIGH) if row_of[nodes[0]] > row_of[nodes[-1]] else (HIGH, 0)
        points[arrow] = [(x[n], tops[row_of[n]] + side) for n in nodes for side in sides][1:-1]
    boxes = {node: (x[node] - widths[node] // 2, tops[row_of[node]], widths[node], HIGH)
             for node in x if not bent[node]}
    right = max(x[node] + widths[node] // 2 for node in x) + 2 * EDGE
    return Record(boxes=boxes, bands=bands, routes=points, width=max(right, NARROWEST))


# ---- the picture

MONO = "DejaVu Sans Mono, Menlo, Consolas, monospace"
TINTS = [("#eef0f4", "#56627a"), ("#fbf2e1", "#9a6a12"), ("#e4f3f0", "#22756a"),
         ("#e6eefa", "#2c5ba6"), ("#f0e9f8", "#6a479f"), ("#fae9ec", "#a63f57")]
CAPTION = ("An arrow leads from a crate to one that it builds on. Left out are arrows that others "
           "imply, and the kit's own crates.")


def curve(points):
    """An arrow's line, which leaves and enters each row upright, up to its head; and the head."""
    (x, y), way = points[-1], 1 if points[-1][1] > points[-2][1] else -1
    out = ["M%d %d" % points[0]]
    for (a, b), (c, d) in itertools.pairwise(points[:-1] + [(x, y - 6 * way)]):
        if a == c and out[-1].startswith("V"):      # on straight
            out.pop()
        middle = (b + d) / 2
        out.append("V%d" % d if a == c else "C%d %g %d %g %d %d" % (a, middle, c, middle, c, d))
    return "".join(out), "M%d %dl-4 %dh8z" % (x, y - way, -8 * way)


def arrows_to(other, arrows, colour):
    """All arrows to a crate, as one line. Its white edge tells a line that crosses others from one
    that joins them."""
    lines, heads = zip(*[curve(points) for _, points in arrows])
    yield '<g fill="none"><title>%s → %s</title>' % (", ".join(crate for crate, _ in arrows), other)
    yield '<path d="%s" stroke="#ffffff" stroke-width="5"/>' % "".join(lines)
    yield '<path d="%s" stroke="%s" stroke-width="1.5"/>' % ("".join(lines), colour)
    yield '<path d="%s" fill="%s"/></g>' % ("".join(dict.fromkeys(heads)), colour)


def svg(crates):
    """The picture's text."""
    plan, tints = laid_out(crates), dict(zip(crates.sections, itertools.cycle(TINTS)))
    colour = {crate: tints[name][1] for name, part in crates.sections.items() for crate in part}
    size = plan.width, plan.bands[-1].bottom + 34
    out = ['<svg xmlns="http://www.w3.org/2000/svg" width="%d" height="%d" viewBox="0 0 %d %d">'
           % (size * 2), "<title>The crates and what each builds on</title>",
           '<rect width="100%" height="100%" fill="#ffffff"/>',
           '<g font-family="%s" font-size="14" font-weight="bold">' % SANS]
    for band in plan.bands:
        pale, dark = tints[band.name]
        box = EDGE // 2, band.top, plan.width - EDGE, band.bottom - band.top, pale
        out.append('<rect x="%d" y="%d" width="%d" height="%d" rx="6" fill="%s"/>' % box)
        name = EDGE + 4, band.top + 23, dark, escape(band.name)
        out.append('<text x="%d" y="%d" fill="%s">%s</text>' % name)
    out.append("</g>")
    into = collections.defaultdict(list)
    for (crate, other), points in plan.routes.items():
        into[other].append((crate, points))
    for other, arrows in into.items():
        out += arrows_to(other, arrows, colour[other])
    out.append('<g font-family="%s" font-size="13" text-anchor="middle" fill="#1b2330">' % MONO)
    for crate, (left, top, width, height) in plan.boxes.items():
        out.append('<rect x="%d" y="%d" width="%d" height="%d" rx="5" fill="#ffffff" stroke="%s"/>'
                   % (left, top, width, height, colour[crate]))
        out.append('<text x="%d" y="%d">%s</text>' % (left + width // 2, top + 17, crate))
    out.append("</g>")
    out.append('<text x="%d" y="%d" font-family="%s" font-size="12" fill="#3c4656">%s</text>'
               % (EDGE, size[1] - 13, SANS, escape(CAPTION)))
    return "\n".join([*out, "</svg>"]) + "\n"


def main():
    plain = argparse.RawDescriptionHelpFormatter
    parser = argparse.ArgumentParser(description=__doc__, formatter_class=plain)
    parser.add_argument("--check", action="store_true")
    options = parser.parse_args()
    try:
        crates = parsed(LIST.read_text(encoding="utf-8"))
        for other, builders in crates.unlisted.items():
            print("crates.txt: %s has no line and is left out; on it build %s"
                  % (other, ", ".join(builders)), file=sys.stderr)
        return kept(PICTURE, svg(crates), options.check, "checks/crate_picture.py")
    except Wrong as e:
        print("crates.txt: %s" % e, file=sys.stderr)
    except OSError as e:
        print("%s: %s" % (e.filename, e.strerror), file=sys.stderr)
    return 2


if __name__ == "__main__":
    sys.exit(main())
