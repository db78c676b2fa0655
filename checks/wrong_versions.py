#!/usr/bin/env python3
"""Wrong versions of the step, and which of them the recorded answers of crates/cases_replay notice.

  checks/wrong_versions.py          runs each wrong version on crates/cases_replay/data/scenes and
                                    holds it against crates/cases_replay/stdout
  checks/wrong_versions.py --list   only prints the edits

Each is an edit of checks/parts/step_rules.py by text that is there exactly once. NOTICED must each
be noticed; the edits of SAME change no output, each for the reason that stands with it, and so
can't be. Ends with 1 if one of NOTICED is not noticed, or one of SAME is.
"""
import pathlib
import sys

from parts.wrong_axes import AXES_VERSIONS, SAME_AXES
from parts.wrong_criteria import CRITERIA, IHMSEN_TERM
from parts.wrong_endings import AVERAGE, ENDINGS, ERROR, told
from parts.wrong_reads import READS
from parts.wrong_rules import DELTA, DOT, RULES, TERM
from parts.wrong_sums import ADDED, SUMS
from reference import Stop, load, text, texts, unbatch

ROOT = pathlib.Path(__file__).resolve().parent.parent
SCENES, LINES = ROOT / "crates/cases_replay/data/scenes", ROOT / "crates/cases_replay/stdout"

NOTICED = [*RULES, *ENDINGS, *CRITERIA, *SUMS, *READS, *AXES_VERSIONS]

SAME = [
    ("f's sign after the product", "div((-dt) * dt, p.rho * p.rho), div((dt", "div(-(dt * dt), p.rho * p.rho), div((dt",
     "rounding to the nearest is the same on both sides of 0"),
    ("dij's sign after the product", "div((-c.mass) * c.named.pressure,", "div(-(c.mass * c.named.pressure),",
     "rounding to the nearest is the same on both sides of 0"),
    ("the error's sign after the sum", TERM, "div(-(found + p.aii * pressure), rest)",
     "only the sign of a zero term can change, and Salva's error keeps that of no average"),
    ("aii that is not a number is taken", "not abs(p.aii) > 1e-9", "abs(p.aii) <= 1e-9",
     "the next pressure then is not a number and becomes +0 with term +0, as without aii"),
    ("a dot product from 0", DOT, "return reduce(operator.add, map(operator.mul, a, b), 0.0)",
     "only the sign of a zero can change, and each dot product goes times a mass into a sum from +0, which does not "
     "keep it"),
    ("the other order of a sum in Ihmsen's term", IHMSEN_TERM,
     "div(((found + p.aii * pressure) + p.predicted) - rest, rest)", "a sum's two numbers may change places"),
    ("vector sums from -0", "return reduce(add, terms, zero)", "return reduce(add, terms, scale(zero, -1.0))",
     "only the sign of a zero axis of dii or dij can change, and both go by sums, products and dot products into sums "
     "from +0"),
    ("a density from +0 once more", "p.rho + total(", "total([p.rho]) + total(", "a density that goes on is not -0"),
    ("dt as the first factor of delta", DELTA,
     "dt * total(c.mass * dot(sub(p.v, c.named.v), c.gradient) for c in p.links)",
     "a product's factors may change places"),
    ("average by a product for counts of 2", AVERAGE, "(%s if len(f.particles) == 2 else %s)"
     % (AVERAGE.replace("/ len(f.particles)", "* 0.5"), AVERAGE),
     "half of a double rounds as its product with 0.5"),
    ("a sum that is not a number", ERROR,
     told("any(math.isnan(s.summation.of([p.term for p in f.particles])) for f in s.fluids if f.particles)"),
     "a sum divided by a count is not a number where the sum is not"),
    ("the second half first", ADDED, "    return by_halves(terms[first:]) + by_halves(terms[:first])\n",
     "a sum's two numbers may change places"),
    *SAME_AXES,
]


def edited(source, old, new):
    if source.count(old) != 1:
        raise Stop("this text should be in checks/parts/step_rules.py once, but is there %d times:\n%s"
                   % (source.count(old), old))
    return source.replace(old, new)


def answer(lines, data):
    """A case's text; a version that fails on it has none."""
    try:
        return lines(data)
    except Exception as e:      # a wrong version may do anything
        return "failed: %r\n" % e


def recorded():
    try:
        with open(LINES, encoding="ascii") as file:
            given = texts(file.read())
    except OSError as e:
        raise Stop("%s: %s" % (LINES, e.strerror))
    scenes = unbatch(SCENES)
    if len(scenes) != len(given):
        raise Stop("%d scenes but %d answers in crates/cases_replay" % (len(scenes), len(given)))
    return scenes, given


def check():
    source = text()
    scenes, given = recorded()
    right = load(source)["lines"]
    wrong = [k for k, data in enumerate(scenes) if right(data) != given[k]]
    if wrong:
        raise Stop("checks/parts/step_rules.py itself differs from the recorded answers on %d scenes, first on "
                   "number %d" % (len(wrong), wrong[0]))
    missed = 0
    for must, versions in (True, NOTICED), (False, [edit[:3] for edit in SAME]):
        print("to be noticed:" if must else "the same in all outputs, so not to be noticed:")
        for name, old, new in versions:
            lines = load(edited(source, old, new))["lines"]
            found = [answer(lines, data) for data in scenes]
            noticed, failed = sum(x != y for x, y in zip(found, given)), sum(x.startswith("failed") for x in found)
            missed += must != (noticed > 0)
            mark, more = "  " if must == (noticed > 0) else "!!", " (fails on %d)" % failed if failed else ""
            print("%s %4d scenes  %s%s" % (mark, noticed, name, more))
    judged = "%d not as they should be" % missed if missed else "all as they should be"
    print("%d scenes; %d wrong versions, %d the same; %s" % (len(scenes), len(NOTICED), len(SAME), judged))
    return 1 if missed else 0


def main(arguments):
    if arguments in (["--help"], ["-h"]):
        print(__doc__, end="")
        return 0
    try:
        if arguments == ["--list"]:
            for name, old, new, *why in [*NOTICED, *SAME]:
                old, new = (part.strip().replace("\n", "\n    ") for part in (old, new))
                print("%s%s\n  - %s\n  + %s" % (name, "".join(" (the same: %s)" % w for w in why), old, new))
            return 0
        if not arguments:
            return check()
        print(__doc__, file=sys.stderr)
    except Stop as e:
        print(e, file=sys.stderr)
    return 2


if __name__ == "__main__":
    sys.exit(main(sys.argv[1:]))
