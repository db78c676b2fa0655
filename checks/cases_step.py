#!/usr/bin/env python3
"""The whole step, read from the specification alone: packs scenes, checks them, runs the step and
prints the program's lines.

  checks/cases_step.py              writes what crates/cases_step, cases_short_lists and cases_input
                                    are run on and must write, and examples/scene-a.bin
  checks/cases_step.py --check      says whether these files are what it would write (status 1 if
                                    not)
  checks/cases_step.py --self-test  holds the cases against what the specification says of them in
                                    words (status 1 if one differs)
  checks/cases_step.py --run FILE   prints the lines for one packed scene (status 2 if the file
                                    can't be read)

data/scenes has for each case the scene's length in four bytes, most significant first, and the
scene; stdout has the lines of all cases in the same order. cases_short_lists runs scene A with an
answer list one too short, with a work list one too short, and with both just long enough; then as
version 2 and rule 2 with the work list that was enough, and with one longer by a double.
cases_input reads a scene of 32,769 bytes from standard input and one of 32,768 from the file
data/longest. The step itself is parts/step_rules.py.
"""
import pathlib
import sys

from parts.flat_cases import flat_cases
from parts.flat_faults import flat_faults
from parts.packing import flat
from parts.rule_cases import rules
from parts.step_cases import readings, starred, swept
from parts.step_drawn import drawn, drawn_flat
from parts.step_faults import faults, most_particles, sizes
from parts.step_rules import LONGEST, lines, step, walk
from parts.step_scenes import pair, rich, scene, scene_a, under
from parts.sum_cases import as_rule_0, sums
from reference import batch

ROOT = pathlib.Path(__file__).resolve().parent.parent
# Scenes with lengths of the lists lent, for answers and for work, and a piece of the text.
LENT = ((scene_a(), 6, 14, "refused 8 0\n"), (scene_a(), 7, 13, "refused 8 0\n"),
        (scene_a(), 7, 14, swept("settled", 2)), (scene_a([]), 6, 14, "refused 8 0\n"),
        (rich(own=(3, 0)), 0, 0, "refused 7 439\n"), (rich(), 18, 30, "refused 8 0\n"),
        (rich(), 19, 29, "refused 8 0\n"), (rich(), 19, 30, "step "), (under(rich(), 2, 1), 18, 30, "refused 8 0\n"),
        (under(rich(), 2, 1), 19, 29, "refused 8 0\n"), (under(rich(), 2, 1), 19, 30, "step "),
        *[(under(data, 2, rule), answers, work, line) for rule in (2, 3)
          for data, answers, work, line in (
              (scene_a(), 7, 14, "refused 8 0\n"), (scene_a(), 6, 15, "refused 8 0\n"),
              (scene_a(), 7, 15, swept("settled", 2)), (rich(), 18, 32, "refused 8 0\n"),
              (rich(), 19, 31, "refused 8 0\n"), (rich(), 19, 32, "step "))],
        *[(flat(data, rule=rule), answers, work + particles * (rule // 2), line) for rule in range(4)
          for data, particles, answers, work, line in (
              (scene_a(), 1, 4, 11, "refused 8 0\n"), (scene_a(), 1, 5, 10, "refused 8 0\n"),
              (scene_a(), 1, 5, 11, swept("settled", 2)), (rich(own=(3, 0)), 2, 0, 0, "refused 7 335\n"),
              (rich(), 2, 13, 24, "refused 8 0\n"), (rich(), 2, 14, 23, "refused 8 0\n"),
              (rich(), 2, 14, 24, "step "))])


# ---- the files

def cases():
    """Comment, scene, and pieces of its text."""
    return [*starred(), *readings(), *rules(), *sums(), *as_rule_0(), *faults(), *sizes(), *drawn(),
            *flat_cases(), *flat_faults(), *drawn_flat()]


def files():
    """What is written where."""
    scenes, longest = [case[1] for case in cases()], most_particles()
    short = [lines(scene_a(), answers=a, work=w) for a, w in ((6, 14), (7, 13), (7, 14))]
    by_halves = under(scene_a(), 2, 2)
    short += [lines(by_halves, answers=7, work=w) for w in (14, 15)]
    made = {"crates/cases_step/data/scenes": batch(scenes),
            "crates/cases_step/stdout": "".join(map(lines, scenes)).encode(),
            "crates/cases_short_lists/data/scene": scene_a(),
            "crates/cases_short_lists/data/by_halves": by_halves,
            "crates/cases_short_lists/stdout": "".join(short).encode(),
            "crates/cases_input/stdin": longest + b"\0",
            "crates/cases_input/data/longest": longest,
            "crates/cases_input/stdout": "".join(lines(longest + more) for more in (b"\0", b"")).encode(),
            "examples/scene-a.bin": scene_a()}
    return {ROOT / name: content for name, content in made.items()}


# ---- the commands

def write():
    for path, content in files().items():
        path.parent.mkdir(parents=True, exist_ok=True)
        path.write_bytes(content)
        print("%s: %d bytes" % (path.relative_to(ROOT), len(content)))
    return 0


def check():
    stale = [path for path, content in files().items() if not path.is_file() or path.read_bytes() != content]
    said = ["%s is not what would be written" % path.relative_to(ROOT) for path in stale]
    print("\n".join(said or ["all files are what would be written"]))
    return 1 if stale else 0


def self_test():
    """The pieces that the cases name, scene B's inner numbers, and refusal 8."""
    said = [(comment, lines(data), piece) for comment, data, *pieces in cases() for piece in pieces]
    b = walk(scene([pair()], most=1))
    step(b)
    inner = [str((p.rho, p.predicted, p.aii)) for _, p in b.all]
    said += [("scene B: density, predicted, aii", found, "(1.0, 3.0, -2.0)") for found in inner]
    for data, answers, work, line in LENT:
        said.append(("lent lists of %d and %d" % (answers, work), lines(data, answers=answers, work=work), line))
    wrong = [case for case in said if case[2] not in case[1]]
    for comment, text, piece in wrong:
        print("%s\n  should have %s\n  but is\n%s" % (comment, piece.strip(), text))
    print("%d statements, %d wrong" % (len(said), len(wrong)))
    return 1 if wrong else 0


def main(arguments):
    if arguments in (["--help"], ["-h"]):
        print(__doc__, end="")
        return 0
    commands = {"": write, "--check": check, "--self-test": self_test}
    try:
        if len(arguments) == 2 and arguments[0] == "--run":
            with open(arguments[1], "rb") as file:
                print(lines(file.read(LONGEST + 1)), end="")
            return 0
        if " ".join(arguments) in commands:
            return commands[" ".join(arguments)]()
        print(__doc__, file=sys.stderr)
    except OSError as e:
        print("%s: %s" % (e.filename or "output", e.strerror), file=sys.stderr)
    return 2


if __name__ == "__main__":
    sys.exit(main(sys.argv[1:]))
