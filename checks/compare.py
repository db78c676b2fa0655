#!/usr/bin/env python3
"""Holds a program that answers packed scenes against the Rust's own step (oracle/), output for
output. The Rust has rule 0 alone: of a scene with another rule the first line is held against
checks/parts/step_rules.py, and the others against the Rust's step with as many iterations.

  checks/compare.py [--scenes N] [--seed N] [--axes D] [--only CLASS]
                    [--subject COMMAND | --reference] [--stdin] [--oracle FILE] [--out FILE]
                    [--bytes N]
  checks/compare.py --kernel N [--seed N] [--axes D] [--subject COMMAND]

  --scenes N        so many scenes, shared out over the classes of checks/made_scenes.py (15,000),
                    after the cases of checks/cases_step.py
  --seed N          another seed gives other scenes (1)
  --axes D          solid scenes alone (3) or flat ones alone (2); without it half of each class is
                    flat. The kernel is that of so many axes (3)
  --only CLASS      this class alone; `large` and `many` are there only so, and their scenes are
                    then never `too long` to the oracle; checks/archive_steps.py is a subject that
                    steps them too
  --subject COMMAND the program to compare; it is run in a folder with the file `scenes` and prints
                    the lines of all its scenes (crates/cases_step/out/cases_step)
  --reference       compare checks/parts/step_rules.py instead (of rules 1 to 3 then all but first
                    lines)
  --stdin           run the command once for each scene, which it reads from standard input, as the
                    program iisph does
  --bytes N         at most so many bytes in one file `scenes` (300,000)
  --oracle FILE     the built oracle (oracle/target/release/oracle)
  --out FILE        where the smallest scene with a difference goes (target/difference.bin)
  --kernel N        instead of scenes, N distances and radii: the command reads a pair of doubles
                    per line, in hex, and prints weight and slope or the refusal; without a command,
                    METHOD's formulas in Python

Needs Python 3 and its own library only. Ends with 0 if nothing differs, 1 after a difference, 2 if
a file is missing or the use is wrong. Scenes in which an average was -0 are skipped, as the
specification says, and counted.
"""
import argparse
import collections
import itertools
import pathlib
import shlex
import sys
import time

from cases_step import cases
from made_scenes import CLASSES, LARGE, made
from parts.kernel_pairs import NAN, kernel_run
from parts.packing import axes_of
from parts.sides import SKIPPED, Failed, Sides, files_full, form_name
from parts.smaller import shrunk
from parts.step_rules import FLAT, SOLID
from reference import Stop

ROOT = pathlib.Path(__file__).resolve().parent.parent
MINUS_ZERO = "8000000000000000"


# ---- the runs

def stream(options):
    """Class and scene, in the order of the classes."""
    wanted = [options.axes] if options.axes else [SOLID, FLAT]
    if not options.only:
        for _, data, *_ in cases():
            if axes_of(data) in wanted:
                yield "cases_step", data
    names = [options.only] if options.only else list(CLASSES)
    for k, (name, axes) in enumerate(itertools.product(names, wanted)):
        source = made(options.seed, name, axes)
        for _ in range((options.scenes + k) // (len(names) * len(wanted))):
            yield name, next(source)


def kinds(answer):
    """What the summary counts of one answer."""
    words = answer.split("\n")[0].split(" ")
    if words[0] != "step":
        return [" ".join(words[:2])]
    numbers = [line.split(" ")[1:] for line in answer.splitlines()[2:]]
    pressures = [line.split(" ")[-1] for line in answer.splitlines() if line.startswith("fluid")]
    found = ["accepted", words[1]] + (["passed over"] if words[4:] == ["1"] else [])
    found += ["error " + of for of in error_kinds(words[3])] if words[3:] else []
    found += ["not-a-number"] if any(NAN in row for row in numbers) else []
    found += ["infinity"] if any(x[1:] == "FF0000000000000" and x[0] in "7F" for row in numbers for x in row) else []
    found += ["pressure above 0"] if any(x < "7FF0000000000001" and x.strip("0") for x in pressures) else []
    return found + (["3 or more iterations"] if words[1] != "unswept" and int(words[2]) > 2 else [])


def error_kinds(error):
    """What Ihmsen's criterion alone can have."""
    return (["not a number"] if error == NAN else ["-0"] if error == MINUS_ZERO else
            ["below 0"] if error[0] in "89ABCDEF" else [])


ORDER = ["accepted", "settled", "ranout", "unswept", "passed over", "error below 0", "error -0", "error not a number",
         "3 or more iterations", "pressure above 0", "infinity", "not-a-number", "skipped", "too long"]
ORDER += ["refused %d" % n for n in range(1, 11)]


def summary(counts):
    for name, count in counts.items():
        seen = [(kind, count[kind]) for kind in ORDER if count[kind]]
        seen += [(kind, n) for kind, n in count.items() if kind not in ORDER and kind != "all"]
        print("%-17s %7d: %s" % (name, count["all"], ", ".join("%s %d" % pair for pair in seen)))


def report(data, sides, options):
    data = shrunk(data, sides, options)
    options.out.parent.mkdir(parents=True, exist_ok=True)
    options.out.write_bytes(data)
    print("%s: %d bytes\n%s" % (options.out, len(data), data.hex() if len(data) < 1500 else ""))
    try:
        lines = ("".join(answers).splitlines() for answers in sides.ask([data]))
        rows = list(itertools.zip_longest(*lines, fillvalue="(nothing)"))
        different = [row for row in rows if row[0] != row[1]]
        for row in different[:10]:
            print("expected:    %s\nthe subject: %s" % row)
        print("%d lines differ" % len(different))
    except Failed as e:
        print(e)


def scenes_run(options):
    sides, counts, forms, done, worst, end = Sides(options), {}, {}, 0, None, 0.0
    for full in files_full(stream(options), options.bytes):
        if worst is not None and (len(worst) < 600 or time.monotonic() > end):
            break
        scenes = [data for _, data in full]
        try:
            expected, ours = sides.ask(scenes)
            failure = "%d answers" % len(ours)
        except Failed as e:
            expected, ours, failure = [], [], e
        if len(ours) != len(scenes) or any(a not in (b, SKIPPED) for a, b in zip(expected, ours)):
            wrong = sides.first_wrong(sorted(scenes, key=len), options.bytes)
            if wrong is None:
                raise Stop("%d scenes together have no answer, but each alone has: %s" % (len(scenes), failure))
            if worst is None:      # look on for a smaller one, but not for long
                print("a difference in a scene of %d bytes" % len(wrong), flush=True)
                end = time.monotonic() + 60.0
            worst = min(worst or wrong, wrong, key=len)
            continue
        for (name, data), answer in zip(full, expected):
            found = ["all", *kinds(answer.strip("\n"))]
            counts.setdefault(name, collections.Counter()).update(found)
            forms.setdefault(form_name(data), collections.Counter()).update(found)
        done += len(scenes)
        if sys.stderr.isatty():
            print("\r%d" % done, end="", file=sys.stderr, flush=True)
    if worst is not None:
        report(worst, sides, options)
        return 1
    summary(dict(counts, total=sum(counts.values(), collections.Counter())))
    print()
    summary(dict(sorted(forms.items())))
    skipped = sum(c["skipped"] for c in counts.values())
    print("%d scenes, seed %d: no difference (%d skipped: an average of -0)" % (done, options.seed, skipped))
    return 0


# ---- the command

def whole(word):
    if not word.isdecimal():
        raise argparse.ArgumentTypeError("not a whole number: " + word)
    return int(word)


def command_of(words):
    """The command; a file that is named from here is found from any folder."""
    command = shlex.split(words)
    if not command:
        raise Stop("--subject needs a command")
    return [str(pathlib.Path(word).resolve()) if "/" in word and pathlib.Path(word).exists() else word
            for word in command]


def main():
    parser = argparse.ArgumentParser(usage=__doc__, add_help=True)
    parser.add_argument("--scenes", type=whole, default=15000)
    parser.add_argument("--seed", type=whole, default=1)
    parser.add_argument("--axes", type=int, choices=[FLAT, SOLID])
    parser.add_argument("--only", choices=[*CLASSES, *LARGE])
    parser.add_argument("--subject")
    parser.add_argument("--reference", action="store_true")
    parser.add_argument("--stdin", action="store_true")
    parser.add_argument("--bytes", type=whole, default=300000)
    parser.add_argument("--oracle", type=pathlib.Path, default=ROOT / "oracle/target/release/oracle")
    parser.add_argument("--out", type=pathlib.Path, default=ROOT / "target/difference.bin")
    parser.add_argument("--kernel", type=whole)
    options = parser.parse_args()
    try:
        options.oracle, options.out = options.oracle.resolve(), options.out.resolve()
        if not options.oracle.is_file():
            raise Stop("%s is not there: run oracle/prepare.py FOLDER, then cargo build --release --offline in oracle/"
                       % options.oracle)
        default = ROOT / "crates/cases_step/out/cases_step"
        options.command = command_of(options.subject) if options.subject is not None else None
        if options.kernel is not None:
            return kernel_run(options)
        if options.reference:
            options.command = [sys.executable, str(ROOT / "checks/reference.py")]
            options.command += ["--any-length"] * (options.only in LARGE)
        elif options.command is None and not default.is_file():
            raise Stop("%s is not there: build it, or give --subject COMMAND or --reference; rt run in "
                       "crates/cases_step builds it, and then tells that the file scenes is not there" % default)
        options.command = options.command or [str(default)]
        return scenes_run(options)
    except (Stop, Failed) as e:
        print(e, file=sys.stderr)
    except OSError as e:
        print("%s: %s" % (e.filename or "output", e.strerror), file=sys.stderr)
    except ValueError as e:      # a command with an open quote
        print(e, file=sys.stderr)
    except KeyboardInterrupt:
        print("stopped", file=sys.stderr)
    return 2


if __name__ == "__main__":
    sys.exit(main())
