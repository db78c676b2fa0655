#!/usr/bin/env python3
"""Steps scenes by an archive of the C interface: a subject for compare.py.

  checks/archive_steps.py ARCHIVE [--any-length]
      prints the lines of all scenes of the file `scenes` in the current folder, by `iisph_step` of
      ARCHIVE (libiisph_c.a), which cc links; with --any-length no scene is `too long`

Both lists are as long as `iisph_needed` says, with marks behind. It ends with 2 if a mark is gone,
if the needed part of the work list is not all +0 after a step or refusal 9 or 10, or if a refusal
has changed a list otherwise. Scenes of up to 4,096 particles a fluid:

  checks/compare.py --only many --scenes 300 \\
      --subject "checks/archive_steps.py crates/iisph_c/out/libiisph_c.a --any-length"
"""
import ctypes
import pathlib
import struct
import subprocess
import sys
import tempfile

from parts.packing import axes_of, unpack
from parts.step_rules import LONGEST, row
from reference import Stop, unbatch

SIZE, MARK, MARKS = ctypes.c_size_t, 1.5, 3
ENDINGS, REFUSALS = ("unswept 0", "settled", "ranout"), range(101, 111)
CLEARED = 9, 10      # refusals behind which the work list is +0


def linked(archive, folder):
    """The library of an archive."""
    shared = pathlib.Path(folder) / "iisph.so"
    command = ["cc", "-shared", "-o", str(shared), "-Wl,--whole-archive", str(archive), "-Wl,--no-whole-archive"]
    done = subprocess.run(command, capture_output=True, text=True)
    if done.returncode != 0:
        raise Stop("%s can't be linked: %s" % (archive, done.stderr.strip()))
    library = ctypes.CDLL(str(shared))
    for name in "iisph_needed", "iisph_step":
        getattr(library, name).restype = ctypes.c_uint64
    return library


def passed(*lists): return [part for xs in lists for part in (xs, SIZE(len(xs)))]
def patterns(xs): return struct.pack("<%dd" % len(xs), *xs)


def refusal(code, counts):
    if code not in REFUSALS:
        raise Stop("iisph answers %d" % code)
    return code - REFUSALS[0] + 1, "refused %d %d\n" % (code - REFUSALS[0] + 1, counts[1])


def must_be(xs, expected, what):
    if patterns(xs) != patterns(expected):
        raise Stop("%s is not as it should be" % what)


def text(library, data):
    """The lines of a scene."""
    counts, numbers = (ctypes.c_uint64 * 2)(), (ctypes.c_double * 4)()
    code = library.iisph_needed(*passed(data, counts))
    if code != 0:
        return refusal(code, counts)[1]
    lengths = list(counts)
    answers, work = ((ctypes.c_double * (n + MARKS))(*[MARK] * (n + MARKS)) for n in lengths)
    code = library.iisph_step(*passed(data, answers, work, numbers, counts))
    must_be(answers[lengths[0]:], [MARK] * MARKS, "the answer list's end")
    must_be(work[lengths[1]:], [MARK] * MARKS, "the work list's end")
    if code < len(ENDINGS):
        must_be(work[:lengths[1]], [0.0] * lengths[1], "the work list after a step")
        return told(ENDINGS[code], counts, numbers, answers, data)
    number, line = refusal(code, counts)
    must_be(answers[:lengths[0]], [MARK] * lengths[0], "the answer list after a refusal")
    must_be(work[:lengths[1]], [0.0 if number in CLEARED else MARK] * lengths[1], "the work list after a refusal")
    return line


def told(ending, counts, numbers, answers, data):
    """The lines of a step."""
    first = row("step %s %d" % (ending, counts[0]), numbers[0])[:-1] + " %d\n" % counts[1]
    lines, at = ["step unswept 0\n" if ending == ENDINGS[0] else first, row("clock", *numbers[1:])], 0
    s, axes = unpack(data), axes_of(data)
    models = [("fluid", m, 1 + 2 * axes, particles) for m, (_, particles) in enumerate(s["fluids"])]
    models += [("wall", m, 1 + keeps * axes, particles) for m, (keeps, particles) in enumerate(s["walls"])]
    for name, m, width, particles in models:
        for k in range(len(particles)):
            lines.append(row("%s %d %d" % (name, m, k), *answers[at:at + width]))
            at += width
    return "".join(lines)


def main(arguments):
    if arguments in (["--help"], ["-h"]):
        print(__doc__, end="")
        return 0
    archive, *more = arguments or ["-"]
    if archive.startswith("-") or more not in ([], ["--any-length"]):
        print(__doc__, file=sys.stderr)
        return 2
    try:
        with tempfile.TemporaryDirectory() as folder:
            library = linked(archive, folder)
            for data in unbatch("scenes"):
                sys.stdout.write(text(library, data) if more or len(data) <= LONGEST else "too long\n")
        return 0
    except Stop as e:
        print(e, file=sys.stderr)
    except OSError as e:
        print("%s: %s" % (e.filename, e.strerror), file=sys.stderr)
    return 2


if __name__ == "__main__":
    sys.exit(main(sys.argv[1:]))
