"""compare.py --kernel and shape_picture.py --subject: distances and radii, and METHOD 1's weight and
slope of each, here and by a command."""
import collections
import math
import struct

from parts.drawing import Draw, kernel
from parts.sides import ran
from parts.step_rules import FLAT, SOLID
from reference import Stop

NAN = "7FF8000000000000"


def bits(x): return NAN if math.isnan(x) else struct.pack(">d", x).hex().upper()


def pairs(seed, n):
    d = Draw(seed)
    for _ in range(n):
        edge = d.of((0.0, 1e-5, 0.5, 1.0)) * d.of((1.0, 1.0 - 2.0**-53, 1.0 + 2.0**-52))
        odd = d.of((abs(d.extreme()), d.extreme(), abs(d.subnormal()), d.zero()))
        h = d.weighted(((8, abs(d.random()) or 1.0), (6, abs(d.nice()) or 1.0), (1, odd)))
        q = d.weighted(((6, 1.25 * d.unit()), (3, edge), (1, 1e-4 * d.unit())))
        r = d.weighted(((20, q * abs(h)), (1, abs(d.extreme())), (1, d.random()),
                        (1, d.of((math.inf, math.nan, -0.0, -1.0)))))
        yield r, d.of((math.inf, math.nan, -h)) if d.one_in(40) else h


def kernel_line(r, h, axes=SOLID):
    if not (math.isfinite(r) and r >= 0.0):
        return "refused 11"
    if not (math.isfinite(h) and h > 0.0):
        return "refused 12"
    return " ".join(map(bits, kernel(r, h, axes)))


def answers(command, cases):
    """The lines that a command prints for these distances and radii."""
    given = "".join("%s %s\n" % (bits(r), bits(h)) for r, h in cases)
    return ran(command, None, given.encode()).splitlines()


def kernel_kind(answer):
    """What the summary counts of one answer."""
    if answer.startswith("refused"):
        return answer
    return "not-a-number" if NAN in answer else "slope 0" if answer[17:].strip("08") == "" else "slope not 0"


def kernel_run(options):
    cases, axes = list(pairs(options.seed, options.kernel)), options.axes or SOLID
    rust = answers([str(options.oracle), "kernel"] + ["--flat"] * (axes == FLAT), cases)
    ours = answers(options.command, cases) if options.command else [kernel_line(r, h, axes) for r, h in cases]
    for (r, h), a, b in zip(cases, rust, ours):
        if a != b:
            print("distance %s radius %s\nthe Rust:    %s\nthe subject: %s" % (bits(r), bits(h), a, b))
            return 1
    if len(rust) != len(cases) or len(ours) != len(cases):
        raise Stop("%d pairs, but %d and %d answers" % (len(cases), len(rust), len(ours)))
    count = collections.Counter(map(kernel_kind, rust))
    print(", ".join("%s %d" % pair for pair in sorted(count.items())))
    print("%d pairs, seed %d: no difference" % (len(cases), options.seed))
    return 0
