"""An answer as a table, as CSV, as JSON and as VTK files."""
import math

from answer_text import ENDINGS
from commands import counted
from scene_json import written

PASSED_OVER = "an average was not a number and was passed over: do not trust settled"
NO_NUMBER = "a fluid's average error is not a number and never settles: do not trust the pressures"
UNTOLD = "recorded before answers told whether an average was passed over, so it is not known; run the step again"
UNHELD = ("not held against a scene, so it would not be noticed if the last lines of a fluid or wall were missing; "
          "add --scene SCENE.bin")


def warnings(answer):
    """What nobody may overlook, by a name: at most one, since the error is a number where an average
    was passed over."""
    if any(map(math.isnan, answer.error)):
        return {"error_not_a_number": NO_NUMBER}
    return {"passed_over": PASSED_OVER} if answer.passed_over else {}


def alarms(answer):
    """A warning as outputs begin with it."""
    return ["WARNING: " + text for text in warnings(answer).values()]


def doubts(answer): return [UNTOLD] if answer.passed_over is None else []


def rule(answer):
    return ", stopping by %s, summed %s" % (answer.stopping, answer.summation) if answer.stopping else ""


# ---- table, CSV and JSON

def decimal(x): return "%.6g" % x
def along(answer, name): return [name % axis for axis in answer.axes]


def ended(answer):
    ending = ENDINGS[answer.ending]
    return "".join([ending % counted(answer.iterations, "iteration") if "%" in ending else ending,
                    *[", error " + decimal(x) for x in answer.error], rule(answer)])


def table(answer):
    lines = [*alarms(answer), ended(answer), *doubts(answer),
             "dt %s, 1 / dt %s, remaining time %s" % tuple(map(decimal, answer.clock))]
    rows = [[str(p.model), str(p.number), *map(decimal, [*p.position, *p.velocity, p.pressure])] for p in answer.fluid]
    lines += columns(["fluid", "particle", *answer.axes, *along(answer, "v%s"), "pressure"], rows)
    rows = [[str(w.model), str(w.number), *map(decimal, [w.volume, *(w.force or [])])] + ["not kept"] * (not w.force)
            for w in answer.wall]
    lines += columns(["wall", "particle", "volume", *along(answer, "f%s")], rows)
    rows = [[str(m), *[decimal(sum(w.force[k] for w in answer.wall if w.force and w.model == m))
                       for k in range(len(answer.axes))]]
            for m in sorted({w.model for w in answer.wall if w.force})]
    lines += columns(["wall", *along(answer, "f%s-in-all")], rows)
    there = " and ".join(counted(len(particles), "%s particle" % kind)
                         for kind, particles in (("fluid", answer.fluid), ("wall", answer.wall)))
    return "\n".join([*lines, "", "held against the scene: all its particles are there, " + there if answer.held
                      else UNHELD, *alarms(answer)]) + "\n"


def columns(heads, rows):
    if not rows:
        return []
    wide = [max(len(row[k]) for row in [heads, *rows] if k < len(row)) for k in range(len(heads))]
    return [""] + ["  ".join(cell.rjust(w) for cell, w in zip(row, wide)) for row in [heads, *rows]]


def csv(answer):
    """By what error iterations stopped and how it was summed, where it is known, and a warning stand
    in each row, in last columns that other answers lack: so they are seen wherever the rows go, and
    the columns before them are read as ever."""
    none = [""] * len(answer.axes)      # in place of a vector
    rows = [["kind", "model", "particle", *answer.axes, *along(answer, "v%s"), "pressure",
             "volume", *along(answer, "f%s")]]
    rows += [["fluid", str(p.model), str(p.number),
              *map(repr, [*p.position, *p.velocity, p.pressure]), "", *none] for p in answer.fluid]
    rows += [["wall", str(w.model), str(w.number),
              *(map(repr, w.position) if w.position else none), *none, "",
              repr(w.volume), *(map(repr, w.force) if w.force else none)] for w in answer.wall]
    lines = [",".join(row) for row in rows]
    more = [("stopping", answer.stopping), ("summation", answer.summation)] if answer.stopping else []
    for head, cell in more + [("warning", text) for text in warnings(answer).values()]:
        lines = [line + "," + (cell if k else head) for k, line in enumerate(lines)]
    return "\n".join(lines) + "\n"


def number(x):
    """JSON has no number for what is not finite: a text, which Python's float reads."""
    return x if math.isfinite(x) else "NaN" if math.isnan(x) else "Infinity" if x > 0 else "-Infinity"


def numbers(xs): return list(map(number, xs))


def json(answer):
    """The warnings come first; a width of 300 holds a particle on a line."""
    fluid = [{"fluid": p.model, "particle": p.number, "position": numbers(p.position),
              "velocity": numbers(p.velocity), "pressure": number(p.pressure)} for p in answer.fluid]
    walls = [{"wall": w.model, "particle": w.number, **({"position": numbers(w.position)} if w.position else {}),
              "volume": number(w.volume), **({"force": numbers(w.force)} if w.force else {})} for w in answer.wall]
    return written({"warnings": [*warnings(answer).values(), *doubts(answer)], "ending": answer.ending,
                    "iterations": answer.iterations, "error": (numbers(answer.error) or [None])[0],
                    "passed_over": answer.passed_over, "held": answer.held, "stopping": answer.stopping,
                    "summation": answer.summation,
                    "clock": dict(zip(["dt", "inv_dt", "remaining_time"], numbers(answer.clock))),
                    "fluid": fluid, "walls": walls}, width=300) + "\n"


# ---- VTK

def vtk(answer, kind, scalars, vectors):
    """Legacy VTK of points; what is not finite, or not kept, is written as 0 and marked, since
    readers stumble over it. Titles, of 255 letters at most, are rarely shown: so a warning is the
    first scalar too, which VTK makes the active one. Points and vectors have three axes there, so
    those of a flat scene have z = 0."""
    title = "%s particles after a pressure step%s%s" % (kind, held(answer), rule(answer))
    title += "" if "z" in answer.axes else ", flat: z = 0"
    particles, title = getattr(answer, kind), "; ".join([*alarms(answer), title, *doubts(answer)])
    n, scalars = len(particles), [*((name, "int", lambda p: 1) for name in warnings(answer)), *scalars]
    safe = lambda xs: " ".join(repr(x) if math.isfinite(x) else "0.0" for x in xs)
    in_space = lambda xs: safe([*xs, 0.0, 0.0, 0.0][:3])
    lines = ["# vtk DataFile Version 3.0", title, "ASCII", "DATASET POLYDATA", "POINTS %d double" % n,
             *[in_space(p.position) for p in particles],
             "VERTICES %d %d" % (n, 2 * n), *["1 %d" % k for k in range(n)], "POINT_DATA %d" % n]
    for name, form, of in [*scalars, ("model", "int", lambda p: p.model), ("particle", "int", lambda p: p.number),
                           ("finite", "int", finite)]:
        lines += ["SCALARS %s %s 1" % (name, form), "LOOKUP_TABLE default",
                  *[str(int(of(p))) if form == "int" else safe([of(p)]) for p in particles]]
    for name, of in vectors:
        lines += ["VECTORS %s double" % name, *[in_space(of(p)) for p in particles]]
    return "\n".join(lines) + "\n"


def finite(p):
    """Whether every number of a particle is."""
    return all(math.isfinite(x) for part in vars(p).values() if part is not None
               for x in (part if isinstance(part, list) else [part]))


def held(answer): return ", held against the scene" if answer.held else ", not held against a scene"


def fluid_vtk(answer):
    return vtk(answer, "fluid", [("pressure", "double", lambda p: p.pressure)], [("velocity", lambda p: p.velocity)])


def wall_vtk(answer):
    scalars = [("volume", "double", lambda w: w.volume), ("keeps_forces", "int", lambda w: w.force is not None)]
    return vtk(answer, "wall", scalars, [("force", lambda w: w.force or [])])
