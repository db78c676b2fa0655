#!/usr/bin/env python3
"""Copies the Rust text that the oracle compiles and makes the few edits that it needs.

  oracle/prepare.py FOLDER    FOLDER has the Rust text: the crate salva at the commit that
                              docs/METHOD.md names, with src/solver/pressure/iisph_solver.rs and
                              the rest

The text goes to oracle/src/salva, which is not part of the repository. Each edit replaces one piece
of text that must be there exactly once; otherwise nothing is written and the status is 2. The edits
show what the step keeps to itself (pressures, iterations, error, remaining time, an average that is
not a number or -0) and make the two asserts on densities say which particle they mean. No edit
touches a number that the step works out. Two axes or three are chosen by the text itself, by a
feature: it is the same for both.
"""
import pathlib
import sys

HERE = pathlib.Path(__file__).resolve().parent
TARGET = HERE / "src/salva"

WHOLE = """counters/collision_detection_counters.rs counters/mod.rs counters/solver_counters.rs
    counters/stages_counters.rs counters/timer.rs geometry/contact_manager.rs geometry/contacts.rs
    helper.rs kernel/cubic_spline_kernel.rs kernel/kernel.rs object/boundary.rs object/fluid.rs
    object/interaction_groups.rs solver/helper.rs solver/nonpressure_force.rs
    solver/pressure/iisph_solver.rs timestep_manager.rs""".split()

# Of lib.rs only the macros that walk and add up lists: what begins with the first text and ends
# before the second.
MACROS = "lib.rs", "macro_rules! par_iter {\n", "pub mod counters;\n"

# File, why, the text that is there once, and what stands in its place.
EDITS = [
    ("solver/pressure/iisph_solver.rs", "warm pressures go in and pressures come out; what is shown of the iterations",
     "    pressures: Vec<Vec<Real>>,\n    next_pressures: Vec<Vec<Real>>,\n",
     "    pub pressures: Vec<Vec<Real>>,\n    pub iterations: usize,\n    pub last_error: Option<Real>,\n"
     "    pub settled: bool,\n    pub passed_over: bool,\n    pub minus_zero: bool,\n"
     "    next_pressures: Vec<Vec<Real>>,\n"),
    ("solver/pressure/iisph_solver.rs", "their values before a step",
     "            pressures: Vec::new(),\n            next_pressures: Vec::new(),\n",
     "            pressures: Vec::new(),\n            iterations: 0,\n            last_error: None,\n"
     "            settled: false,\n            passed_over: false,\n            minus_zero: false,\n"
     "            next_pressures: Vec::new(),\n"),
    ("solver/pressure/iisph_solver.rs", "the iterations carried out, and the last error",
     "            std::mem::swap(&mut self.pressures, &mut self.next_pressures);\n",
     "            std::mem::swap(&mut self.pressures, &mut self.next_pressures);\n"
     "            self.iterations = i + 1;\n            self.last_error = Some(avg_err);\n"),
    ("solver/pressure/iisph_solver.rs", "that the early end was taken",
     "                break;\n",
     "                self.settled = true;\n                break;\n"),
    ("solver/pressure/iisph_solver.rs", "that an average was passed over is told of the last iteration alone",
     "        let mut max_error = na::zero::<Real>();\n",
     "        let mut max_error = na::zero::<Real>();\n        self.passed_over = false;\n"),
    ("solver/pressure/iisph_solver.rs", "an average that is not a number, and one of -0, on which runs skip the scene",
     "            if nparts != 0 {\n",
     "            if nparts != 0 {\n"
     "                self.passed_over |= (err / (nparts as f64)).is_nan();\n"
     "                self.minus_zero |= (err / (nparts as f64)).to_bits() == 1 << 63;\n"),
    ("solver/pressure/iisph_solver.rs", "refusal 9",
     "                    assert!(!density.is_zero());\n",
     "                    if density.is_zero() {\n"
     "                        std::panic::panic_any(crate::ZeroDensity { number: 9, fluid: fluid_id, particle: i });\n"
     "                    }\n"),
    ("solver/pressure/iisph_solver.rs", "refusal 10",
     "                    assert!(!predicted_density.is_zero());\n",
     "                    if predicted_density.is_zero() {\n"
     "                        std::panic::panic_any(crate::ZeroDensity { number: 10, fluid: fluid_id, particle: i "
     "});\n                    }\n"),
    ("timestep_manager.rs", "the remaining time goes in beside the step length, and comes out",
     "    remaining_time: Real,\n",
     "    pub remaining_time: Real,\n"),
]


class Stop(Exception):
    """Its argument is the message."""


def place(name, text, piece):
    if text.count(piece) != 1:
        raise Stop("%s: this text should be there once, but is there %d times, so nothing was written:\n%s"
                   % (name, text.count(piece), piece))
    return text.index(piece)


def prepared(folder):
    """The texts to write, by name."""
    read = {}
    for name in [*WHOLE, MACROS[0]]:
        try:
            read[name] = (folder / "src" / name).read_text(encoding="utf-8")
        except (OSError, UnicodeDecodeError) as e:
            raise Stop("%s can't be read (%s); give the folder with the Rust text"
                       % (folder / "src" / name, getattr(e, "strerror", None) or e))
    lib = read.pop(MACROS[0])
    read["macros.rs"] = lib[place("lib.rs", lib, MACROS[1]):place("lib.rs", lib, MACROS[2])]
    for name, _, old, new in EDITS:
        at = place(name, read[name], old)
        read[name] = read[name][:at] + new + read[name][at + len(old):]
    return read


def main(arguments):
    if arguments in (["--help"], ["-h"]):
        print(__doc__, end="")
        return 0
    if len(arguments) != 1 or arguments[0].startswith("-"):
        print(__doc__, file=sys.stderr)
        return 2
    try:
        texts = prepared(pathlib.Path(arguments[0]))
        for name, text in texts.items():
            path = TARGET / name
            path.parent.mkdir(parents=True, exist_ok=True)
            if not path.is_file() or path.read_text(encoding="utf-8") != text:
                path.write_text(text, encoding="utf-8")
    except Stop as e:
        print(e, file=sys.stderr)
        return 2
    except OSError as e:
        print("%s: %s" % (e.filename or TARGET, e.strerror), file=sys.stderr)
        return 2
    print("%d files, %d edits, each in one place: %s" % (len(texts), len(EDITS), TARGET))
    return 0


if __name__ == "__main__":
    sys.exit(main(sys.argv[1:]))
