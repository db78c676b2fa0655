#!/usr/bin/env python3
"""The scenes of crates/cases_clock and the lines that it must write.

  checks/cases_clock.py          says whether the crate's files are what is worked out here
                                 (status 1 if not)
  checks/cases_clock.py --write  writes them

The program keeps a clock over steps on the scenes below, in this order, with lists for two fluid
particles, and writes the clock after each. Whether a step is done is what parts/step_rules.py works
out from the specification; the clock is moved on here, in floats, by METHOD 2.
"""
import argparse
import pathlib
import struct
import sys

from parts import step_rules, step_scenes as made

CRATE = pathlib.Path(__file__).resolve().parent.parent / "crates" / "cases_clock"
LISTS = {"answers": 14, "work": 28}
# total_step_size, dt, inv_dt, remaining_time; dt and inv_dt tell whether a step was done
CLOCKS = (0.1, 7.0, 7.0, 0.3), (-0.0, 7.0, 7.0, 1.0), (5e-324, 7.0, 7.0, -1.0)
# cut: refused 1; idle, no contacts: 9; crowd, three particles: 8; the others are done, with step lengths of their own
SCENES = {
    "cut": made.EMPTY[:51],
    "a": made.scene_a(),
    "b": made.scene([made.pair()]),
    "idle": made.scene_a([]),
    "crowd": made.scene([made.pair(), made.one([made.to(1, 0)])]),
    "empty": made.EMPTY,
}
ORDER = "cut", "a", "b", "idle", "crowd", "empty", "cut"


def advanced(clock):
    length, _, _, remaining = clock
    return length, length, 0.0 if length == 0.0 else step_rules.div(1.0, length), remaining - length


def is_done(scene):
    return step_rules.lines(scene, **LISTS).startswith("step ")


def line(name, clock):
    return " ".join([name, *(struct.pack(">d", x).hex() for x in clock)]) + "\n"


def lines():
    text = ""
    for clock in CLOCKS:
        for name in ORDER:
            if is_done(SCENES[name]):
                clock = advanced(clock)
            text += line(name, clock)
    return text


def files():
    scenes = {CRATE / "data" / name: scene for name, scene in SCENES.items()}
    return {**scenes, CRATE / "stdout": lines().encode()}


def main():
    parser = argparse.ArgumentParser(description=__doc__, formatter_class=argparse.RawDescriptionHelpFormatter)
    parser.add_argument("--write", action="store_true")
    if parser.parse_args().write:
        for path, content in files().items():
            path.parent.mkdir(parents=True, exist_ok=True)
            path.write_bytes(content)
        return 0
    wrong = [path.name for path, content in files().items() if not path.exists() or path.read_bytes() != content]
    print("differs: " + ", ".join(wrong) if wrong else "%d scenes and %d clocks agree" % (len(SCENES), len(CLOCKS)))
    return 1 if wrong else 0


if __name__ == "__main__":
    sys.exit(main())
