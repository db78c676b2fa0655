#!/usr/bin/env python3
"""Runs two built benchmarks of oracle/ in turn, such as of the archive before a change and after it.
A benchmark, not a test: it prints times and ratios and judges nothing.

  checks/bench_pair.py OLD NEW [ROUNDS] [--repeats N] [--sizes LIST] [--flat]

  OLD, NEW      copies of oracle/target/release/bench, each linked to its archive
  ROUNDS        each is run so many times (5), on one core, the last that this process may use
  --repeats N   each run keeps the best of so many timings (15)
  --sizes LIST  these sizes alone, such as 1,8,10000x8
  --flat        the scenes with two axes

A line for each row of the benchmark and for each way of ours to step, `step` or `lent` (with an
index that the caller lends). For OLD and for NEW: our time by the Rust's, of the best times of all
rounds, and the middle one of the rounds' own ratios. Then NEW's best time by OLD's, ours and the
Rust's; the Rust is the same in both, so its quotient shows how far the machine is to be trusted.
Where OLD knows no lent way, NEW's is held against OLD's `step`.
"""
import argparse
import os
import statistics
import subprocess
import sys

WAYS = "step", "lent"


class Stop(Exception):
    """Its argument is the message."""


def rows_of(text):
    """The milliseconds of each way, by particles and iterations; `-` is a way that there is not."""
    head, *lines = text.splitlines() or [""]
    titles = head.replace(" ms", "_ms").split()
    rows = {}
    for line in lines:
        row = dict(zip(titles, line.split(), strict=True))
        times = {way: float(row[way + "_ms"]) for way in (*WAYS, "rust") if row[way + "_ms"] != "-"}
        rows[row["particles"], row["iterations"]] = times
    return rows


def ran(program, arguments):
    done = subprocess.run([program, *arguments], capture_output=True, text=True, check=False)
    try:
        rows = rows_of(done.stdout)
    except (KeyError, ValueError):
        rows = {}
    if done.returncode or not rows:
        raise Stop("%s has no rows, status %d: %s" % (program, done.returncode, done.stderr.strip()))
    return rows


def ratios(rounds, row, way):
    """Of the best times of all rounds, and the middle of each round's own."""
    times = [(rows[row][way], rows[row]["rust"]) for rows in rounds]
    ours, rust = (min(column) for column in zip(*times))
    return ours / rust, statistics.median(a / b for a, b in times)


def quotient(old, new, row, old_way, new_way):
    return min(rows[row][new_way] for rows in new) / min(rows[row][old_way] for rows in old)


def lines(old, new):
    yield "particles iterations  way  old best  middle  new best  middle  new/old  rust new/old"
    for row in new[0]:
        if row not in old[0]:
            raise Stop("OLD has no row of %s particles with %s iterations" % row)
        for way in (way for way in WAYS if way in new[0][row]):
            before = way if way in old[0][row] else "step"
            numbers = (*ratios(old, row, before), *ratios(new, row, way), quotient(old, new, row, before, way),
                       quotient(old, new, row, "rust", "rust"))
            yield "%9s %10s %4s %9.3f %7.3f %9.3f %7.3f %8.3f %13.3f" % (*row, way, *numbers)


def count(word):
    if not word.isdecimal() or int(word) == 0:
        raise argparse.ArgumentTypeError("not a number from 1 on: " + word)
    return int(word)


def main():
    parser = argparse.ArgumentParser(description=__doc__, formatter_class=argparse.RawDescriptionHelpFormatter)
    parser.add_argument("old")
    parser.add_argument("new")
    parser.add_argument("rounds", type=count, nargs="?", default=5)
    parser.add_argument("--repeats", type=count, default=15)
    parser.add_argument("--sizes", default="all")
    parser.add_argument("--flat", action="store_true")
    options = parser.parse_args()
    arguments = [str(options.repeats), options.sizes] + ["flat"] * options.flat
    os.sched_setaffinity(0, {max(os.sched_getaffinity(0))})      # the programs inherit it
    old, new = [], []
    try:
        for _ in range(options.rounds):
            old.append(ran(options.old, arguments))
            new.append(ran(options.new, arguments))
        for line in lines(old, new):
            print(line)
        return 0
    except Stop as e:
        print(e, file=sys.stderr)
    except OSError as e:
        print("%s: %s" % (e.filename, e.strerror), file=sys.stderr)
    except KeyboardInterrupt:
        print("stopped", file=sys.stderr)
    return 2


if __name__ == "__main__":
    sys.exit(main())
