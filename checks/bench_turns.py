#!/usr/bin/env python3
"""Steps packed scenes with two or more archives of the C interface in turn, in one process: the
archive before a change and the one after it, on a machine whose speed comes and goes. A benchmark,
not a test: it prints times and judges nothing, but that all archives give the same answers.

  checks/bench_turns.py FIRST.a OTHER.a... --scenes FILE... [--rounds N]

  FIRST.a, OTHER.a   archives that `rt lib` made in crates/iisph_c
  --scenes FILE...   packed scenes, such as `bench scenes FOLDER` writes (oracle/src/bin/bench)
  --rounds N         each archive steps each scene so many times (300), on one core

A line for each scene and way, `step` or `lent` (with a lent index): the least nanoseconds of the
first archive, and those of every other over the first one's. Archives are linked with cc.
"""
import argparse
import os
import pathlib
import subprocess
import sys
import tempfile

DRIVER = pathlib.Path(__file__).resolve().parent / "parts" / "turns.c"
WAYS = "step", "lent"


def count(word):
    if not word.isdecimal() or int(word) == 0:
        raise argparse.ArgumentTypeError("not a number from 1 on: " + word)
    return int(word)


def built(folder, archives):
    """The driver, and a shared library for each archive."""
    driver, shared = folder / "turns", []
    subprocess.run(["cc", "-O2", str(DRIVER), "-o", str(driver), "-ldl"], check=True)
    for k, archive in enumerate(archives):
        shared.append(folder / ("%d.so" % k))
        subprocess.run(["cc", "-shared", "-o", str(shared[-1]), "-Wl,--whole-archive", archive,
                        "-Wl,--no-whole-archive", "-Wl,-Bsymbolic"], check=True)
    return driver, shared


def lines(output, archives):
    """The lines of a scene, by the driver's line: its name, then a time for each archive and way."""
    for line in output:
        name, *words = line.split()
        times = [float(word) for word in words]
        for k, way in enumerate(WAYS):
            first, *others = times[k::len(WAYS)]
            assert len(others) == len(archives) - 1
            yield "%-24s %4s %12.1f %s" % (pathlib.Path(name).name, way, first,
                                           " ".join("%6.3f" % (time / first) for time in others))


def main():
    parser = argparse.ArgumentParser(description=__doc__, formatter_class=argparse.RawDescriptionHelpFormatter)
    parser.add_argument("archives", nargs="+")
    parser.add_argument("--scenes", nargs="+", required=True)
    parser.add_argument("--rounds", type=count, default=300)
    options = parser.parse_args()
    os.sched_setaffinity(0, {max(os.sched_getaffinity(0))})      # the driver inherits it
    try:
        with tempfile.TemporaryDirectory() as folder:
            driver, shared = built(pathlib.Path(folder), options.archives)
            words = [str(driver), str(options.rounds), *map(str, shared), "--", *options.scenes]
            with subprocess.Popen(words, stdout=subprocess.PIPE, text=True) as run:
                for line in lines(run.stdout, options.archives):
                    print(line, flush=True)
            return 2 if run.returncode else 0
    except (OSError, subprocess.CalledProcessError) as e:
        print(e, file=sys.stderr)
    except KeyboardInterrupt:
        print("stopped", file=sys.stderr)
    return 2


if __name__ == "__main__":
    sys.exit(main())
