#!/usr/bin/env python3
"""Times the check of a packed scene of about 4.5 MB. A benchmark, not a test: it prints
milliseconds and judges nothing.

  checks/bench_check.py                  builds libiisph_c.a (rt lib in crates/iisph_c, which
                                         proves what changed) and calls it
  checks/bench_check.py BEFORE AFTER     calls two such archives in turn, and prints AFTER's times
                                         over BEFORE's

`iisph_validate` with an empty work list is the check alone: the scene is accepted (1 to 7), and the
list is too short (8). Archives are linked with cc.
"""
import argparse
import ctypes
import pathlib
import statistics
import struct
import subprocess
import tempfile
import time

ROOT = pathlib.Path(__file__).resolve().parent.parent
CRATE = ROOT / "crates" / "iisph_c"
BUILT = CRATE / "out" / "libiisph_c.a"
ROUNDS = 201
SHORT_LIST = 108


def scene(particles=4096, contacts=30):
    data = bytes([0x11, 0, 1, 50]) + struct.pack(">6d", 0.5, 1, 0.1, 0, 0, -9.81) + struct.pack(">Hd", particles, 1000)
    for i in range(particles):
        data_of = struct.pack(">11d", *[0.25] * 11) + bytes([contacts, 0])
        names = [(i + 7 * k) % particles for k in range(contacts)]
        data += data_of + b"".join(struct.pack(">H4d", j, 1, 0.5, -0.5, 0) for j in names)
    return data


def build():
    subprocess.run(["rt", "lib"], cwd=CRATE, check=True, stdout=subprocess.DEVNULL)
    return [BUILT]


def validate(archive, shared):
    """The archive's `iisph_validate`, from a library that is linked for it."""
    subprocess.run(["cc", "-shared", "-o", shared, "-Wl,--whole-archive", archive, "-Wl,--no-whole-archive"],
                   check=True)
    function = ctypes.CDLL(str(shared)).iisph_validate
    function.restype = ctypes.c_uint64
    return function


def time_of(function, data):
    """One check, in milliseconds."""
    none, counts, size = (ctypes.c_double * 1)(), (ctypes.c_uint64 * 2)(), ctypes.c_size_t
    start = time.perf_counter()
    number = function(data, size(len(data)), none, size(0), counts, size(2))
    taken = 1000 * (time.perf_counter() - start)
    assert number == SHORT_LIST
    return taken


def main():
    parser = argparse.ArgumentParser(description=__doc__, formatter_class=argparse.RawDescriptionHelpFormatter)
    parser.add_argument("archives", nargs="*", type=pathlib.Path, metavar="ARCHIVE")
    archives, data = parser.parse_args().archives, scene()
    if len(archives) not in (0, 2):
        parser.error("name two archives, or none")
    with tempfile.TemporaryDirectory() as folder:
        functions = [validate(archive, pathlib.Path(folder) / ("%d.so" % k))
                     for k, archive in enumerate(archives or build())]
        times = list(zip(*[[time_of(function, data) for function in functions] for _ in range(ROUNDS)]))
    found = [(statistics.median(own), min(own)) for own in times]
    for median, least in found:
        print("%d bytes: median %.3f ms, least %.3f ms" % (len(data), median, least))
    if archives:
        print("after / before: median %.3f, least %.3f" % tuple(b / a for a, b in zip(*found)))


if __name__ == "__main__":
    main()
