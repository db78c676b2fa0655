#!/usr/bin/env python3
"""The step of checks/parts/step_rules.py, loaded from its text or an edit of it; lists of scenes,
as programs read them; and a subject for compare.py.

  checks/reference.py [--any-length]    prints the lines of all cases of the file `scenes` in the
                                        current folder, as the program cases_step does; with
                                        --any-length no scene is `too long`
"""
import pathlib
import struct
import sys

SOURCE = pathlib.Path(__file__).resolve().parent / "parts/step_rules.py"


class Stop(Exception):
    """Its argument is a message."""


def text():
    """The source of checks/parts/step_rules.py."""
    try:
        return SOURCE.read_text(encoding="utf-8")
    except OSError as e:
        raise Stop("%s: %s" % (SOURCE, e.strerror))


def load(source):
    """The names that this source defines."""
    names = {"__name__": "step_rules", "__file__": str(SOURCE)}
    exec(compile(source, str(SOURCE), "exec"), names)
    return names


def answering(any_length=False):
    """What gives the lines of a packed scene; with any_length none is `too long`."""
    names = load(text())
    names["LONGEST"] = float("inf") if any_length else names["LONGEST"]
    return names["lines"]


def batch(scenes):
    """A file of these scenes: of each its length in four bytes, most significant first, and its
    bytes."""
    return b"".join(struct.pack(">I", len(data)) + data for data in scenes)


def unbatch(path):
    """The scenes of a file."""
    try:
        with open(path, "rb") as file:
            data = file.read()
    except OSError as e:
        raise Stop("%s: %s" % (path, e.strerror))
    scenes, at = [], 0
    while at < len(data):
        length = int.from_bytes(data[at:at + 4], "big")
        if at + 4 + length > len(data):
            raise Stop("%s: ends within the scene at byte %d" % (path, at))
        scenes.append(data[at + 4:at + 4 + length])
        at += 4 + length
    return scenes


def texts(output):
    """The text of each case: a case's first line is its only one that begins with one of these
    words."""
    found = []
    for line in output.splitlines(keepends=True):
        if line.split(" ")[0].strip() in ("step", "refused", "too", "skipped") or not found:
            found.append([])
        found[-1].append(line)
    return ["".join(case) for case in found]


def main(arguments):
    if arguments in (["--help"], ["-h"]):
        print(__doc__, end="")
        return 0
    if arguments not in ([], ["--any-length"]):
        print(__doc__, file=sys.stderr)
        return 2
    try:
        lines = answering(any_length=arguments != [])
        for data in unbatch("scenes"):
            sys.stdout.write(lines(data))
    except Stop as e:
        print(e, file=sys.stderr)
        return 2
    return 0


if __name__ == "__main__":
    sys.exit(main(sys.argv[1:]))
