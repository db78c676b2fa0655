#!/usr/bin/env python3
"""Packed scenes that one can read: from JSON to bytes and back, what stands at an offset, and how
far each contact list is checked.

  tools/scene.py pack SCENE.json SCENE.bin    packs a scene that is written as JSON
  tools/scene.py show SCENE.bin               a packed scene as text, each line behind its offset
  tools/scene.py show --json SCENE.bin        the same as JSON; packed again it is the same bytes
  tools/scene.py at OFFSET SCENE.bin          which field stands at an offset: for `refused 7 152`
                                              ask for 152
  tools/scene.py looks SCENE.bin              how many contacts of each list are looked at for
                                              refusal 7, behind the offset of the first

A file named - is standard input or output. Status: 0; 1 if `show`, `at` or `looks` meets a scene
that a step refuses for its bytes (1 to 7), if nothing stands at the offset, or if the JSON is
wrong; 2 if a file or the command is. `pack` writes what the JSON says and ends with 0, and notes
what a step will refuse and, where the JSON leaves it open, by which error the iterations stop.
`looks` has no line for a list behind a refused contact, and none at all for a scene that is refused
1 to 6: its lists are not checked.

The JSON, in the words of docs/FORMAT.md. What has a value below is that where it is left out; a
list that is left out is empty.

  {"comment": "", "version": 1, "stopping": "salva", "summation": "in order",
   "least_iterations": 1, "most_iterations": 50,
   "step_length": .., "remaining_time": .., "error_limit": .., "gravity": [0, 0, 0],
   "fluids": [{"rest_density": .., "particles": [
     {"position": [0, 0, 0], "velocity": [0, 0, 0], "acceleration": [0, 0, 0],
      "volume": .., "warm_pressure": 0,
      "fluid_contacts": [{"fluid": .., "particle": .., "weight": .., "gradient": [0, 0, 0]}],
      "wall_contacts": [{"wall": .., "particle": .., "weight": .., "gradient": [0, 0, 0]}]}]}],
   "walls": [{"keeps_forces": false, "particles": [
     {"velocity": [0, 0, 0], "force": [0, 0, 0],
      "contacts": [{"wall": .., "particle": .., "weight": ..}]}]}]}

Iterations stop by the error of the Rust, "salva", or by that of the 2014 paper, "ihmsen2014". Of an
error the terms, one for each particle of a fluid, are added "in order" or "by halves", which loses
less of small ones in a large fluid. "ihmsen2014" and "by halves" need version 2, which is the
version where "stopping" or "summation" is there and "version" is not; it is refused without
"stopping". Without "summation" it is "in order", as its scenes were before they could name one.
A flat scene names version 4: every vector above has two numbers in place of three, x and y, and
all else is as in version 2, "stopping" included.
A double is a decimal or, in quotes, its 16 hex digits: 0.5 or "3FE0000000000000". `show --json`
writes decimals that read back as the same double, and hex digits for what is infinite or not a
number. A force may stand only where keeps_forces is true. The comment is not packed.
"""
import itertools
import os
import re
import sys

from commands import Misused, Wrong, carried_out, counted, read
from scene_json import pack, tree, written
from scene_walk import Walk, span, titled, told

# A command's words, how many may be beside the options, and whether an option has a value.
COMMANDS = {"pack": ("pack SCENE.json SCENE.bin", [2], {}),
            "show": ("show [--json] SCENE.bin", [1], {"--json": False}),
            "at": ("at OFFSET SCENE.bin", [2], {}),
            "looks": ("looks SCENE.bin", [1], {})}


# ---- show

def text_lines(walk):
    """A line for each owner: its offset, what it is, its fields."""
    for owner, fields in itertools.groupby(walk.fields, key=lambda f: f.owner):
        fields, texts = list(fields), []
        joined = itertools.groupby(fields, key=lambda f: (f.name[:-2] if f.axis else f.name, f.axis, f.size))
        for (name, axis, size), same in joined:
            values = [f.text for f in same]
            alone = "%s %s" % (name, values[0]) if size == 8 or values[0] == "cut short" else values[0]
            texts.append("%s (%s)" % (name, ", ".join(values)) if axis else alone)
        yield "%6d  %s%s: %s" % (fields[0].at, "  " * len(owner), "%s %d" % owner[-1] if owner else "header",
                                 ", ".join(texts))


def show(data, as_json):
    """The text, and what a step would refuse."""
    walk = Walk(data)
    unreadable = told(fault for fault in walk.faults if fault[0] <= 5)
    if as_json and unreadable:
        raise Wrong("no JSON packs to these bytes; `show` without --json shows the scene as far as it goes\n"
                    + unreadable[0])
    text = written(tree(walk)) + "\n" if as_json else "".join(line + "\n" for line in text_lines(walk))
    return text, told(walk.faults)


# ---- at

def at(data, offset):
    """Lines on what stands at the offset, lines on what a step refuses elsewhere, and whether
    something stands there in a sound scene."""
    walk = Walk(data)
    damage = told(f for f in walk.faults if f[0] in (2, 3, 4) and f[1] < offset)
    lines = ["the scene is damaged before this offset, so what follows may be wrong: " + line for line in damage]
    field = next((f for f in walk.fields if f.at <= offset < f.at + f.size), None)
    if field is None:
        end, ended = walk.fields[-1], "ends at %d" % (walk.end - 1)
        if end.text == "cut short":
            ended = "begins at %d and is cut short" % end.at
        lines.append("no field stands at offset %d: the scene has %s, and its last field %s"
                     % (offset, counted(len(data), "byte"), ended))
        first, last = walk.end, max(offset, len(data))
    else:
        first, last = field.at, field.at + field.size - 1
        digits = ", hex " + field.raw.hex().upper() if field.raw else ""
        lines.append("%s: %s (%s%s): %s" % (titled(field.owner), field.name, span(first, field.size), digits,
                                            field.text))
        if field.name == "position x" and first == offset and len(field.raw) == 8:
            record = next(line for line in text_lines(walk) if line.startswith("%6d " % offset))
            lines.append("here a record begins:" + record[6:].replace("      ", " "))
            lines.append("refused 9 means that its density is zero, 10 that its predicted density is; look at its "
                         "contacts' weights and gradients and at the volumes of what they name")
        if first != offset:
            lines.append("the field begins at %d; a refusal gives that offset" % first)
    here = told(f for f in walk.faults if first <= f[1] <= last)
    elsewhere = ["a step refuses this scene, " + line for line in told(walk.faults[:1]) if line not in here]
    return lines + here, elsewhere, field is not None and not walk.faults


# ---- looks

def list_lines(walk, last):
    """A line for each contact list, if contacts are looked at up to the offset `last`: its offset,
    whose it is, the looks at it."""
    for found in walk.lists:
        if found.at <= last:
            looked, n = sum(field.at <= last for field, _, _ in found.contacts), len(found.contacts)
            said = "%s at %s" % (counted(looked, "look"), counted(n, "contact")) if n else "none"
            yield "%6d  %s, %ss: %s" % (found.at, titled(found.owner), found.word, said)


def looks(data):
    """The text, and the refusal that ends the check."""
    walk = Walk(data)
    number, last, _ = walk.faults[0] if walk.faults else (7, walk.end, "")
    lines = list_lines(walk, last) if number == 7 else []
    return "".join(line + "\n" for line in lines), told(walk.faults[:1])


# ---- the commands

def write(name, data):
    with open(name, "wb") if name != "-" else os.fdopen(os.dup(1), "wb") as file:
        file.write(data)


def run(command, words, options):
    """Does what a command says, and gives notes and the status."""
    if command == "pack":
        data, notes = pack(read(words[0]))
        write(words[1], data)
        return notes, 0
    if command in ("show", "looks"):
        data = read(words[0])
        text, notes = show(data, "--json" in options) if command == "show" else looks(data)
        write("-", text.encode())
        return notes, 1 if notes else 0
    if not re.fullmatch("[0-9]{1,12}", words[0]):
        raise Misused("%s is no offset; give the last number of the line `refused ..`, "
                      "as in: tools/scene.py at 152 SCENE.bin" % words[0])
    lines, notes, sound = at(read(words[1]), int(words[0]))
    write("-", "".join(line + "\n" for line in lines).encode())
    return notes, 0 if sound else 1


def main(arguments):
    return carried_out("tools/scene.py", __doc__, COMMANDS, run, arguments)


if __name__ == "__main__":
    sys.exit(main(sys.argv[1:]))
