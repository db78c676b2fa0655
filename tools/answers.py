#!/usr/bin/env python3
"""Answers that one can look at: the program's output as a table, as CSV, as JSON, as files for
ParaView, and as a picture.

  tools/run SCENE.bin > ANSWER.txt
      the output, which the commands below take (- is standard input)
  tools/answers.py table ANSWER.txt [--scene SCENE.bin]
      decimals in columns, and the force on each wall in all
  tools/answers.py csv ANSWER.txt TABLE.csv [WALLS.txt] [--scene SCENE.bin]
      all decimals, each reads back as the same double
  tools/answers.py json ANSWER.txt FILE.json [WALLS.txt] [--scene SCENE.bin]
      the whole answer as one object, with the same decimals; what is not finite is "NaN",
      "Infinity" or "-Infinity", in quotes
  tools/answers.py vtk ANSWER.txt NAME [WALLS.txt] [--scene SCENE.bin]
      NAME-fluid.vtk and, with wall positions, NAME-wall.vtk (legacy VTK, ASCII)
  tools/answers.py svg ANSWER.txt PICTURE.svg [WALLS.txt] [--scene SCENE.bin] [--plane xz]
      particles coloured by pressure, arrows for wall forces; --plane says which axes go right and
      up: xz, xy, yz or another two; xz where it is left out, of a flat answer xy

An answer that is damaged, cut within a line or merged with another is refused. Whether the last
lines of a fluid or wall are missing the text alone can't tell: with --scene the answer is held to
the scene that it is of (how many particles each fluid and wall has, which walls keep forces, the
clock, the iterations and the error); without it the table, the picture, the VTK files, `held` in
the JSON and a note with the CSV say that it was not. With --scene it is told by what error the
iterations stopped, salva or ihmsen2014, and how it was summed, in order or by halves: in the table
and the picture behind the error, in columns `stopping` and `summation` of the CSV, as `stopping`
and `summation` in the JSON, which else are null, and in the title of the VTK files.
An answer has no positions of wall particles: WALLS.txt has a line for each, `WALL PARTICLE X Y Z`,
and # begins a comment.
The answer of a flat scene, of version 4, has two axes, x and y, and so have its table, CSV and
JSON; its WALLS.txt has lines `WALL PARTICLE X Y`. VTK knows points in space alone: theirs have
z = 0, and the title says so. That an answer is flat is told by its lines, which are held to the
scene where it is given.
By salva a step passes over a fluid's average error that is not a number, and its answer tells
whether it did so in the last iteration: then `settled` can't be trusted. By ihmsen2014 the error is
then not a number either, and never settles. A warning of each stands in the table's first and last
line, in a column `warning` of the CSV, in the JSON's `warnings`, in the title of the VTK files and
as `passed_over` or `error_not_a_number`, 1 at each of their points, in a red banner of the picture
and, but for the table, on standard error. Answers recorded before they told what was passed over
are taken too; table, `warnings` (`passed_over` is null), titles, picture and, but for the table,
standard error then say that it is not known.
Status: 0, with a warning too; 1 if the answer is a refusal, can't be read, or does not agree with
the scene or the wall positions; 2 if a file or the command is wrong.
"""
import sys

from answer_files import UNHELD, alarms, csv, doubts, finite, fluid_vtk, json, table, wall_vtk
from answer_picture import picture
from answer_text import hold, parse, place_walls, placing
from commands import Misused, carried_out, counted
from commands import read as read_bytes

HOLD, PLANE = {"--scene": True}, {"--scene": True, "--plane": True}
COMMANDS = {"table": ("table ANSWER.txt [--scene SCENE.bin]", [1], HOLD),
            "csv": ("csv ANSWER.txt TABLE.csv [WALLS.txt] [--scene SCENE.bin]", [2, 3], HOLD),
            "json": ("json ANSWER.txt FILE.json [WALLS.txt] [--scene SCENE.bin]", [2, 3], HOLD),
            "vtk": ("vtk ANSWER.txt NAME [WALLS.txt] [--scene SCENE.bin]", [2, 3], HOLD),
            "svg": ("svg ANSWER.txt PICTURE.svg [WALLS.txt] [--scene SCENE.bin] [--plane xz]", [2, 3], PLANE)}


def read(name):
    if name == "-":
        return sys.stdin.buffer.read().decode("utf-8", "replace")
    with open(name, encoding="utf-8", errors="replace") as file:
        return file.read()


def write(name, text):
    if name == "-":
        print(text, end="", flush=True)
        return
    with open(name, "w", encoding="utf-8") as file:
        file.write(text)


def given(files, options):
    """The answer that is asked for, held to its scene and with wall positions where these are
    given."""
    name = options.get("--scene")
    if [*files[:1], *files[2:], name].count("-") > 1:
        raise Misused("only one file can be read from standard input; give the others by name")
    answer = parse(read(files[0]), name)
    if name is not None:
        hold(answer, read_bytes(name), "the scene " + name)
    if len(files) == 3:
        place_walls(answer, read(files[2]), files[2])
    return answer


def run(command, files, options):
    """Does what a command says, and gives notes and the status."""
    answer = given(files, options)
    if command == "table":
        write("-", table(answer))
        return [], 0
    notes = alarms(answer) + doubts(answer)
    if command == "svg":
        text, left_out = picture(answer, options.get("--plane"))
        write(files[1], text)
        return notes + left_out, 0
    notes += [] if answer.held else [UNHELD]
    if command in ("csv", "json"):
        write(files[1], csv(answer) if command == "csv" else json(answer))
        return notes, 0
    write(files[1] + "-fluid.vtk", fluid_vtk(answer))
    if len(files) == 3:
        write(files[1] + "-wall.vtk", wall_vtk(answer))
    elif answer.wall:
        notes.append("no wall positions were given, so there is no %s-wall.vtk; %s"
                     % (files[1], placing(answer)))
    bad = sum(not finite(p) for p in [*answer.fluid, *(answer.wall if len(files) == 3 else [])])
    if bad:
        notes.append("not finite: some number of %s; it is written as 0, and `finite` is 0 there"
                     % counted(bad, "particle"))
    return notes, 0


def main(arguments):
    return carried_out("tools/answers.py", __doc__, COMMANDS, run, arguments)


if __name__ == "__main__":
    sys.exit(main(sys.argv[1:]))
