#!/usr/bin/env python3
"""Writes examples/slot-coater.json and examples/slot-coater.walls: a small slot coater, which is a
flat scene, with weights and gradients of the cubic spline for two axes.

Ink comes down a slot between two lips of a die onto a web that moves to the right: 57 particles
at distances of 0.1 mm, of rest density 1000 kg/m3, under gravity for 0.2 ms; SI units, forces in
N for each metre of depth. The ink in the slot, 3 particles wide, moves down at 0.1 m/s, and so
does a wall above it, which stands for what is fed. Between lips and web there are 3 rows of 11:
their speed falls evenly from the web's, 0.2 m/s, to 0 at the lips, so that the web drags along as
much as the slot feeds. To the right a film of 2 rows leaves with the web; to the left the ink is
open. Lips and web keep forces, the feed keeps none. The spline's radius is 0.13 mm, so that a
particle touches those at a distance of 0.1 mm alone. Iterations stop by the error of the 2014
paper; examples/README.md says with which limit.
tools/scene.py packs the scene, and tools/answers.py takes the wall positions.
"""
import lattice

VERSION, REST = 4, 1000.0
LATTICE = lattice.Lattice(VERSION, apart=0.0001, radius=0.00013)
LIP, SLOT, GAP, TALL, FILM = 4, 3, 3, 6, 3      # in particles
WEB_SPEED, FEED_SPEED = 0.2, 0.1
COMMENT = ("57 particles of ink of a slot coater, a flat scene: they come down a slot between two "
           "lips onto a web that moves to the right; the forces of one step on lips and web")

WIDE, TOP = LIP + SLOT + LIP, GAP + TALL
BEAD = [(x, y) for y in range(GAP) for x in range(WIDE)]
INK = (BEAD + [(x, y) for y in range(GAP, TOP) for x in range(LIP, LIP + SLOT)]
       + [(x, y) for y in range(GAP - 1) for x in range(WIDE, WIDE + FILM)])
LEFT = [(x, GAP) for x in range(LIP)] + [(LIP - 1, y) for y in range(GAP + 1, TOP)]
RIGHT = [(WIDE - 1 - x, y) for x, y in LEFT]
WEB = [(x, -1) for x in range(-1, WIDE + FILM + 1)]
FEED = [(x, TOP) for x in range(LIP, LIP + SLOT)]
WALLS = [(LEFT, True, [0, 0]), (RIGHT, True, [0, 0]), (WEB, True, [WEB_SPEED, 0]),
         (FEED, False, [0, -FEED_SPEED])]


def velocity(place):
    """Of the ink there."""
    x, y = place
    if y >= GAP:
        return [0, -FEED_SPEED]
    return [round(WEB_SPEED * (GAP - y) / (GAP + 1), 6) if x < WIDE else WEB_SPEED, 0]


def slot_coater():
    return {"comment": COMMENT, "version": VERSION, "stopping": "ihmsen2014",
            "step_length": 0.0002, "remaining_time": 0.0002, "error_limit": 1e-05,
            "gravity": [0, -9.81],
            "fluids": [{"rest_density": REST, "particles": LATTICE.ink(INK, WALLS, velocity)}],
            "walls": LATTICE.walls(WALLS)}


def positions(): return LATTICE.positions(WALLS, ["left lip", "right lip", "web", "feed"])


def main(): lattice.write("slot-coater", __doc__, slot_coater(), positions())


if __name__ == "__main__":
    main()
