#!/usr/bin/env python3
"""Writes examples/chamber.json and examples/chamber.walls: a small chamber of ink, with weights and
gradients of the cubic spline.

A lattice of 5 x 3 x 4 particles at distances of 1 mm, still and of rest density 1000 kg/m3, under
gravity for 1 ms; SI units. Below it is a floor, to the left a blade that moves in at 20 mm/s, to
the right a wall: these keep forces. Glass in front and behind keeps none. The top is open. The
spline's radius is 1.4 mm, so that a particle touches those at a distance of 1 mm alone. Iterations
stop by the error of the 2014 paper; examples/README.md says why, and how the limit was found.
tools/scene.py packs the scene, and tools/answers.py takes the wall positions.
"""
import lattice

LATTICE, REST = lattice.Lattice(version=2, apart=0.001, radius=0.0014), 1000.0
WIDE, DEEP, TALL = 5, 3, 4
COMMENT = ("60 particles of ink on a floor, between a blade that moves in, a wall and two panes "
           "of glass: the wall forces of one step")

INK = [(x, y, z) for z in range(TALL) for y in range(DEEP) for x in range(WIDE)]
FLOOR = [(x, y, -1) for y in range(DEEP) for x in range(WIDE)]
BLADE, WALL = ([(x, y, z) for z in range(TALL) for y in range(DEEP)] for x in (-1, WIDE))
GLASS = [(x, y, z) for y in (-1, DEEP) for z in range(TALL) for x in range(WIDE)]
WALLS = [(FLOOR, True, [0, 0, 0]), (BLADE, True, [0.02, 0, 0]), (WALL, True, [0, 0, 0]),
         (GLASS, False, [0, 0, 0])]


def chamber():
    return {"comment": COMMENT, "stopping": "ihmsen2014", "step_length": 0.001,
            "remaining_time": 0.001, "error_limit": 1e-05, "gravity": [0, 0, -9.81],
            "fluids": [{"rest_density": REST, "particles": LATTICE.ink(INK, WALLS)}],
            "walls": LATTICE.walls(WALLS)}


def positions(): return LATTICE.positions(WALLS, ["floor", "blade", "wall", "glass"])


def main(): lattice.write("chamber", __doc__, chamber(), positions())


if __name__ == "__main__":
    main()
