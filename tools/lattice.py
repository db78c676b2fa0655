"""Small scenes of particles at equal distances, for the tools that write examples/: contacts with
weights and gradients of the cubic spline of docs/METHOD.md, 1, and what such tools write. How many
axes there are is told by the scene's version."""
import argparse
import math
import pathlib

from scene_json import written
from scene_walk import VERSIONS

EXAMPLES = pathlib.Path(__file__).resolve().parent.parent / "examples"


# ---- the cubic spline, by the number of axes

def normalizer(h, axes):
    product = math.pi
    for _ in range(axes):
        product = product * h
    return {2: 40.0 / 7.0, 3: 8.0}[axes] / product


def weight(r, h, axes):
    q, t = r / h, 1.0 - r / h
    shape = (1.0 + ((q * q) * q - q * q) * 6.0 if q <= 0.5
             else ((t * t) * t) * 2.0 if q <= 1.0 else 0.0)
    return normalizer(h, axes) * shape


def slope(r, h, axes):
    q, t = r / h, 1.0 - r / h
    shape = (0.0 if q > 1.0 or q <= 1e-5 else (((q * 3.0) - 2.0) * q) * 6.0 if q <= 0.5
             else ((-t) * t) * 6.0)
    return normalizer(h, axes) * shape / h


# ---- scenes

class Lattice:
    """Particles that stand `apart` and touch where they are nearer than `radius`. Their places are
    tuples of whole numbers of distances. Walls are triples: the places of a wall's particles,
    whether it keeps forces, its velocity."""

    def __init__(self, version, apart, radius):
        self.names, self.apart, self.radius = VERSIONS[version].axes, apart, radius
        self.axes = len(self.names)

    def position(self, place): return [round(self.apart * x, 6) for x in place]
    def weight(self, r): return weight(r, self.radius, self.axes)

    def volume(self):
        """Gives a particle with a nearest other on both sides along each axis the rest density."""
        return 1.0 / (self.weight(0.0) + 2.0 * self.axes * self.weight(self.apart))

    def gradient(self, a, b):
        """Of the weight at a, for a particle at b."""
        r = self.apart * math.dist(a, b)
        fall = slope(r, self.radius, self.axes)
        return [self.apart * (x - y) / r * fall + 0.0 if r > 0.0 else 0.0 for x, y in zip(a, b)]

    def near(self, place, models, word, with_gradient=True):
        """The contacts of what stands at a place with particles of these models."""
        found = []
        for m, places in enumerate(models):
            for k, other in enumerate(places):
                r = self.apart * math.dist(place, other)
                if r < self.radius:
                    contact = {word: m, "particle": k, "weight": self.weight(r)}
                    found.append({**contact, "gradient": self.gradient(place, other)}
                                 if with_gradient else contact)
        return found

    def ink(self, places, walls, velocity=None):
        """The particles of one fluid at these places: still, or with a velocity by their place."""
        stones = [stood for stood, _, _ in walls]
        return [{"position": self.position(place),
                 **({"velocity": velocity(place)} if velocity else {}), "volume": self.volume(),
                 "fluid_contacts": self.near(place, [places], "fluid"),
                 "wall_contacts": self.near(place, stones, "wall")} for place in places]

    def walls(self, walls):
        stones = [places for places, _, _ in walls]
        return [{"keeps_forces": keeps,
                 "particles": [{"velocity": velocity,
                                "contacts": self.near(place, stones, "wall", False)}
                               for place in places]} for places, keeps, velocity in walls]

    def positions(self, walls, names):
        """The text of a file for tools/answers.py: where wall particles stand."""
        lines = ["# wall, particle, %s: %s" % (", ".join(self.names), ", ".join(names))]
        lines += ["%d %d %s" % (m, k, " ".join(map(repr, self.position(place))))
                  for m, (places, _, _) in enumerate(walls) for k, place in enumerate(places)]
        return "\n".join(lines) + "\n"


def write(name, head, scene, positions):
    """What a tool does that has this head and no arguments: writes an example's JSON and walls."""
    form = argparse.RawDescriptionHelpFormatter
    argparse.ArgumentParser(description=head, formatter_class=form).parse_args()
    (EXAMPLES / (name + ".json")).write_text(written(scene) + "\n")
    (EXAMPLES / (name + ".walls")).write_text(positions)
