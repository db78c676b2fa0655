"""Scenes drawn by a fixed generator, and damaged copies of them, for cases_step.py."""
import struct

from parts.step_rules import FLAT, SOLID
from parts.step_scenes import FORMS, LEAST, beside, changed, fluid, particle, scene, stone, to, under, wall

NICE = 0.0, 1.0, -1.0, 0.5, -0.5, 2.0, 0.25, 3.0
EXTREME = 1.7976931348623157e308, 1e300, 1e154, 1e17, 1e-17, 1e-154, 1e-300
SUBNORMAL = LEAST, 2.0**-1023, 3e-310


class Draw:
    """A linear generator; its higher bits are the numbers drawn. Scenes have so many axes."""

    def __init__(self, seed, axes):
        self.state, self.axes = seed, axes

    def below(self, n):
        self.state = (self.state * 6364136223846793005 + 1442695040888963407) % 2**64
        return (self.state >> 20) % n

    def of(self, pool): return pool[self.below(len(pool))]
    def vector(self, wild): return tuple(self.double(wild) for _ in range(self.axes))

    def double(self, wild):
        """A nice number or a random one; with a chance of `wild` in 16 an extreme one, a subnormal,
        a zero or any finite pattern."""
        if self.below(16) >= wild:
            return self.of(NICE) if self.below(3) == 0 else self.below(2**42) / 2**41 - 1.0
        pattern = struct.pack(">Q", self.below(0x7FF) << 52 | self.below(2**44) << 8)
        x = self.of(self.of((EXTREME, SUBNORMAL, (0.0,), struct.unpack(">d", pattern))))
        return -x if self.below(2) else x

    def scene(self):
        wild = self.of((0, 0, 1, 2, 4, 8))
        counts = [self.below(4) for _ in range(1 + self.below(3))]
        kept = [(self.below(2), self.below(4)) for _ in range(self.below(4))]
        fluid_names = [(m, k) for m, n in enumerate(counts) for k in range(n)]
        wall_names = [(m, k) for m, (_, n) in enumerate(kept) for k in range(n)]

        def size():
            return 1.0 + abs(self.double(0)) if wild == 0 or self.below(4) else self.double(wild)

        def contacts(names, most):
            return [to(*self.of(names), self.double(wild), self.vector(wild))
                    for _ in range(self.below(most + 1) if names else 0)]

        def drop(name):
            near = ([to(*name, size(), (0.0,) * self.axes)] if self.below(16) else []) + contacts(fluid_names, 3)
            return particle(near, contacts(wall_names, 2), self.vector(wild), self.vector(wild), self.vector(wild),
                            size(), self.double(wild))

        def grain(keeps):
            near = [beside(*self.of(wall_names), self.double(wild)) for _ in range(self.below(3))]
            return stone(*near, velocity=self.vector(wild), force=self.vector(wild) if keeps else ())

        fluids = [fluid(size(), *[drop((m, k)) for k in range(n)]) for m, n in enumerate(counts)]
        walls = [wall(*[grain(keeps) for _ in range(n)], keeps=keeps) for keeps, n in kept]
        return scene(fluids, walls, self.below(4), self.of((0, 1, 1, 2, 3, 4, 7, 50)),
                     self.of((0.1, 0.5, 1.0, self.double(wild))), self.double(wild),
                     self.of((0.05, 0.5, 5.0, self.double(wild))), self.vector(wild))


def of_forms(seed, n, axes):
    """n scenes, of each form as many, and here and there one cut short or with a byte changed."""
    draw, forms = Draw(seed, axes), FORMS[axes]
    for k in range(n):
        data = under(draw.scene(), *forms[k % len(forms)])
        yield "random", data
        if k % 8 == 3:
            yield "cut short", data[:draw.below(len(data))]
        if k % 8 == 7:
            yield "a byte changed", changed(data, draw.below(len(data)), bytes([draw.below(256)]))


def drawn(): return of_forms(2014, 300, SOLID)
def drawn_flat(): return of_forms(2, 240, FLAT)
