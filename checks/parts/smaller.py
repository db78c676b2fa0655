"""A scene with a difference made smaller, for compare.py."""
import copy
import time

from parts.packing import pack, unpack


def without(s, fluid, number):
    """The scene without a fluid particle and the contacts that name it."""
    s = copy.deepcopy(s)
    del s["fluids"][fluid][1][number]
    for _, particles in s["fluids"]:
        for p in particles:
            p[1] = [[c[0], c[1] - (c[0] == fluid and c[1] > number), *c[2:]] for c in p[1] if c[:2] != [fluid, number]]
    return s


def without_wall(s, wall):
    s = copy.deepcopy(s)
    del s["walls"][wall]
    for particles in [f[1] for f in s["fluids"]] + [w[1] for w in s["walls"]]:
        for p in particles:
            p[-1] = [[c[0] - (c[0] > wall), *c[1:]] for c in p[-1] if c[0] != wall]
    return s


def smaller(s):
    """Scenes with one thing less."""
    for m in range(len(s["walls"])):
        yield without_wall(s, m)
    for m, (_, particles) in enumerate(s["fluids"]):
        for k in range(len(particles)):
            yield without(s, m, k)
    if s["fluids"] and not s["fluids"][-1][1]:
        yield dict(s, fluids=s["fluids"][:-1])
    for kind in "fluids", "walls":
        for m, (_, particles) in enumerate(s[kind]):
            for k, p in enumerate(particles):
                for place in range(1, len(p)):
                    for at in range(len(p[place])):
                        less = copy.deepcopy(s)
                        del less[kind][m][1][k][place][at]
                        yield less
    for name in "most", "least":
        if s[name] > 0:
            yield dict(s, **{name: s[name] - 1})


def shrunk(data, sides, options):
    """As long as some smaller scene differs too, and for about a minute."""
    end = time.monotonic() + 60.0
    while unpack(data) is not None and time.monotonic() < end:
        less = sides.first_wrong(map(pack, smaller(unpack(data))), options.bytes)
        if less is None:
            break
        data = less
    return data
