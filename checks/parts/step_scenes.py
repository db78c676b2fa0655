"""Packed scenes put together from pieces, for cases_step.py, cases_clock.py, tests/ and other parts:
the specification's scenes A and B, and others, all solid. A stone is a particle of a wall."""
import struct

from parts.step_rules import AXES, FLAT, LAST_RULES, SOLID

ZERO = (0.0,) * SOLID


# ---- packing

def doubles(*xs): return b"".join(struct.pack(">d", x) for x in xs)
def beside(model, number, weight): return struct.pack(">H", model << 12 | number) + doubles(weight)
def to(model, number, weight=1.0, gradient=ZERO): return beside(model, number, weight) + doubles(*gradient)
def wall(*records, keeps=0): return struct.pack(">H", keeps << 15 | len(records)) + b"".join(records)
def changed(data, at, new): return data[:at] + new + data[at + len(new):]
def under(data, version, rule): return bytes([version << 4 | data[0] & 15, data[1] & 0xF0 | rule]) + data[2:]


def fluid(rest, *records, count=None):
    """With `count`, the count is this and not the number of records."""
    return struct.pack(">H", len(records) if count is None else count) + doubles(rest) + b"".join(records)


def stone(*contacts, velocity=ZERO, force=()):
    return doubles(*velocity, *force) + bytes([len(contacts)]) + b"".join(contacts)


def particle(near=(), walls=(), position=ZERO, velocity=ZERO, acceleration=ZERO, volume=1.0, warm=0.0):
    numbers = doubles(*position, *velocity, *acceleration, volume, warm)
    return numbers + bytes([len(near), len(walls)]) + b"".join([*near, *walls])


def scene(fluids, walls=(), least=1, most=50, dt=1.0, remaining=0.0, limit=0.05, gravity=ZERO):
    """In version 1; `under` puts a scene into another version and rule."""
    head = bytes([16 + len(fluids), 16 * len(walls), least, most])
    return head + doubles(dt, remaining, limit, *gravity) + b"".join([*fluids, *walls])


# ---- the specification's scenes, and pieces of others

# the versions and rules that are there, by the number of axes
FORMS = {axes: [(version, rule) for version, own in AXES.items() if own == axes
                for rule in range(LAST_RULES[version] + 1)] for axes in (SOLID, FLAT)}
FORM_NAME = "version %d, rule %d"
X, Z, FALL, STEEP = (1.0, 0.0, 0.0), (0.0, 0.0, 1.0), (0.0, 0.0, -4.0), (2.0**21, 0.0, 0.0)
ZEROS, LEAST = (-0.0, 0.0, -0.0), 5e-324
EMPTY = bytes.fromhex("10000132") + bytes(48)


def one(near=(to(0, 0),), **more):
    """A fluid of one particle."""
    return fluid(1.0, particle(near, **more))


def weighed(*weights):
    """A scene with a wall of one particle with these weights."""
    return scene([], [wall(stone(*[beside(0, 0, w) for w in weights]))])


def scene_a(near=(to(0, 0, 2.0),), dt=0.5, **head):
    return scene([fluid(2.0, particle(near, volume=0.5))], (), dt=dt, remaining=1.0, gravity=FALL, **head)


def pressing(model=0, rest=1.0):
    """A fluid that presses on a wall as in the specification: mass 1, density 1, pressure 2."""
    return fluid(rest, particle([to(model, 0)], [to(0, 0, 0.0, Z)], volume=1.0 / rest, warm=4.0))


def small_aii(size):
    """A scene whose first aii is -size."""
    first = particle([to(0, 0, 2.0), to(0, 1, 0.0, STEEP)])
    return scene([fluid(1.0, first, particle([to(0, 0)], volume=size * 2.0**-40))], most=1)


def overflowing(model):
    """A fluid whose first particle's sum is +infinity, and its next pressure too, so that its term
    is -infinity + infinity."""
    first = particle([to(model, 1, 1.0, X)], [to(0, 0, 0.0, (-1e10, 0.0, 0.0))])
    return fluid(1.0, first, particle([to(model, 1)], warm=2e300))


def rising(model):
    """The same without a warm pressure: that of the second particle comes from its speed, and goes
    from 2^998 towards 2^999. The first's is infinite in each second iteration, and in the one
    behind it not a number, so +0."""
    first = particle([to(model, 1, 1.0, X)], [to(0, 0, 0.0, (-2.0**40, 0.0, 0.0))])
    return fluid(1.0, first, particle([to(model, 1)], [to(0, 0, 0.0, X)], velocity=(2.0**1000, 0.0, 0.0)))


def torn(model):
    """A fluid whose second particle names the first, but is not named by it, and so faintly that
    its pressure becomes infinite. It stays so, since no axis of the gradient is 0."""
    return fluid(1.0, particle([to(model, 0)]), particle([to(model, 0, 1e-154, (0.5, 0.5, 0.5))], warm=8.0))


def sinking(model):
    """A fluid of one particle whose aii × p is -infinity, and so its density after the iteration,
    though its pressure is finite."""
    return one([to(model, 0)], walls=[to(0, 0, 0.0, (2.0**20, 0.0, 0.0))], warm=2.0**1000)


def weightless(*speeds):
    """Fluids with rest density 0, each with a list of its particles' speeds, and behind them one
    whose particle, with pressure -2, is named by all. In the first iteration a term of Salva's is
    half of speed - 1, divided by 0, and one of Ihmsen's half of speed + 1; in the second Ihmsen's
    is a quarter of speed - 1."""
    thin = [fluid(0.0, *[particle([to(len(speeds), 0, 1.0, X)], velocity=(speed, 0.0, 0.0)) for speed in of_fluid])
            for of_fluid in speeds]
    return [*thin, one([to(len(speeds), 0)], warm=-4.0)]


def pair(model=0, rest=1.0, volume=1.0, speed=1.0, slope=1.0, weight=1.0, warm=0.0):
    """Scene B's fluid."""
    right, left = to(model, 1, weight, (slope, 0.0, 0.0)), to(model, 0, weight, (-slope, 0.0, 0.0))
    return fluid(rest, particle([right], velocity=(speed, 0.0, 0.0), volume=volume, warm=warm),
                 particle([left], velocity=(-speed, 0.0, 0.0), volume=volume))


# Walls of a particle each, with volumes 1 and -0.5: those of `laden`, `level` and `faint`.
BEDS = [wall(stone(beside(0, 0, 1.0))), wall(stone(beside(1, 0, -2.0)))]


def laden(*terms):
    """A fluid whose particles have these error terms in the first iteration, by either criterion.
    Each has density 1 by its one contact, with the wall of volume -0.5 where its term is below 0."""
    return fluid(1.0, *[particle([], [to(1, 0, -2.0, X)], velocity=(-4.0 * term, 0.0, 0.0)) if term < 0.0 else
                        particle([], [to(0, 0, 1.0, X)], velocity=(2.0 * term, 0.0, 0.0)) for term in terms])


def level(*warm):
    """A fluid with rest density -1, of particles with these warm pressures. One of 2 is right from
    the start: Ihmsen's term is 0 / -1 in each iteration."""
    return fluid(-1.0, *[particle([], [to(0, 0, -1.0, X)], velocity=(3.0, 0.0, 0.0), volume=-2.0, warm=x)
                         for x in warm])


def faint():
    """A fluid of one particle whose aii × p underflows, so that Salva's term is -0 - 0."""
    return fluid(1.0, particle([], [to(1, 0, -2.0, X)], warm=4.0 * LEAST))


def rich(near=(1, 0), walls=(2, 0), own=(0, 0), weight=1.0):
    """Fluids at 52 (empty) and 62, with records at 72 (contacts 162, 196, 230) and 264 (354); walls
    at 388 (record 390, contacts 439, 449), 459 (empty) and 461 (record 463, contact 488); 498
    bytes."""
    first = particle([to(*near, weight, X), to(1, 1, 0.5, Z)], [to(*walls, 0.25, X)], velocity=(0.5, 0.25, -0.0),
                     warm=1.0)
    kept = wall(stone(beside(*own, 2.0), beside(0, 0, 2.0), velocity=X, force=(1.0, 2.0, 4.0)), keeps=1)
    fluids = fluid(7.0), fluid(2.0, first, particle([to(1, 0, 1.0, Z)], position=X, volume=0.5))
    return scene(fluids, [kept, wall(), wall(stone(beside(2, 0, 0.5), velocity=ZEROS))], most=2)
