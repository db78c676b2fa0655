"""The whole step, read from the specification alone, for cases_step.py, cases_clock.py and other
parts, and by reference.py for all that edit its text: checks a packed scene, runs the step and
gives the program's lines.

Python's floats are IEEE 754 doubles and each operation stands in METHOD's order; `div` adds the
division by zero that Python refuses. How many axes a vector has is told by AXES alone. The files
wrong_*.py and branches.py quote this text, and it needs no other file of checks/.
"""
import math
import operator
import struct
from functools import reduce
from types import SimpleNamespace as Record

LONGEST = 32768
SOLID, FLAT = 3, 2      # axes


# ---- doubles and vectors; a sum starts at +0 and goes in order (Python's own `sum` need not)

def div(a, b):
    if b != 0.0:
        return a / b
    return math.nan if a == 0.0 or math.isnan(a) else math.copysign(math.inf, a) * math.copysign(1.0, b)


def bits(x): return "7FF8000000000000" if math.isnan(x) else struct.pack(">d", x).hex().upper()
def add(a, b): return tuple(x + y for x, y in zip(a, b))
def sub(a, b): return tuple(x - y for x, y in zip(a, b))
def scale(a, s): return tuple(x * s for x in a)
def dot(a, b): return reduce(operator.add, map(operator.mul, a, b))      # it starts at ax * bx
def total(terms): return reduce(lambda x, y: x + y, terms, 0.0)
def vector_total(zero, terms): return reduce(add, terms, zero)


# ---- the criteria by which iterations end: a particle's term, where its next pressure is above 0;
# the error of the fluids' averages, and whether one that is not a number was passed over for it

def salva_term(rest, p, found, pressure): return div((-found) - p.aii * pressure, rest)
def ihmsen_term(rest, p, found, pressure): return div((p.predicted + (found + p.aii * pressure)) - rest, rest)


def salva_error(averages):
    """The largest average above 0, or +0."""
    error = 0.0
    for average in averages:
        if average > error:      # false for one that is not a number
            error = average
    return error, any(math.isnan(average) for average in averages)


def ihmsen_error(averages):
    """The largest average, of equals the earlier as `max` has it; not a number if one is not."""
    if any(map(math.isnan, averages)):
        return math.nan, False
    return max(averages, default=0.0), False


SALVA, IHMSEN = Record(term=salva_term, error=salva_error), Record(term=ihmsen_term, error=ihmsen_error)


# ---- the summations of a fluid's terms, and how many doubles of the work list a fluid particle
# needs for each

def by_halves(terms):
    """A list of one is its number; a longer one is split after its first half, rounded down."""
    if len(terms) == 1:
        return terms[0]
    first = len(terms) // 2
    return by_halves(terms[:first]) + by_halves(terms[first:])


IN_ORDER, BY_HALVES = Record(of=total, work=0), Record(of=by_halves, work=1)


# ---- a rule is a criterion and a summation; a version has its rules and its number of axes

CRITERIA, SUMMATIONS = (SALVA, IHMSEN), (IN_ORDER, BY_HALVES)      # of rule % 2, of rule / 2
LAST_RULES = {1: 0, 2: 3, 4: 3}                                    # of each version that there is
AXES = {1: SOLID, 2: SOLID, 4: FLAT}


# ---- the check of a packed scene: refusals 1 to 7

class Refused(Exception):
    """Its arguments are a refusal's number and place."""


class Reader:
    """Goes through the fields in order. Each is first there (1), then tested by its own rule."""

    def __init__(self, data):
        self.data, self.at, self.axes = data, 0, None

    def number(self, size):
        here, self.at = self.at, self.at + size
        if self.at > len(self.data):
            raise Refused(1, here)
        return int.from_bytes(self.data[here:self.at], "big")

    def must(self, holds, number, size):
        """Refuses the field of this size that was read last."""
        if not holds:
            raise Refused(number, self.at - size)

    def double(self):
        x = struct.unpack(">d", self.number(8).to_bytes(8, "big"))[0]
        self.must(math.isfinite(x), 6, 8)
        return x

    def vector(self):
        return tuple(self.double() for _ in range(self.axes))

    def count(self, mask):
        """The count within the mask, and whether a bit beside it is set."""
        both = self.number(2)
        self.must(both & mask <= 4096, 4, 2)
        return both & mask, both & ~mask != 0

    def contact(self, gradient):
        place, name = self.at, self.number(2)
        return Record(place=place, model=name >> 12, number=name & 0xFFF, weight=self.double(),
                      gradient=self.vector() if gradient else None)

    def fluid_particle(self):
        p = Record(place=self.at, position=self.vector(), velocity=self.vector(), acceleration=self.vector(),
                   volume=self.double(), warm=self.double())
        near, walls = self.number(1), self.number(1)
        p.near, p.walls = [self.contact(True) for _ in range(near)], [self.contact(True) for _ in range(walls)]
        return p

    def wall_particle(self, keeps):
        return Record(velocity=self.vector(), force=self.vector() if keeps else None,
                      walls=[self.contact(False) for _ in range(self.number(1))])


def walk(data):
    """The scene of a packed one, with each contact's `named` the particle that it names."""
    r = Reader(data)
    version, fluids = divmod(r.number(1), 16)
    r.must(version in LAST_RULES, 2, 1)
    r.must(fluids <= 8, 3, 1)
    walls, rule = divmod(r.number(1), 16)
    r.must(walls <= 8, 3, 1)
    r.must(rule <= LAST_RULES[version], 2, 1)
    r.axes = AXES[version]
    s = Record(criterion=CRITERIA[rule % 2], summation=SUMMATIONS[rule // 2], least=r.number(1), most=r.number(1),
               dt=r.double(), remaining=r.double(), limit=r.double(), gravity=r.vector(), fluids=[], walls=[],
               zero=(0.0,) * r.axes)
    for _ in range(fluids):
        n, _ = r.count(0xFFFF)
        s.fluids.append(Record(rest=r.double(), particles=[r.fluid_particle() for _ in range(n)]))
    for _ in range(walls):
        n, keeps = r.count(0x7FFF)
        s.walls.append(Record(keeps=keeps, particles=[r.wall_particle(keeps) for _ in range(n)]))
    if r.at < len(data):
        raise Refused(5, r.at)
    s.all = [(f, p) for f in s.fluids for p in f.particles]
    s.stones = [w for wall in s.walls for w in wall.particles]
    names = [(c, s.fluids) for _, p in s.all for c in p.near]
    names += [(c, s.walls) for p in [p for _, p in s.all] + s.stones for c in p.walls]
    for c, models in sorted(names, key=lambda name: name[0].place):
        if c.model >= len(models) or c.number >= len(models[c.model].particles):
            raise Refused(7, c.place)
        c.named = models[c.model].particles[c.number]
    return s


# ---- the step: refusals 8 to 10, modules 4 to 7

def prepare(s):
    """Modules 4 and 5. A particle's `links` are its fluid contacts, then its wall contacts; a
    contact's `mass` is m_j."""
    dt = s.dt
    for w in s.stones:
        weights = total(c.weight for c in w.walls)
        w.volume = 0.0 if weights == 0.0 else 1.0 / weights
        w.v = w.velocity
    for fluid, p in s.all:
        p.mass = p.volume * fluid.rest
        p.change = add(s.zero, scale(add(p.acceleration, s.gravity), dt))
        p.v = add(p.velocity, p.change)
    for fluid, p in s.all:
        for c in p.near:
            c.mass = c.named.mass
        for c in p.walls:
            c.mass = c.named.volume * fluid.rest
        p.links = p.near + p.walls
        p.rho = total(c.mass * c.weight for c in p.links)
    for _, p in s.all:
        if p.rho == 0.0:
            raise Refused(9, p.place)
    for _, p in s.all:
        p.predicted = p.rho + total(c.mass * dot(sub(p.v, c.named.v), c.gradient) for c in p.links) * dt
        if p.predicted == 0.0:
            raise Refused(10, p.place)
    for _, p in s.all:
        f, p.e = div((-dt) * dt, p.rho * p.rho), div((dt * dt) * p.mass, p.rho * p.rho)
        p.dii = vector_total(s.zero, (scale(c.gradient, c.mass * f) for c in p.links))
        p.aii = total(c.mass * dot(sub(p.dii, scale(c.gradient, p.e)), c.gradient) for c in p.links)
        p.pressure = 0.5 * p.warm


def relaxed(criterion, rest, p):
    """A particle's next pressure and error term."""
    if not abs(p.aii) > 1e-9:
        return 0.0, 0.0
    factors = [sub(sub(p.dij, scale(c.named.dii, c.named.pressure)),
                   sub(c.named.dij, scale(scale(c.gradient, p.e), p.pressure))) for c in p.near]
    found = total(c.mass * dot(factor, c.gradient) for c, factor in zip(p.links, factors + [p.dij] * len(p.walls)))
    pressure = 0.5 * p.pressure + div(0.5 * ((rest - p.predicted) - found), p.aii)
    return (pressure, criterion.term(rest, p, found, pressure)) if pressure > 0.0 else (0.0, 0.0)


def iteration(s):
    """Module 6, one iteration: moves all pressures on, and gives the error and whether an average
    was passed over for it."""
    for _, p in s.all:
        pushes = (scale(c.gradient, div((-c.mass) * c.named.pressure, c.named.rho * c.named.rho)) for c in p.near)
        p.dij = scale(vector_total(s.zero, pushes), s.dt * s.dt)
    for fluid, p in s.all:
        p.next, p.term = relaxed(s.criterion, fluid.rest, p)
    for _, p in s.all:
        p.pressure = p.next
    averages = [s.summation.of([p.term for p in f.particles]) / len(f.particles) for f in s.fluids if f.particles]
    return s.criterion.error(averages)


def finish(s):
    """Module 7, after the last iteration."""
    for _, p in s.all:
        for c in p.near:
            both = div(p.pressure, p.rho * p.rho) + div(c.named.pressure, c.named.rho * c.named.rho)
            p.change = sub(p.change, scale(c.gradient, (s.dt * c.mass) * both))
        for c in p.walls:
            a = scale(c.gradient, div(c.mass * p.pressure, p.rho * p.rho))
            p.change = sub(p.change, scale(a, s.dt))
            if c.named.force is not None:
                c.named.force = add(c.named.force, scale(a, p.mass))
        p.velocity = add(p.velocity, p.change)
        p.position = add(p.position, scale(p.velocity, s.dt))


def needed(s):
    """The lengths that the lists for answers and for work must have."""
    axes, drops, stones = len(s.zero), len(s.all), len(s.stones)
    kept = sum(w.force is not None for w in s.stones)
    return (1 + 2 * axes) * drops + stones + axes * kept, (5 + 3 * axes + s.summation.work) * drops + stones


def step(s, answers=math.inf, work=math.inf):
    """Runs the step, with lists of these lengths lent, and gives line 1 from its second word on."""
    if answers < needed(s)[0] or work < needed(s)[1]:
        raise Refused(8, 0)
    prepare(s)
    s.inv_dt = 0.0 if s.dt == 0.0 else 1.0 / s.dt
    s.remaining = s.remaining - s.dt
    ending = "unswept 0"
    for i in range(s.most):
        error, passed_over = iteration(s)
        settled = error <= s.limit and i >= s.least
        ending = "%s %d %s %d" % ("settled" if settled else "ranout", i + 1, bits(error), passed_over)
        if settled:
            break
    finish(s)
    return ending


# ---- the lines

def row(head, *numbers): return " ".join([head, *map(bits, numbers)]) + "\n"


def lines(data, **lent):
    """The program's text for a packed scene, with these lists lent."""
    if len(data) > LONGEST:
        return "too long\n"
    try:
        s = walk(data)
        text = ["step %s\n" % step(s, **lent), row("clock", s.dt, s.inv_dt, s.remaining)]
    except Refused as e:
        return "refused %d %d\n" % e.args
    text += [row("fluid %d %d" % (m, k), *p.position, *p.velocity, p.pressure)
             for m, f in enumerate(s.fluids) for k, p in enumerate(f.particles)]
    text += [row("wall %d %d" % (m, k), w.volume, *(w.force or ()))
             for m, wall in enumerate(s.walls) for k, w in enumerate(wall.particles)]
    return "".join(text)
