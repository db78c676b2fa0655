"""Which branches of the rules and which refusals a scene meets, for record.py: seen by notes put
into checks/parts/step_rules.py's text."""
import math

from parts import branches_ihmsen, branches_sums
from parts.packing import axes_of
from parts.step_rules import AXES, FLAT, SOLID
from parts.step_scenes import FORM_NAME, FORMS
from reference import load
from wrong_versions import edited

# Notes in the reference's text: what is there once, and the note before it.
NOTES = [
    ("    return (pressure, criterion.term(", "    note_pressure(pressure)\n"),
    ("        if average > error:", "        note_average(average, error)\n"),
    ("    return s.criterion.error(averages)\n", "    note_averages(averages)\n"),
    ("        settled = error <= s.limit and i >= s.least\n", "        note_end(error, passed_over, s, i)\n"),
    ("            if c.named.force is not None:\n", "            note_wall(c, p)\n"),
    ("    finish(s)\n", "    note_coefficients(s)\n"),
]

BRANCHES = """no fluids|no walls|an empty fluid|an empty wall|eight fluids|eight walls
a wall sum 0 without contacts|a wall sum 0 that cancels|a wall sum below 0|a wall sum above 0|a wall volume infinite
a wall keeps forces|a wall keeps none
step length above 0|step length +0|step length -0|step length below 0|inv_dt infinite
a density below 0|a density infinite|a density not a number|a square of a density 0
a predicted density below 0|a predicted density not a number
aii above 1e-9|aii below -1e-9|aii small|aii infinite|aii not a number
next pressure above 0|next pressure below 0|next pressure +0|next pressure infinite|next pressure not a number
an average greater|an average not greater|an average below 0|an average not a number|an average infinite
settled, passed over|ran out, passed over|passed over before, not at the end|passed over at the end, not before
passed over beside a number|passed over in several fluids|passed over though each term is a number
an infinite average, not passed over|infinite averages of both signs, not passed over|an empty fluid, not passed over
unswept|settled|ran out|255 iterations|a warm pressure below 0 stays|a pressure infinite at the end
a contact with itself|a repeated contact|no fluid contacts|wall contacts alone|a link to another fluid
a push on a kept force|a push on no force|a push of pressure 0|two pushes on one force
refused 9 without contacts|refused 9 by terms|refused 9 at a later fluid
refused 10|refused 10 at a later particle""".replace("\n", "|").split("|")


# Forms, and refusals of rules, of solid scenes and of flat ones.
FORM_NAMES = {axes: [FORM_NAME % form for form in FORMS[axes]] for axes in (SOLID, FLAT)}
WRONG_RULES = {axes: ["refused 2 at 1 in version %d" % version for version in AXES if AXES[version] == axes]
               for axes in (SOLID, FLAT)}
BRANCHES += sum(FORM_NAMES.values(), [])
BRANCHES += ["refused 1 in the %s" % part for part in ("header", "count", "rest density", "records")]
BRANCHES += ["refused 2 at 0", *sum(WRONG_RULES.values(), []), "refused 3 at 0",
             "refused 3 at 1", "refused 3 at 1 with a wrong rule", "refused 4 at the first count", "refused 4 later",
             "refused 5", "refused 6 in the header", "refused 6 at the rest density", "refused 6 in the records",
             "refused 7 by the model", "refused 7 by the number", "refused 7 at a wall contact"]
# By either criterion; Ihmsen's have this before their names, and those of a sum by halves that.
IHMSEN, HALVES = "Ihmsen: ", "by halves: "
ENDS = """error above the limit|limit met before least|limit met at least|limit met after least|limit met exactly
limit met in the last iteration|ran out with the limit met""".replace("\n", "|").split("|")
BRANCHES += [*ENDS, *(IHMSEN + name for name in ENDS + branches_ihmsen.NAMES)]
BRANCHES += [HALVES + name for name in branches_sums.NAMES]


def header_end(data): return 28 + 8 * axes_of(data)


def of_axes(axes):
    """The branches that scenes of so many axes can meet."""
    own = FORM_NAMES[axes] + WRONG_RULES[axes]
    others = sum([*FORM_NAMES.values(), *WRONG_RULES.values()], [])
    return [branch for branch in BRANCHES if branch in own or branch not in others]


class Branches:
    """Says which branches a scene meets."""

    def __init__(self, source):
        for old, note in NOTES:
            source = edited(source, old, note + old)
        self.names = load(source)
        self.names.update(note_pressure=self.pressure, note_average=self.average, note_averages=self.averages,
                          note_end=self.end, note_wall=self.wall, note_coefficients=self.coefficients)

    def of(self, data):
        self.met, self.pushed, self.iterations = set(), set(), []
        line = self.names["lines"](data).split("\n")[0]
        if line.startswith("refused"):
            self.refusal(data, *map(int, line.split(" ")[1:]))
        if line.startswith("step"):
            endings = {"unswept": "unswept", "settled": "settled", "ranout": "ran out"}
            ending = endings[line.split(" ")[1]]
            self.add(FORM_NAME % (data[0] >> 4, data[1] & 15), True)
            self.add(ending, True)
            self.add("255 iterations", line.split(" ")[2] == "255")
            found = [(averages, terms, error) for error, _, averages, terms in self.iterations]
            if self.by_ihmsen(self.scene):
                self.met |= {IHMSEN + name for name in branches_ihmsen.met(ending, found, self.scene.limit)}
            elif self.iterations:
                self.passed_over(ending)
            if self.scene.summation is self.names["BY_HALVES"]:
                self.met |= {HALVES + name
                             for name in branches_sums.met(self.scene, self.by_ihmsen(self.scene), found)}
        return self.met

    def by_ihmsen(self, s): return s.criterion is self.names["IHMSEN"]

    def add(self, name, holds):
        if holds:
            assert name in BRANCHES, name
            self.met.add(name)

    def sized(self, what, x, *names):
        for name, holds in (("above 0", 0.0 < x < math.inf), ("below 0", x < 0.0), ("infinite", math.isinf(x)),
                            ("not a number", math.isnan(x))):
            self.add("%s %s" % (what, name), holds and name in names)

    def pressure(self, x):
        self.sized("next pressure", x, "above 0", "below 0", "infinite", "not a number")
        self.add("next pressure +0", x == 0.0)

    def average(self, x, error):
        self.add("an average greater", x > error)
        self.add("an average not greater", 0.0 < x <= error)
        self.sized("an average", x, "below 0", "not a number", "infinite")

    def averages(self, averages):
        self.last_averages = averages

    def end(self, error, passed_over, s, i):
        self.iterations.append(
            (error, passed_over, self.last_averages, [[p.term for p in f.particles] for f in s.fluids]))
        met, criterion = error <= s.limit, IHMSEN if self.by_ihmsen(s) else ""
        self.add(criterion + "error above the limit", error > s.limit and i >= s.least)
        self.add(criterion + "limit met before least", met and i < s.least)
        self.add(criterion + "limit met at least", met and i == s.least)
        self.add(criterion + "limit met after least", met and i > s.least)
        self.add(criterion + "limit met exactly", met and error == s.limit and error > 0.0 and i >= s.least)
        self.add(criterion + "limit met in the last iteration", met and i >= s.least and i + 1 == s.most)
        self.add(criterion + "ran out with the limit met", met and i < s.least and i + 1 == s.most)

    def passed_over(self, ending):
        """Of the last iteration, and of those before: was an average passed over."""
        *before, (yes, fluids) = [(passed, terms) for _, passed, _, terms in self.iterations]
        sums = [(self.scene.summation.of(terms), terms) for terms in fluids if terms]
        not_numbers = [terms for found, terms in sums if math.isnan(found)]
        self.add("%s, passed over" % ending, yes)
        self.add("passed over before, not at the end", not yes and any(passed for passed, _ in before))
        self.add("passed over at the end, not before", yes and before and not any(passed for passed, _ in before))
        self.add("passed over beside a number", 0 < len(not_numbers) < len(sums))
        self.add("passed over in several fluids", len(not_numbers) > 1)
        self.add("passed over though each term is a number",
                 any(not any(map(math.isnan, terms)) for terms in not_numbers))
        infinite = {found for found, _ in sums if math.isinf(found)}
        self.add("an infinite average, not passed over", not yes and infinite)
        self.add("infinite averages of both signs, not passed over", not yes and len(infinite) == 2)
        self.add("an empty fluid, not passed over", not yes and [] in fluids)

    def wall(self, c, p):
        kept = c.named.force is not None
        self.add("a push on a kept force", kept and p.pressure > 0.0)
        self.add("a push on no force", not kept and p.pressure > 0.0)
        self.add("a push of pressure 0", p.pressure == 0.0)
        self.add("two pushes on one force", kept and id(c.named) in self.pushed)
        self.pushed.add(id(c.named))

    def coefficients(self, s):
        """Seen when the iterations are over."""
        self.scene, dt = s, s.dt
        self.add("no fluids", not s.fluids)
        self.add("no walls", not s.walls)
        self.add("an empty fluid", any(not f.particles for f in s.fluids))
        self.add("an empty wall", any(not w.particles for w in s.walls))
        self.add("eight fluids", len(s.fluids) == 8)
        self.add("eight walls", len(s.walls) == 8)
        self.add("step length above 0", dt > 0.0)
        self.add("step length below 0", dt < 0.0)
        self.add("step length +0", dt == 0.0 and math.copysign(1.0, dt) > 0.0)
        self.add("step length -0", dt == 0.0 and math.copysign(1.0, dt) < 0.0)
        self.add("inv_dt infinite", math.isinf(s.inv_dt))
        for w in s.stones:
            weights = self.names["total"](c.weight for c in w.walls)
            self.add("a wall sum 0 without contacts", not w.walls)
            self.add("a wall sum 0 that cancels", weights == 0.0 and any(c.weight for c in w.walls))
            self.sized("a wall sum", weights, "below 0", "above 0")
            self.sized("a wall volume", w.volume, "infinite")
            self.add("a wall keeps forces", w.force is not None)
            self.add("a wall keeps none", w.force is None)
        for f in s.fluids:
            for p in f.particles:
                self.particle(f, p)

    def particle(self, f, p):
        self.sized("a density", p.rho, "below 0", "infinite", "not a number")
        self.add("a square of a density 0", p.rho * p.rho == 0.0)
        self.sized("a predicted density", p.predicted, "below 0", "not a number")
        self.sized("aii", p.aii, "infinite", "not a number")
        self.add("aii above 1e-9", p.aii > 1e-9)
        self.add("aii below -1e-9", p.aii < -1e-9)
        self.add("aii small", abs(p.aii) <= 1e-9)
        self.add("a warm pressure below 0 stays", p.pressure < 0.0)
        self.add("a pressure infinite at the end", math.isinf(p.pressure))
        self.add("a contact with itself", any(c.named is p for c in p.near))
        named = [id(c.named) for c in p.near], [id(c.named) for c in p.walls]
        self.add("a repeated contact", any(len(set(ids)) < len(ids) for ids in named))
        self.add("no fluid contacts", not p.near)
        self.add("wall contacts alone", p.walls and not p.near)
        self.add("a link to another fluid", any(not any(c.named is q for q in f.particles) for c in p.near))

    def refusal(self, data, number, place):
        behind = header_end(data)
        parts = {behind: "count", behind + 2: "rest density"}
        part = "header" if place < behind else parts.get(place, "records")
        if number == 1:
            self.add("refused 1 in the " + part, True)
        elif number in (2, 3):
            self.form(data, number, place)
        elif number == 4:
            self.add("refused 4 at the first count" if place == behind else "refused 4 later", True)
        elif number == 5:
            self.add("refused 5", True)
        elif number == 6:
            parts = {"header": "in the header", "rest density": "at the rest density"}
            self.add("refused 6 " + parts.get(part, "in the records"), True)
        elif number == 7:
            self.missing(data, place)
        elif number == 9:
            counts = place + 8 * (3 * axes_of(data) + 2)      # behind the record's doubles
            bare = data[counts:counts + 2] == b"\0\0"
            self.add("refused 9 without contacts" if bare else "refused 9 by terms", True)
            self.add("refused 9 at a later fluid", place > behind + 10 and data[behind:behind + 2] == b"\0\0")
        else:
            self.add("refused 10", True)
            self.add("refused 10 at a later particle", place > behind + 10)

    def form(self, data, number, place):
        """Refusals 2 and 3."""
        version, what = data[0] >> 4, "refused %d at %d" % (number, place)
        self.add(what + " in version %d" % version if what == "refused 2 at 1" else what, True)
        self.add("refused 3 at 1 with a wrong rule",
                 what == "refused 3 at 1" and data[1] & 15 > self.names["LAST_RULES"][version])

    def missing(self, data, place):
        """A name at fault: is its model there at all, and is it in a wall contact's list."""
        model = data[place] >> 4
        self.add("refused 7 by the model", model >= max(data[0] & 15, data[1] >> 4))
        self.add("refused 7 by the number", model < min(data[0] & 15, data[1] >> 4))
        fluid_end = self.fluids_end(data)
        self.add("refused 7 at a wall contact", place >= fluid_end)

    def fluids_end(self, data):
        r = self.names["Reader"](data)
        r.at, r.axes = header_end(data), axes_of(data)
        for _ in range(data[0] & 15):
            n, _ = r.count(0xFFFF)
            r.double()
            for _ in range(n):
                r.fluid_particle()
        return r.at
