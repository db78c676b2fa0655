"""Wrong versions of flat scenes: which scenes are flat, how they are read, worked out and told; for
wrong_versions.py, in the form of wrong_rules.py. Solid scenes need notice none of them."""
from parts.wrong_criteria import BY_RULE
from parts.wrong_reads import AXES, LAST, version_taken
from parts.wrong_rules import DOT
from parts.wrong_sums import BY_SUMMATION

VECTOR = "return tuple(self.double() for _ in range(self.axes))"
THREE = VECTOR.replace("self.axes", "SOLID")
GRAVITY = "gravity=r.vector()"
FLUID_LINE = "*p.position, *p.velocity, p.pressure)"
WALL_LINE = "*(w.force or ()))"


def of_flat(old, flat):
    """This value in a flat scene, where the rule's text is `old`: version 4 alone is flat."""
    index = old[old.index("[") + 1:-1]
    return old.replace(index, "%s if version < 4 else %s" % (index, flat))


def flat_dot(other):
    """Another dot product of two axes."""
    return DOT.replace("return ", "return %s if len(a) == FLAT else " % other)


def with_z(piece):
    """The vector that this piece of the text reads has a third double in a flat scene."""
    more = "(self.vector(), self.axes == FLAT and self.double())[0]"
    return piece, piece.replace("self.vector()", more)


AXES_VERSIONS = [
    # which scenes are flat
    ("version 4 is refused", LAST, "LAST_RULES = {1: 0, 2: 3}"),
    ("version 4 has three axes", AXES, AXES.replace("4: FLAT", "4: SOLID")),
    ("version 3 is taken as flat", AXES, version_taken(3, 3, "FLAT")),
    ("version 5 is taken as flat", AXES, version_taken(5, 3, "FLAT")),
    ("version 15 is taken as flat", AXES, version_taken(15, 3, "FLAT")),
    ("version 4 has rule 0 alone", LAST, LAST.replace("4: 3", "4: 0")),
    ("version 4 has rules 0 and 1 alone", LAST, LAST.replace("4: 3", "4: 1")),
    ("version 4 has rule 4", LAST,
     LAST.replace("4: 3", "4: 4") + "\nSUMMATIONS = (*SUMMATIONS, IN_ORDER)"),
    ("version 4 has rule 15", LAST,
     LAST.replace("4: 3", "4: 15") + "\nSUMMATIONS = SUMMATIONS * 4"),
    ("flat scenes by Salva's criterion alone", BY_RULE, of_flat(BY_RULE, 0)),
    ("flat scenes by Ihmsen's criterion alone", BY_RULE, of_flat(BY_RULE, 1)),
    ("flat scenes in order alone", BY_SUMMATION, of_flat(BY_SUMMATION, 0)),
    ("flat scenes by halves alone", BY_SUMMATION, of_flat(BY_SUMMATION, 1)),
    # reading: a third double in each vector, or in those of one field
    ("a stride of three", VECTOR, THREE + "[:self.axes]"),
    ("a flat vector is y and z of three", VECTOR, THREE + "[-self.axes:]"),
    ("x and y of a flat vector mixed up", VECTOR, VECTOR + "[::-1 if self.axes == FLAT else 1]"),
    ("a flat header of 52 bytes", GRAVITY,
     "gravity=(r.vector(), r.axes == FLAT and r.double())[0]"),
    ("a flat header of 36 bytes", GRAVITY,
     "gravity=r.vector() if r.axes == SOLID else (r.double(), 0.0)"),
    ("a flat position of three", *with_z("position=self.vector()")),
    ("a flat velocity of three", *with_z("velocity=self.vector(), acceleration")),
    ("a flat acceleration of three", *with_z("acceleration=self.vector()")),
    ("a flat gradient of three", *with_z("gradient=self.vector() if gradient")),
    ("a flat wall's velocity of three", *with_z("Record(velocity=self.vector(), force")),
    ("a flat wall's force of three", *with_z("force=self.vector() if keeps")),
    ("a flat wall's contacts have gradients", "walls=[self.contact(False)",
     "walls=[self.contact(self.axes == FLAT)"),
    # dot products of two axes
    ("a flat dot product of x alone", DOT, flat_dot("a[0] * b[0]")),
    ("a flat dot product of y alone", DOT, flat_dot("a[1] * b[1]")),
    ("a flat dot product of x twice", DOT, flat_dot("a[0] * b[0] + a[0] * b[0]")),
    ("a flat dot product across", DOT, flat_dot("a[0] * b[1] + a[1] * b[0]")),
    ("a flat dot product with x once more for z", DOT,
     flat_dot("(a[0] * b[0] + a[1] * b[1]) + a[0] * b[0]")),
    ("a flat dot product by a difference", DOT, flat_dot("a[0] * b[0] - a[1] * b[1]")),
    ("a flat dot product of sums", DOT,
     flat_dot("0.5 * ((a[0] + a[1]) * (b[0] + b[1]) + (a[0] - a[1]) * (b[0] - b[1]))")),
    # gravity, lines
    ("gravity along the first axis alone", "s.gravity), dt)",
     "(*s.gravity[:1], *[0.0] * (len(s.gravity) - 1))), dt)"),
    ("a flat fluid line with z", FLUID_LINE,
     "*(*p.position, 0.0)[:SOLID], *(*p.velocity, 0.0)[:SOLID], p.pressure)"),
    ("a flat wall line with z", WALL_LINE, "*((*w.force, 0.0)[:SOLID] if w.force else ()))"),
    ("a flat wall line without a force", WALL_LINE,
     "*(w.force if w.force and len(w.force) == SOLID else ()))"),
    ("a flat line with the velocity first", FLUID_LINE,
     "*(p.velocity + p.position if len(p.position) == FLAT else p.position + p.velocity), "
     "p.pressure)"),
]

SAME_AXES = [
    ("a flat dot product with +0 for z", DOT, flat_dot("(a[0] * b[0] + a[1] * b[1]) + 0.0"),
     "only the sign of a zero can change, as in a dot product from 0"),
    ("a flat dot product with y first", DOT, flat_dot("a[1] * b[1] + a[0] * b[0]"),
     "a sum's two numbers may change places"),
]
