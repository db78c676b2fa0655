"""Wrong versions of the sums of a fluid's terms, and of which summation is taken, for
wrong_versions.py, in the form of wrong_rules.py."""
from parts.wrong_endings import AVERAGE

OF_FLUIDS = "[%s for f in s.fluids if f.particles]" % AVERAGE
BY_SUMMATION = "summation=SUMMATIONS[rule // 2]"
BOTH = "IN_ORDER, BY_HALVES = Record(of=total, work=0), Record(of=by_halves, work=1)"
LONE = "    if len(terms) == 1:\n        return terms[0]\n"
SPLIT = "    first = len(terms) // 2\n"
ADDED = "    return by_halves(terms[:first]) + by_halves(terms[first:])\n"


def halves_by(sum_of):
    """By halves the sum is this one's; in order it stays."""
    return BOTH.replace("of=by_halves", "of=" + sum_of)


SUMS = [
    # the split; from the back it would be as after the larger half
    ("split after the larger half", SPLIT, "    first = (len(terms) + 1) // 2\n"),
    ("split after the first", SPLIT, "    first = 1\n"),
    ("split before the last", SPLIT, "    first = len(terms) - 1\n"),
    ("neighbours added up, then their sums: the first part is a power of 2", SPLIT,
     "    first = 2 ** (len(terms) - 1).bit_length() // 2\n"),
    ("the second part is a power of 2", SPLIT,
     "    first = len(terms) - 2 ** (len(terms) - 1).bit_length() // 2\n"),
    ("split after a third", SPLIT, "    first = max(1, len(terms) // 3)\n"),
    ("terms with even numbers, then those with odd ones", ADDED,
     "    return by_halves(terms[::2]) + by_halves(terms[1::2])\n"),
    ("the first and the last added up, then those between", LONE + SPLIT + ADDED, LONE +
     "    return (terms[0] + terms[-1]) + by_halves(terms[1:-1]) if len(terms) > 2 else terms[0] + terms[1]\n"),
    ("halved once, each half in order", ADDED,
     "    return reduce(lambda x, y: x + y, terms[:first]) + reduce(lambda x, y: x + y, terms[first:])\n"),
    ("lists of up to 8 in order", LONE, "    if len(terms) <= 8:\n        return reduce(lambda x, y: x + y, terms)\n"),
    ("the first half twice", ADDED, "    return by_halves(terms[:first]) + by_halves(terms[:first])\n"),
    ("a term left out between the halves", ADDED,
     "    return by_halves(terms[:first]) + by_halves(terms[first + (len(terms) > 2):])\n"),
    # +0 before a list; before each list of one, or in Ihmsen's error, it does what it does before the whole
    ("+0 before the whole list", BOTH, halves_by("(lambda terms: 0.0 + by_halves(terms))")),
    ("+0 before a whole list of one", BOTH,
     halves_by("(lambda terms: 0.0 + terms[0] if len(terms) == 1 else by_halves(terms))")),
    ("+0 behind the terms", BOTH, halves_by("(lambda terms: by_halves([*terms, 0.0]))")),
    ("-0 before the sum in order", BOTH, BOTH.replace("of=total", "of=(lambda terms: reduce(lambda x, y: x + y, "
                                                      "terms, -0.0))")),
    # which terms
    ("terms of all fluids together", OF_FLUIDS,
     "[s.summation.of([p.term for _, p in s.all]) / len(s.all)] if s.all else []"),
    ("terms of all fluids by halves, divided by all", OF_FLUIDS, OF_FLUIDS + " if s.summation is IN_ORDER else "
     "[by_halves([p.term for _, p in s.all]) / len(s.all)] if s.all else []"),
    ("by halves the averages, not the terms", OF_FLUIDS,
     "[%s for f in s.fluids if f.particles]" % AVERAGE.replace("s.summation.of", "IN_ORDER.of") + "\n"
     "    averages = [by_halves(averages)] if averages and s.summation is BY_HALVES else averages"),
    ("by halves each term divided by the count", AVERAGE,
     "(%s if s.summation is IN_ORDER else by_halves([p.term / len(f.particles) for p in f.particles]))" % AVERAGE),
    ("by halves the terms above 0 alone", AVERAGE,
     "(%s if s.summation is IN_ORDER else by_halves([p.term for p in f.particles if p.term > 0.0] or [0.0]) "
     "/ len(f.particles))" % AVERAGE),
    ("by halves an empty fluid's average is 0", OF_FLUIDS,
     "[%s if f.particles else 0.0 for f in s.fluids if f.particles or s.summation is BY_HALVES]" % AVERAGE),
    ("by halves an empty fluid's average is not a number", OF_FLUIDS,
     "[%s if f.particles else math.nan for f in s.fluids if f.particles or s.summation is BY_HALVES]" % AVERAGE),
    ("by halves a sum rounded once", BOTH,
     halves_by("(lambda z: math.fsum(z) if all(abs(x) < 1e290 for x in z) else by_halves(z))")),
    # which summation
    ("always in order", BY_SUMMATION, "summation=IN_ORDER"),
    ("always by halves", BY_SUMMATION, "summation=BY_HALVES"),
    ("the summations mixed up", BY_SUMMATION, "summation=SUMMATIONS[1 - rule // 2]"),
    ("the summation by rule % 2", BY_SUMMATION, "summation=SUMMATIONS[rule % 2]"),
    ("rule 3 alone by halves", BY_SUMMATION, "summation=SUMMATIONS[rule // 3]"),
    ("rule 2 alone by halves", BY_SUMMATION, "summation=SUMMATIONS[rule == 2]"),
    ("version 2 by halves", BY_SUMMATION, "summation=SUMMATIONS[version == 2]"),
    ("version 1 by halves", BY_SUMMATION, "summation=SUMMATIONS[rule // 2 if version > 1 else 1]"),
    ("rule 1 by halves too", BY_SUMMATION, "summation=SUMMATIONS[min(rule, 1)]"),
]
