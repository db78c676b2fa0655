#!/usr/bin/env python3
"""Holds flat scenes against their twins: the solid scenes with an axis of +0 in every vector.

  checks/flat_twins.py [--scenes N] [--seed N] [--only CLASS] [--subject COMMAND] [--bytes N]

  --scenes N, --seed N, --bytes N    as for compare.py (2,000 scenes, seed 1)
  --only CLASS                       this class alone, or one of those that are longer than the
                                     program takes
  --subject COMMAND                  as for compare.py; without it checks/parts/step_rules.py

The added axis is x, y or z in turn. What must agree, to the bit: the first line, the clock,
pressures, volumes, and the two axes of positions, velocities and forces; of a refused scene the
number and, for 9 and 10, the particle.

They must where the added axis is multiplied by finite numbers alone until the last iteration is
over. For then it is a zero in every vector: +0 in each sum, since those start at +0. A dot product
gets a zero more among its terms, which changes a zero's sign at most, -0 + 0 being +0; and each dot
product goes times a mass into a sum that starts at +0 and does not keep such a sign (an infinite
mass makes a not-a-number of either). After the iterations no axis meets another. But 0 times an
infinity, or times a not-a-number, is no number, and the next dot product spreads it: so of the
factors m_j * f_i, e_i, (-m_j * p_j) / rho_j^2 and dt * dt, and of the pressures that fluid contacts
join, none may be infinite or a not-a-number. parts/twins.py follows the twin's axis and these
factors. Of other scenes nothing is asked: they are counted, with those that differ.

Ends with 1 if a pair differs that must agree, 2 if a file is missing or the use is wrong.
"""
import collections
import sys

from made_scenes import CLASSES, LARGE, made
from parts.drawn_pairs import Different, run
from parts.packing import axes_of, solid, unpack
from parts.sides import files_full
from parts.step_rules import FLAT, LONGEST, SOLID
from parts.twins import must_agree, same


def flat_scenes(options):
    """Class, scene and the number of the axis to add: scenes that have all their fields, and whose
    twins a program takes."""
    names = [options.only] if options.only else list(CLASSES)
    for k, name in enumerate(names):
        source = made(options.seed, name, FLAT)
        for n in range((options.scenes + k) // len(names)):
            data = next(source)
            if unpack(data) is not None and axes_of(data) == FLAT:
                if name in LARGE or len(solid(data, 0)) <= LONGEST:
                    yield name, data, n % SOLID


def counted(options, texts):
    """Of each class: pairs that must agree, others, and of these the ones that differ."""
    found = {}
    for full in files_full(flat_scenes(options), options.bytes):
        twins = [solid(data, added) for _, data, added in full]
        answers = zip(full, texts([data for _, data, _ in full]), texts(twins))
        for (name, data, added), flat_answer, solid_answer in answers:
            count = found.setdefault(name, collections.Counter())
            agree, must = same(data, added, flat_answer, solid_answer), must_agree(data, added)
            if must and not agree:
                raise Different(data, flat_answer, solid_answer)
            count["must" if must else "others"] += 1
            count["differ"] += not agree
    return found


def table(found):
    yield "class              must agree  others  of these differ"
    for name, count in [*found.items(), ("all", sum(found.values(), collections.Counter()))]:
        yield "%-17s %11d %7d %16d" % (name, count["must"], count["others"], count["differ"])


def main(): return run(__doc__, False, counted, table, "a flat scene and its twin differ")


if __name__ == "__main__":
    sys.exit(main())
