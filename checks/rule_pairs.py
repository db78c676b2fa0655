#!/usr/bin/env python3
"""Steps drawn scenes in order and by halves: under rule 0 and 2, and under rule 1 and 3. Each runs
out after as many iterations, as its least is set to its most, so nothing but the error may differ.

  checks/rule_pairs.py [--scenes N] [--seed N] [--axes D] [--only CLASS] [--subject COMMAND]
                       [--bytes N]

  --scenes N, --seed N, --bytes N    as for compare.py (2,000 scenes, seed 1)
  --axes D                           solid scenes (3, which is what it does without) or flat ones (2)
  --only CLASS                       this class alone, or one of those that are longer than the
                                     program takes
  --subject COMMAND                  as for compare.py; without it checks/parts/step_rules.py

For each class and pair of rules: the steps, how many errors are the same, and of the others how far
apart they are, in units in the last place: 1 (or a zero's sign), 2 to 8, more, and the farthest.
Then how many are not finite under one of the two, or have another yes or no of an average that was
passed over. Ends with 1 if anything else differs.
"""
import collections
import math
import struct
import sys

from made_scenes import CLASSES, made
from parts.drawn_pairs import Different, run
from parts.packing import VERSIONS, axes_of
from parts.sides import files_full
from parts.step_scenes import changed, under

PAIRS = (0, 2), (1, 3)
NEAR = 8      # units in the last place: a column of the table ends there


def unending(data, rule):
    """The scene under a rule, with no end before its last iteration."""
    return changed(under(data, VERSIONS[axes_of(data)], rule), 2, data[3:4])


def place(word):
    """A double's place in the order of doubles, from its bits in hex; both zeros have the same."""
    pattern = int(word, 16)
    return pattern if pattern < 2**63 else 2**63 - pattern


def number(word): return struct.unpack(">d", bytes.fromhex(word))[0]


def difference(data, in_order, by_halves):
    """What the table counts of a pair of texts, and how far the errors are apart."""
    (first, *others), (second, *rest) = in_order.split("\n"), by_halves.split("\n")
    ours, theirs = first.split(" "), second.split(" ")
    if others != rest or ours[:3] != theirs[:3]:
        raise Different(data, in_order, by_halves)
    if ours[:2] != ["step", "ranout"]:
        return "none", 0
    if ours[3] == theirs[3] and ours[4] == theirs[4]:
        return "same", 0
    if not all(math.isfinite(number(words[3])) for words in (ours, theirs)) or ours[4] != theirs[4]:
        return "not finite", 0
    apart = abs(place(ours[3]) - place(theirs[3]))
    return "1" if apart <= 1 else "near" if apart <= NEAR else "far", apart


def pairs_of(scenes, texts):
    """Of each scene and pair of rules: the pair, and their difference."""
    for rules in PAIRS:
        asked = [[unending(data, rule) for data in scenes] for rule in rules]
        for data, *both in zip(scenes, *map(texts, asked)):
            yield rules, difference(data, *both)


def counted(options, texts):
    """The differences of each class, by the pair of rules."""
    found = {}
    names = [options.only] if options.only else list(CLASSES)
    for k, name in enumerate(names):
        source = made(options.seed, name, options.axes)
        scenes = [next(source) for _ in range((options.scenes + k) // len(names))]
        for full in files_full(((name, data) for data in scenes if len(data) > 3), options.bytes):
            for rules, (kind, apart) in pairs_of([data for _, data in full], texts):
                count, farthest = found.get((name, rules), (collections.Counter(), 0))
                count[kind] += 1
                found[name, rules] = count, max(farthest, apart)
    return found


def table(found):
    yield "class              rules   steps    same       1  2 to %d    more   farthest  not finite" % NEAR
    several = len({name for name, _ in found}) > 1
    for (name, rules), (count, farthest) in [*found.items(), *(totals(found) if several else ())]:
        columns = [count[kind] for kind in ("same", "1", "near", "far")]
        yield "%-17s %d and %d %7d %7d %7d %7d %7d %10s %11d" % (
            name, *rules, sum(count.values()) - count["none"], *columns, "%d" % farthest if farthest < 10**6 else
            "2^%.1f" % math.log2(farthest), count["not finite"])


def totals(found):
    for rules in PAIRS:
        of_rules = [value for (_, own), value in found.items() if own == rules]
        yield ("all", rules), (sum((count for count, _ in of_rules), collections.Counter()),
                               max((farthest for _, farthest in of_rules), default=0))


def main(): return run(__doc__, True, counted, table, "more than the error differs")


if __name__ == "__main__":
    sys.exit(main())
