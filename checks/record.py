#!/usr/bin/env python3
"""Chooses the recorded scenes of crates/cases_replay and writes them with the Rust's answers. Under
rules 1 to 3, which the Rust does not have, first lines are those of checks/parts/step_rules.py.

  checks/record.py [--axes D] [--oracle FILE]   writes crates/cases_replay/data/scenes and
                                                crates/cases_replay/stdout
  checks/record.py --check [--oracle FILE]      asks both again about the recorded scenes (status 1
                                                if an answer differs)

The scenes come from checks/made_scenes.py and checks/cases_step.py, small ones only. They are
taken, short ones first, until each branch of the rules and each refusal (BRANCHES, in
parts/branches.py) has been met some times, each class has its share in each version and rule, and
each wrong version of checks/wrong_versions.py is noticed by several. This is done twice: for solid
scenes, without the wrong versions of flat ones, and then for flat ones, of which fewer are taken;
with --axes 3 or 2 for one of them alone, and the recorded scenes of the other stay.
Which branches a scene meets is seen by notes put into checks/parts/step_rules.py's text. Status 2
if a file is missing, the use is wrong, a branch is met by no solid scene or by no flat one, or a
wrong version is noticed by no scene.
"""
import argparse
import collections
import itertools
import pathlib
import sys

from cases_step import cases
from made_scenes import CLASSES, made
from parts.branches import Branches, of_axes
from parts.packing import axes_of
from parts.sides import SKIPPED, Expected, Failed, form_name
from parts.step_rules import FLAT, SOLID
from parts.wrong_axes import AXES_VERSIONS
from reference import Stop, batch, load, text, unbatch
from wrong_versions import LINES, NOTICED, ROOT, SCENES, answer, edited, recorded

SEED, LARGEST_FILE = 7, 400_000
# How many scenes of a class there are to choose from; how often a branch is to be met; how many
# scenes of a class in each form are to be taken.
POOL, TIMES, SHARE = {SOLID: 1000, FLAT: 300}, {SOLID: 4, FLAT: 2}, {SOLID: 5, FLAT: 2}
# Wrong versions that are looked for, and those of them that some scene must notice.
OF_SOLID = [edit for edit in NOTICED if edit not in AXES_VERSIONS]
WRONG, MUST = {SOLID: OF_SOLID, FLAT: NOTICED}, {SOLID: OF_SOLID, FLAT: AXES_VERSIONS}
LONGEST_SCENE = collections.defaultdict(
    lambda: 520, {"lattice": 900, "crowd": 1300, "passed over": 720, "cases_step": 1500, "sums": 1000})


def pool(oracle, axes):
    """Class, scene and answer: short scenes of all classes, each once, but none that runs skip."""
    found = [("cases_step", data) for _, data, *_ in cases() if axes_of(data) == axes]
    found = [(name, data) for name, data in found if len(data) <= LONGEST_SCENE[name]]
    for name in CLASSES:
        short = ((name, data) for data in made(SEED, name, axes)
                 if len(data) <= LONGEST_SCENE[name] and axes in (FLAT, axes_of(data)))
        found += itertools.islice(short, POOL[axes])
    found = list({data: (name, data) for name, data in reversed(found)}.values())[::-1]
    answers = Expected(oracle).of([data for _, data in found])
    return [(name, data, answer) for (name, data), answer in zip(found, answers) if answer != SKIPPED]


def chosen(candidates, source, axes):
    """Numbers of candidates: for the branches, then for the classes in each form, then for the wrong
    versions. And the names of the wrong versions that some of them notice."""
    seen, taken, met, share = Branches(source), set(), collections.Counter(), collections.Counter()
    times, noticed = TIMES[axes], set()
    branches = [seen.of(data) for _, data, _ in candidates]
    shares = [(name, form_name(data)) for name, data, _ in candidates]
    order = sorted(range(len(candidates)), key=lambda k: (len(candidates[k][1]) / (1 + len(branches[k])), k))

    def take(k):
        if k not in taken:
            taken.add(k)
            met.update(branches[k])
            share[shares[k]] += 1

    for branch in sorted(of_axes(axes), key=lambda b: sum(b in found for found in branches)):
        for k in order:
            if met[branch] >= times:
                break
            if branch in branches[k]:
                take(k)
    for k in range(len(candidates)):
        if share[shares[k]] < SHARE[axes]:
            take(k)
    for name, old, new in WRONG[axes]:
        lines, found = load(edited(source, old, new))["lines"], 0
        for k in itertools.chain(sorted(taken), (k for k in order if k not in taken)):
            if found >= times:
                break
            if answer(lines, candidates[k][1]) != candidates[k][2]:
                found += 1
                take(k)
        if found < times:
            print("noticed by %d of all candidates: %s" % (found, name), flush=True)
        noticed |= {name} if found > 0 else set()
    told(met, share, of_axes(axes))
    return sorted(taken), noticed


def told(met, share, branches):
    """Prints how often each branch is met, which must be once at least, and the shares of classes
    and forms."""
    lacking = [branch for branch in branches if not met[branch]]
    if lacking:
        raise Stop("no candidate meets: " + ", ".join(lacking))
    for branch in branches:
        print("%5d  %s" % (met[branch], branch))
    for place in 0, 1:
        of = collections.Counter()
        for names, n in share.items():
            of[names[place]] += n
        print(", ".join("%s %d" % pair for pair in of.items()))


def newly_chosen(oracle, axes):
    """Scenes of so many axes, with their answers."""
    candidates = pool(oracle, axes)
    print("%d candidates with %d axes" % (len(candidates), axes), flush=True)
    taken, noticed = chosen(candidates, text(), axes)
    missed = [name for name, *_ in MUST[axes] if name not in noticed]
    if missed:
        raise Stop("no candidate notices these wrong versions: " + ", ".join(missed))
    return [candidates[k][1:] for k in taken]


def recorded_of(axes):
    """Recorded scenes with their answers: solid ones, or those from the first flat one on."""
    pairs = list(zip(*recorded()))
    first = next((k for k, (data, _) in enumerate(pairs) if axes_of(data) == FLAT), len(pairs))
    return pairs[:first] if axes == SOLID else pairs[first:]


def write(oracle, wanted):
    sample = []
    for axes in SOLID, FLAT:
        sample += newly_chosen(oracle, axes) if wanted in (axes, None) else recorded_of(axes)
    scenes, lines = batch(data for data, _ in sample), "".join(answer for _, answer in sample)
    if len(scenes) > LARGEST_FILE:
        raise Stop("%d scenes are %d bytes, more than %d: nothing written" % (len(sample), len(scenes), LARGEST_FILE))
    SCENES.parent.mkdir(parents=True, exist_ok=True)
    SCENES.write_bytes(scenes)
    LINES.write_text(lines, encoding="ascii")
    print("%d scenes: %s %d bytes, %s %d bytes"
          % (len(sample), SCENES.relative_to(ROOT), len(scenes), LINES.relative_to(ROOT), len(lines)))
    return 0


def check(oracle):
    scenes = unbatch(SCENES)
    same = "".join(Expected(oracle).of(scenes)).encode() == LINES.read_bytes()
    said = "the answers are the recorded ones" if same else "an answer differs from the recorded one"
    print("%d scenes: %s" % (len(scenes), said))
    return 0 if same else 1


def main():
    parser = argparse.ArgumentParser(usage=__doc__)
    parser.add_argument("--check", action="store_true")
    parser.add_argument("--axes", type=int, choices=[FLAT, SOLID])
    parser.add_argument("--oracle", type=pathlib.Path, default=ROOT / "oracle/target/release/oracle")
    options = parser.parse_args()
    try:
        oracle = options.oracle.resolve()
        if not oracle.is_file():
            raise Stop("%s is not there: run oracle/prepare.py FOLDER, then cargo build --release --offline in oracle/"
                       % oracle)
        return check(oracle) if options.check else write(oracle, options.axes)
    except (Stop, Failed) as e:
        print(e, file=sys.stderr)
    except OSError as e:
        print("%s: %s" % (e.filename or "output", e.strerror), file=sys.stderr)
    return 2


if __name__ == "__main__":
    sys.exit(main())
