"""Scenes for cases_check.py whose contact lists differ in length, with contacts that dangle and
without. A list's number is its place among all lists of the scene, from 0."""
import itertools

from parts.step_faults import most_particles
from parts.step_scenes import ZERO, beside, fluid, particle, scene, scene_a, stone, to, wall

MODELS = 8                   # of a kind, at most
MOST, MIDDLE = 255, 127      # contacts of the longest list, and the number of one in its middle
# The particles of each model of `crowded`. The kinds differ, to show a name that is held against the wrong one.
FLUIDS, WALLS = (1, 0, 3, 1), (4, 0, 2)
KEEPS = 1, 0, 0      # which walls keep forces
# The contacts of each list of `crowded`. A fluid particle has two, the first with fluids.
LENGTHS = 2, 1, 0, 4, 3, 2, 1, 0, 5, 3, 3, 0, 2, 1, 4, 1
WITH_FLUIDS = range(0, 2 * sum(FLUIDS), 2)
# The number of one list of each sort, with others before and behind it: with fluids, with walls, of a wall that keeps
# forces, of one that keeps none.
SORTS = 4, 5, 12, 14
# Names of what is not there: the model after the last, the last model that can be named; in a model that is there the
# particle after the last, the last that can be named; an empty model's first particle. (0, 1) is there among the
# walls, (3, 0) and (2, 2) are among the fluids.
LOST_FLUIDS = (4, 0), (15, 0), (0, 1), (2, 4095), (1, 0)
LOST_WALLS = (3, 0), (15, 0), (2, 2), (0, 4095), (1, 0)
ONES = (1.0, 1.0, 1.0)      # a gradient whose bytes name nothing where a contact without one would end


def linked(names): return [to(*name, gradient=ONES) for name in names]
def weighted(names): return [beside(*name, 1.0) for name in names]


def sound(number, n):
    """n names for this list: those of all particles that it may name, over and over."""
    counts = FLUIDS if number in WITH_FLUIDS else WALLS
    there = [(m, k) for m, count in enumerate(counts) for k in range(count)]
    return list(itertools.islice(itertools.cycle(there), n))


def lost(number): return LOST_FLUIDS if number in WITH_FLUIDS else LOST_WALLS


def broken(number, n, at, name=None):
    """The same with one name of what is not there."""
    names = sound(number, n)
    names[at] = name or lost(number)[0]
    return names


def crowded(lists):
    """A scene with lists of all sorts; those with a number here have these names."""
    names = iter([lists.get(number, sound(number, n)) for number, n in enumerate(LENGTHS)])
    fluids = [fluid(1.0, *[particle(linked(next(names)), linked(next(names))) for _ in range(count)])
              for count in FLUIDS]
    walls = [wall(*[stone(*weighted(next(names)), force=ZERO if keeps else ()) for _ in range(count)], keeps=keeps)
             for count, keeps in zip(WALLS, KEEPS)]
    return scene(fluids, walls)


# ---- one list of each sort: its length, and the first contact that dangles

def of_each_sort():
    for number in SORTS:
        for n, places in (0, ()), (1, (0,)), (MOST, (0, MIDDLE, MOST - 1)):
            yield crowded({number: sound(number, n)})
            for at, name in itertools.product(places, lost(number)):
                yield crowded({number: broken(number, n, at, name)})


# ---- several lists

def one_after_the_other():
    """Which lists are checked: up to and with the first that is refused."""
    first, second, of_wall, later = SORTS
    # each list in turn, so in each particle and each model
    for number in range(len(LENGTHS)):
        yield crowded({number: broken(number, 3, 1)})
    # both lists of a particle are refused: the second at a lower and at a higher number, or both are long
    yield crowded({first: broken(first, 3, 2), second: broken(second, 4, 0)})
    yield crowded({first: broken(first, 3, 0), second: broken(second, 4, 3)})
    yield crowded({first: broken(first, MOST, MOST - 1), second: broken(second, MOST, 0)})
    # only the second is, after none, after 255, and itself at its last of 255
    yield crowded({first: [], second: broken(second, 1, 0)})
    yield crowded({first: sound(first, MOST), second: broken(second, 3, 1)})
    yield crowded({first: sound(first, MOST), second: broken(second, MOST, MOST - 1)})
    # lists of several particles are refused
    yield crowded({second: broken(second, 4, 1), of_wall: broken(of_wall, 4, 0)})
    yield crowded({of_wall: broken(of_wall, 4, 2), later: broken(later, MOST, 0)})
    # several contacts of one list dangle
    for number in SORTS:
        yield crowded({number: sound(number, 2) + list(lost(number)) + sound(number, 2)})


def all_models(near=MODELS - 1, walls=MODELS - 1, own=MODELS - 1):
    """As many models as there may be, of one particle each. Only the last fluid and the last wall
    have contacts, with these models."""
    fluids = [fluid(1.0, particle())] * (MODELS - 1)
    fluids.append(fluid(1.0, particle(linked([(near, 0)]), linked([(walls, 0)]))))
    return scene(fluids, [wall(stone())] * (MODELS - 1) + [wall(stone(*weighted([(own, 0)])))])


def longest_lists(last=(0, 0)):
    """255 contacts in every list; the last one has this name."""
    full = [(0, 0)] * MOST
    stones = [stone(*weighted(full)), stone(*weighted(full)), stone(*weighted(full[1:] + [last]))]
    kept = wall(*[stone(*weighted(full), force=ZERO)] * 2, keeps=1)
    return scene([fluid(1.0, particle(linked(full), linked(full)))], [kept, wall(*stones)])


def scenes():
    yield from (scene_a(), scene_a([]), scene_a([to(0, 1, 2.0)]))
    yield from of_each_sort()
    yield from one_after_the_other()
    yield from (all_models(), all_models(near=MODELS), all_models(walls=MODELS), all_models(own=MODELS))
    yield from (longest_lists(), longest_lists((1, 3)), most_particles())
