"""An answer, read from the program's text (docs/FORMAT.md, 4), held to its scene, and with the
positions of its walls."""
import math
import re
import struct
from types import SimpleNamespace as Record

from commands import Wrong, counted, either
from scene_json import tree
from scene_walk import IN_WORDS, RULE, VERSIONS, Walk, told

KNOWN = either(map(str, VERSIONS))
REFUSALS = {1: "a field is not wholly there",
            2: "another version than %s, or a rule that it does not have" % KNOWN,
            3: "more than 8 fluids or walls", 4: "a count above 4,096", 5: "bytes follow the last record",
            6: "a double that is not finite", 7: "a contact that names nobody",
            8: "the answer or work list is too short", 9: "a density is zero", 10: "a predicted density is zero"}
AGAIN = "give the whole output of tools/run, as in: tools/run examples/chamber.bin > chamber.txt"
# The axes that answers may have: those of version 1 where neither a line nor a scene tells.
AXES = list(dict.fromkeys(form.axes for form in VERSIONS.values()))
VECTORS = {"fluid": 2, "wall": 1}      # in a line, beside one number: of a wall only if it is kept
LEND = ("for a scene of %s axes lend an answer list of %d doubles for each fluid particle, and "
        "for each wall particle 1, or %d where forces are kept; and a work list of %d for each "
        "fluid particle, or %d where errors are summed by halves, and 1 for each wall particle")
ENDINGS = {"unswept": "done without iterations", "settled": "settled after %s", "ranout": "ran out after %s"}


def double(word):
    if not re.fullmatch("[0-9A-F]{16}", word):
        raise ValueError
    return struct.unpack(">d", bytes.fromhex(word))[0]


def whole(word, most):
    if not re.fullmatch("0|[1-9][0-9]{0,4}", word) or int(word) > most:
        raise ValueError
    return int(word)


def step_into(answer, words):
    """Adds the first line: how the step ended, after how many iterations and, if there were any,
    the error and whether an average was passed over. Answers recorded before that was told end with
    the error, and can't tell. An error that is not a number has passed no average over, and none
    settles with it."""
    answer.ending, iterations, *more = words
    answer.iterations, swept = whole(iterations, 255), answer.ending != "unswept"
    if answer.ending not in ENDINGS or swept != (answer.iterations > 0) or len(more) not in ([1, 2] if swept else [0]):
        raise ValueError
    answer.error = [double(x) for x in more[:1]]
    answer.passed_over = whole(more[1], 1) == 1 if len(more) == 2 else None if swept else False
    if any(map(math.isnan, answer.error)) and (answer.ending, answer.passed_over) != ("ranout", False):
        raise ValueError


def line_into(answer, k, words):
    """Adds line k to the answer; a ValueError if it is none of the program's, a Wrong if it can't
    stand there."""
    kind, rest = words[0], words[1:]
    if (kind == "step") != (k == 1) or (kind == "clock") != (k == 2):
        raise Wrong("line %d should be `%s ..`; %s" % (k, ["step", "clock"][k - 1], AGAIN) if k < 3 else
                    "line %d is a second `%s ..`: here another answer begins; give one at a time, and %s"
                    % (k, kind, AGAIN))
    if kind == "step":
        step_into(answer, rest)
    elif kind == "clock" and len(rest) == 3:
        answer.clock = [double(x) for x in rest]
    elif kind in VECTORS:
        xs, p = [double(x) for x in rest[2:]], Record(model=whole(rest[0], 7), number=whole(rest[1], 4095))
        axes_by(answer, k, kind, len(xs))
        if kind == "fluid":
            n = len(answer.axes)
            p.position, p.velocity, p.pressure = xs[:n], xs[n:2 * n], xs[2 * n]
        else:
            p.position, p.volume, p.force = None, xs[0], xs[1:] or None
        in_order(answer, k, kind, p)
        getattr(answer, kind).append(p)
    else:
        raise ValueError


def axes_by(answer, k, kind, n):
    """Takes a line with n doubles if it is of as many axes as those before it; the first that
    tells says of how many the answer is."""
    if kind == "wall" and n == 1:      # a volume alone does not tell
        return
    axes = {1 + VECTORS[kind] * len(axes): axes for axes in AXES}[n]
    if answer.told and axes != answer.axes:
        raise Wrong("line %d is of %s axes, but those before it are of %s, so it is damaged or of "
                    "another answer; %s"
                    % (k, IN_WORDS[len(axes)], IN_WORDS[len(answer.axes)], AGAIN))
    answer.axes, answer.told = axes, True


def in_order(answer, k, kind, p):
    """Takes a particle that can follow those before it. A model may be passed over: one without
    particles has no lines."""
    before = getattr(answer, kind)
    last = before[-1] if before else Record(model=-1, number=-1)
    if kind == "fluid" and answer.wall:
        raise Wrong("line %d is of a fluid, but stands behind lines of walls; %s" % (k, AGAIN))
    if p.model < last.model or p.number != (last.number + 1 if p.model == last.model else 0):
        raise Wrong("line %d, of %s %d, particle %d, does not follow the line before it: lines are missing, twice "
                    "there or of another answer; %s"
                    % (k, kind, p.model, p.number, AGAIN))
    if kind == "wall" and p.model == last.model and (p.force is None) != (last.force is None):
        raise Wrong("line %d: wall %d has forces in some lines and none in others; %s" % (k, p.model, AGAIN))


def no_answer(line, name):
    """What to do about a line that stands alone instead of an answer."""
    refused = re.fullmatch("refused ([1-9]|10) (0|[1-9][0-9]*)", line)
    if refused and refused[1] == "8":
        lengths = [(IN_WORDS[n], 1 + 2 * n, 1 + n, 5 + 3 * n, 6 + 3 * n) for n in map(len, AXES)]
        raise Wrong("\n".join(["the step refused the lists that it was lent, so there are no "
                               "answers: %s (refusal 8)" % REFUSALS[8],
                               *[LEND % each for each in lengths],
                               "iisph_needed gives both lengths"]))
    if refused:
        raise Wrong("the step refused this scene, so there are no answers: %s (refusal %s)\n"
                    "see what stands there with: tools/scene.py at %s %s"
                    % (REFUSALS[int(refused[1])], *refused.groups(), name or "SCENE.bin"))
    if line == "too long":
        raise Wrong("the program takes scenes of at most 32,768 bytes, and this one is longer; leave particles or "
                    "contacts out, or call the library")


def parse(text, name=None):
    """The answer that the text holds; `name` is its scene's, for messages."""
    *lines, rest = text.replace("\r\n", "\n").split("\n")
    if rest:
        raise Wrong("the last line has no end, so the text was cut off there; " + AGAIN)
    if len(lines) == 1:
        no_answer(lines[0], name)
    answer = Record(ending=None, clock=None, fluid=[], wall=[], axes=AXES[0], told=False,
                    held=False, stopping=None, summation=None)
    for k, line in enumerate(lines, 1):
        try:
            line_into(answer, k, line.split(" "))
        except (ValueError, LookupError):
            raise Wrong("line %d is none that the program writes: %.60s\n%s" % (k, line, AGAIN)) from None
    if answer.ending is None or answer.clock is None:
        raise Wrong("the lines `step ..` and `clock ..` are not there; " + AGAIN)
    return answer


def hold(answer, data, name):
    """Holds an answer to the packed scene that it should be of."""
    walk, other = Walk(data), "; is it the answer of this scene, and whole? " + AGAIN
    for line in told(walk.faults[:1]):
        raise Wrong("%s is no scene that has an answer, since a step refuses it: %s" % (name, line))
    if answer.told and answer.axes != walk.axes:
        raise Wrong("the answer has lines of %s axes, but %s is of %s%s"
                    % (IN_WORDS[len(answer.axes)], name, IN_WORDS[len(walk.axes)], other))
    answer.axes, answer.told = walk.axes, True
    for kind, models in (("fluid", answer.fluid), ("wall", answer.wall)):
        found = {(kind, p.model): p.number + 1 for p in models}      # numbers run on from 0
        for model in sorted({*found, *(m for m in walk.counts if m[0] == kind)}):
            if found.get(model, 0) != walk.counts.get(model, 0):
                raise Wrong("the answer has %s of %s %d, but %s has %d%s"
                            % (counted(found.get(model, 0), "particle"), *model, name, walk.counts.get(model, 0),
                               other))
    scene = tree(walk)
    keeps = [w["keeps_forces"] for w in scene.get("walls", [])]
    for w in answer.wall:
        if keeps[w.model] != (w.force is not None):
            raise Wrong("wall %d keeps %s forces in %s, but its lines %s%s"
                        % (w.model, *(("its", name, "have none") if keeps[w.model] else ("no", name, "have some")),
                           other))
    dt, remaining = scene["step_length"], scene["remaining_time"]
    if struct.pack(">3d", *answer.clock) != struct.pack(">3d", dt, 1.0 / dt if dt else 0.0, remaining - dt):
        raise Wrong("the answer's clock is not the one of %s%s" % (name, other))
    hold_ending(answer, scene, name, other)
    answer.held = True


def hold_ending(answer, scene, name, other):
    """Holds how an answer ended to its scene, and takes from this by what error iterations stopped
    and how it was summed, if there were any."""
    most, settles = scene["most_iterations"], any(error <= scene["error_limit"] for error in answer.error)
    settles = settles and answer.iterations > scene["least_iterations"]
    if not {"unswept": most == 0, "settled": settles and answer.iterations <= most,
            "ranout": not settles and answer.iterations == most}[answer.ending]:
        raise Wrong("the answer ended after %s%s, which %s does not allow%s"
                    % (counted(answer.iterations, "iteration"),
                       "".join(" with error %r" % error for error in answer.error), name, other))
    stopping, summation = (scene.get(key, words[0]) for key, words in RULE.items())      # version 1 names none
    # the Rust's error is a number, neither below 0 nor -0; the paper's passes no average over
    if not (all(error >= 0.0 and math.copysign(1.0, error) > 0.0 for error in answer.error) if stopping == "salva"
            else answer.passed_over is False):
        raise Wrong("the answer's first line is none of a step that stops by %s, as %s does%s"
                    % (stopping, name, other))
    if answer.error:
        answer.stopping, answer.summation = stopping, summation


def placing(answer):
    return "add a file with lines: WALL PARTICLE " + " ".join(answer.axes.upper())


def place_walls(answer, text, name):
    """Gives each wall particle the position that the text has for it."""
    found, axes = {}, answer.axes
    for k, line in enumerate(text.splitlines(), 1):
        words = line.split("#")[0].split()
        try:
            if words:
                model, number = (whole(word, 4095) for word in words[:2])
                xs = [float(x) for x in words[2:]]
                if len(xs) != len(axes) or not all(map(math.isfinite, xs)):
                    raise ValueError
                if (model, number) in found:
                    raise Wrong("%s, line %d: wall %d, particle %d stands there twice; keep one of the lines"
                                % (name, k, model, number))
                found[model, number] = xs
        except ValueError:
            example = " ".join(["0.5", "0", "-1"][-len(axes):])
            more = "" if answer.told else "; if the scene is flat, add --scene SCENE.bin"
            raise Wrong("%s, line %d: give a wall's and a particle's number and %s decimals, as "
                        "in: 0 3 %s%s" % (name, k, IN_WORDS[len(axes)], example, more)) from None
    for w in answer.wall:
        if (w.model, w.number) not in found:
            raise Wrong("%s has no position for wall %d, particle %d; add a line: %d %d %s"
                        % (name, w.model, w.number, w.model, w.number, " ".join(axes.upper())))
        w.position = found.pop((w.model, w.number))
    if found:
        raise Wrong("%s has a line for wall %d, particle %d, but the answer has no such particle; is it the file of "
                    "this scene?" % (name, *min(found)))
