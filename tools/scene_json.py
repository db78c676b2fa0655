"""Scenes as JSON: from a packed scene to JSON's objects and text, and from JSON to bytes.
tools/scene.py has the form of the JSON in its head."""
import itertools
import json
import re
import struct

from commands import Wrong, either
from scene_walk import CONTACT, CONTACTS, FLUID_PARTICLE, HEADER, MODELS, NAMED, PARTICLES
from scene_walk import IN_WORDS, REST_DENSITY, RULE, RULES, VERSIONS, WALL_PARTICLE
from scene_walk import Walk, key_of, told

LONGEST = 32768      # of what the program reads
# The version of a JSON that names none: where it names no part of a rule, and where it does.
PLAIN, RULED = 1, 2
LEFT_OUT = {"warm_pressure": 0, "least_iterations": 1, "most_iterations": 50, "keeps_forces": False}
UNSAID = ("it names neither version nor stopping, so it is of version 1 and stops by the Rust's error, which can "
          "settle long before the pressures are right; to stop by the 2014 paper's, add "
          '"stopping": "ihmsen2014"; to keep it so, add "version": 1')


# ---- from a packed scene

def tree(walk):
    """The scene as JSON's objects."""
    scene = {}
    for field in walk.fields:
        node = scene
        for word, k in field.owner:
            models = node.setdefault(key_of(word), [])
            models.extend({} for _ in range(k + 1 - len(models)))
            node = models[k]
        for key, value in field.parts.items():
            node[key] = node.get(key, []) + [value] if field.axis else value
    return scene


def written(value, indent=0, width=150):
    """JSON, with everything that fits on one line on one line."""
    line = json.dumps(value)
    if indent + len(line) <= width or not isinstance(value, (dict, list)):
        return line
    between = ",\n" + " " * (indent + 1)
    if isinstance(value, dict):
        return "{" + between.join(json.dumps(key) + ": " + written(part, indent + 1, width)
                                  for key, part in value.items()) + "}"
    return "[" + between.join(written(part, indent + 1, width) for part in value) + "]"


# ---- to a packed scene

def no_constant(name):
    raise Wrong("%s is no JSON; write a double that is not finite as its 16 hex digits, in quotes" % name)


def unique(pairs):
    if len(dict(pairs)) < len(pairs):
        raise Wrong("a name stands twice in the object with %s; keep one of them" % ", ".join(key for key, _ in pairs))
    return dict(pairs)


def members(path, value, keys):
    """Takes an object with no names but these."""
    if not isinstance(value, dict):
        raise Wrong("%s: give an object with %s" % (path or "the scene", ", ".join(keys)))
    for key in value:
        if key not in keys:
            raise Wrong("%s: %r is no name here; the names are %s" % (path or "the scene", key, ", ".join(keys)))


def member(path, value, key, left_out=None):
    """A member's path and value; the value that stands for it where it is left out."""
    path, left_out = path + "." + key if path else key, LEFT_OUT.get(key, left_out)
    if key not in value and left_out is None:
        raise Wrong("%s is missing; give it a number" % path)
    return path, value.get(key, left_out)


def items(path, value, key, most):
    path, found = path + "." + key if path else key, value.get(key, [])
    if not isinstance(found, list) or len(found) > most:
        raise Wrong("%s: give a list of at most %d" % (path, most)
                    + (", not of %d" % len(found) if isinstance(found, list) else ""))
    return [("%s[%d]" % (path, k), item) for k, item in enumerate(found)]


def whole(path, n, most):
    if isinstance(n, bool) or not isinstance(n, int) or not 0 <= n <= most:
        raise Wrong("%s: give a whole number from 0 to %d, not %.40s" % (path, most, json.dumps(n)))
    return n


def double(path, x):
    if isinstance(x, str) and re.fullmatch("[0-9A-Fa-f]{16}", x):
        return bytes.fromhex(x)
    if isinstance(x, bool) or not isinstance(x, (int, float)):
        raise Wrong('%s: give a decimal such as 0.5, or 16 hex digits in quotes such as "3FE0000000000000", not %.40s'
                    % (path, json.dumps(x)))
    if not abs(x) < 2**1024 - 2**970:      # from here on the nearest double would be infinity
        raise Wrong("%s: the number is too large for a double; give one below 1.79e308" % path)
    return struct.pack(">d", x)


def vector(path, xs, version):
    """The doubles of a vector, one for each axis that the version has."""
    axes = VERSIONS[version].axes
    if not isinstance(xs, list) or len(xs) != len(axes):
        words, example = IN_WORDS[len(axes)], [0] * (len(axes) - 1) + [-9.81]
        others = [str(other) for other, form in VERSIONS.items()
                  if isinstance(xs, list) and len(form.axes) == len(xs)]
        raise Wrong("%s: version %d has %s axes: give %s numbers, as in %s"
                    % (path, version, words, words, example)
                    + ("; for %s axes set version to %s" % (IN_WORDS[len(xs)], either(others))
                       if others else ""))
    return b"".join(double("%s[%d]" % (path, k), x) for k, x in enumerate(xs))


def doubles(path, value, form, version):
    zero = [0] * len(VERSIONS[version].axes)
    return b"".join(vector(*member(path, value, key, zero), version) if is_vector
                    else double(*member(path, value, key)) for key, is_vector in form)


def contact(path, value, version, model, form):
    members(path, value, [model, "particle"] + [key for key, _ in form])
    name = whole(*member(path, value, model), 15) << 12 | whole(*member(path, value, "particle"), NAMED)
    return struct.pack(">H", name) + doubles(path, value, form, version)


def particle(path, value, version, form, words):
    members(path, value, [key for key, _ in form] + [key_of(word) for word in words])
    lists = [[contact(*item, version, *CONTACT[word])
              for item in items(path, value, key_of(word), CONTACTS)] for word in words]
    return (doubles(path, value, form, version) + bytes(map(len, lists))
            + b"".join(itertools.chain(*lists)))


def fluid(path, value, version):
    members(path, value, ["rest_density", "particles"])
    records = [particle(*item, version, *FLUID_PARTICLE)
               for item in items(path, value, "particles", PARTICLES)]
    return (struct.pack(">H", len(records)) + doubles(path, value, REST_DENSITY, version)
            + b"".join(records))


def wall(path, value, version):
    members(path, value, ["keeps_forces", "particles"])
    here, keeps = member(path, value, "keeps_forces")
    if not isinstance(keeps, bool):
        raise Wrong("%s: give true or false" % here)
    found = items(path, value, "particles", PARTICLES)
    for item, p in found:
        if isinstance(p, dict) and "force" in p and not keeps:
            raise Wrong("%s: a force has no place in a wall that keeps none; take it out, or set %s to true"
                        % (item, here))
    records = b"".join(particle(*item, version, *WALL_PARTICLE[keeps]) for item in found)
    return struct.pack(">H", keeps << 15 | len(found)) + records


def quoted(words): return either(map(json.dumps, words))


def chosen(path, value, words):
    """Takes one of these words or numbers; 1.0 and true are not 1."""
    if json.dumps(value) not in map(json.dumps, words):
        raise Wrong("%s: give %s, not %.40s" % (path, quoted(words), json.dumps(value)))
    return value


def version_and_rule(scene):
    """Where a scene's JSON names a part of a rule and no version, that is 2, of three axes and
    with every rule; where it names neither, they are 1 and 0, as ever. A summation that is left
    out is in order, as in all scenes of version 2 from before there was another."""
    left_out, stoppings = RULED if RULE.keys() & scene.keys() else PLAIN, quoted(RULE["stopping"])
    version = chosen("version", scene.get("version", left_out), VERSIONS)
    rule = tuple(chosen(key, scene.get(key, words[0]), words) for key, words in RULE.items())
    for key, word, there in zip(RULE, rule, zip(*VERSIONS[version].rules)):
        if word not in there:
            raise Wrong('%s: "%s" is none of version %d, which has %s; set version to %d, or leave the version out%s'
                        % (key, word, version, quoted(dict.fromkeys(there)), RULED,
                           "" if "stopping" in scene else ", and give a stopping, " + stoppings))
    if version != 1 and "stopping" not in scene:
        raise Wrong("stopping is missing, and %s does not tell it; give %s"
                    % ("version %d" % version if "version" in scene else "a summation", stoppings))
    return version, RULES.index(rule)


def pack(text):
    """The packed scene of a JSON text, and notes on what the program will say to it and on what was
    left open."""
    try:
        scene = json.loads(text, parse_constant=no_constant, object_pairs_hook=unique)
    except (ValueError, RecursionError) as e:
        raise Wrong("this is no JSON: %s; mend it there, or start from examples/scene-b-ihmsen.json" % e) from None
    members("", scene, ["comment", "version", *RULE, "least_iterations", "most_iterations",
                        *[key for key, _ in HEADER], "fluids", "walls"])
    version, rule = version_and_rule(scene)
    fluids, walls = items("", scene, "fluids", MODELS), items("", scene, "walls", MODELS)
    data = bytes([version << 4 | len(fluids), len(walls) << 4 | rule]
                 + [whole(*member("", scene, key), 255) for key in ("least_iterations", "most_iterations")])
    data += doubles("", scene, HEADER, version)
    data += b"".join([fluid(*f, version) for f in fluids] + [wall(*w, version) for w in walls])
    notes = ["it is packed, but a step refuses it: " + line for line in told(Walk(data).faults[:1])]
    if len(data) > LONGEST:
        notes.append("it has %d bytes, and the program takes %d; leave out particles or contacts, or call the library"
                     % (len(data), LONGEST))
    if "version" not in scene and "stopping" not in scene:
        notes.append(UNSAID)
    return data, notes
