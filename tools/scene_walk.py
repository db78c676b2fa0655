"""A packed scene, field by field, and what a step refuses in it. docs/FORMAT.md, 1 and 2."""
import math
import struct
from types import SimpleNamespace as Record

from commands import counted, either

MODELS, PARTICLES, NAMED, CONTACTS = 8, 4096, 4095, 255
# What a rule names: by which error iterations stop, and how that error's terms are added up.
RULE = {"stopping": ("salva", "ihmsen2014"), "summation": ("in order", "by halves")}
RULES = [(stopping, summation) for summation in RULE["summation"] for stopping in RULE["stopping"]]
# Of each version the axes of its vectors, which nothing else tells, and its rules from 0 on.
VERSIONS = {1: Record(axes="xyz", rules=RULES[:1]), 2: Record(axes="xyz", rules=RULES),
            4: Record(axes="xy", rules=RULES)}
IN_WORDS = {2: "two", 3: "three"}
# Doubles: their name, and whether it is one or a vector, which has one for each axis.
NUMBER, VECTOR = False, True
HEADER = [("step_length", NUMBER), ("remaining_time", NUMBER), ("error_limit", NUMBER),
          ("gravity", VECTOR)]
REST_DENSITY = [("rest_density", NUMBER)]
FLUID_PARTICLE = ([("position", VECTOR), ("velocity", VECTOR), ("acceleration", VECTOR),
                   ("volume", NUMBER), ("warm_pressure", NUMBER)],
                  ["fluid contact", "wall contact"])
# Without and with forces.
WALL_PARTICLE = (([("velocity", VECTOR)], ["contact"]),
                 ([("velocity", VECTOR), ("force", VECTOR)], ["contact"]))
# A contact's word, what it names, its doubles.
CONTACT = {"fluid contact": ("fluid", [("weight", NUMBER), ("gradient", VECTOR)]),
           "wall contact": ("wall", [("weight", NUMBER), ("gradient", VECTOR)]),
           "contact": ("wall", [("weight", NUMBER)])}


def key_of(word): return word.replace(" ", "_") + "s"
def span(at, size): return "byte %d" % at if size == 1 else "bytes %d to %d" % (at, at + size - 1)
def titled(owner): return ", ".join("%s %d" % part for part in owner) or "header"
def titled_rule(k, rules): return "rule %d (%s, %s)" % (k, *rules[k]) if k < len(rules) else "rule %d" % k


class Walk:
    """Goes through a packed scene as far as it can, also where a step would have refused it.

    `fields`: those met, the last one perhaps cut; a field's `owner` is a list of words and numbers,
    its `parts` what it adds to the owner's JSON. `lists`: the contact lists, each with the offset
    of its first contact or, where it has none, of what follows. `faults`: what a step refuses, as
    number, offset and text: the first of them is its answer, unless that is 8, 9 or 10. `end`:
    where the last field ends. `axes`: those of the version, or of version 1 if there is no such
    version.
    """

    def __init__(self, data):
        self.data, self.end, self.fields, self.faults, self.lists, self.counts = data, 0, [], [], [], {}
        try:
            self.scene()
            self.behind()
        except EOFError:      # the scene ends within the last field
            pass

    def fault(self, number, at, text): self.faults.append((number, at, text))

    def number(self, owner, name, size):
        field = Record(at=self.end, size=size, owner=owner, name=name, raw=self.data[self.end:self.end + size],
                       axis=False, parts={}, text="cut short")
        self.fields.append(field)
        if len(field.raw) < size:
            self.fault(1, field.at,
                       "%s, %s needs %s, but the scene ends after %s; get the whole file again, or mend the counts "
                       "before this place"
                       % (titled(owner), name, span(field.at, size), counted(len(self.data), "byte")))
            raise EOFError
        self.end += size
        return field, int.from_bytes(field.raw, "big")

    def whole(self, owner, name, size, text, parts=lambda n: {}):
        field, n = self.number(owner, name, size)
        field.text, field.parts = text(n), parts(n)
        return n

    def doubles(self, owner, form):
        for key, vector in form:
            for axis in self.axes if vector else [""]:
                field, _ = self.number(owner, (key.replace("_", " ") + " " + axis).strip(), 8)
                x, digits = struct.unpack(">d", field.raw)[0], field.raw.hex().upper()
                field.axis, field.parts, field.text = vector, {key: x}, repr(x)
                if not math.isfinite(x):
                    kind = "not a number" if math.isnan(x) else "infinite"
                    field.parts, field.text = {key: digits}, "%s (%s)" % (digits, kind)
                    self.fault(6, field.at, "%s, %s is %s; put a finite number there"
                               % (titled(owner), field.name, field.text))

    def scene(self):
        first = self.whole((), "version and fluids", 1, lambda n: "version %d, %s" % (n >> 4, counted(n & 15, "fluid")),
                           lambda n: {"version": n >> 4})
        self.axes = VERSIONS.get(first >> 4, VERSIONS[1]).axes
        if first >> 4 not in VERSIONS:
            self.fault(2, 0, "the version is %d, not %s; is this a packed scene? tools/scene.py pack makes one from "
                       "JSON" % (first >> 4, either(map(str, VERSIONS))))
        if first & 15 > MODELS:
            self.fault(3, 0, "%d fluids; leave out some, at most %d may be there" % (first & 15, MODELS))
        second = self.walls_and_rule(first)
        for key in "least_iterations", "most_iterations":
            self.whole((), key.replace("_", " "), 1, lambda n: "%s %d" % (key.replace("_", " "), n), lambda n: {key: n})
        self.doubles((), HEADER)
        for owner in [(("fluid", m),) for m in range(first & 15)]:
            count = self.count(owner, 0xFFFF)
            self.doubles(owner, REST_DENSITY)
            self.particles(owner, count, *FLUID_PARTICLE)
        for owner in [(("wall", m),) for m in range(second >> 4)]:
            count = self.count(owner, 0x7FFF, lambda n: {"keeps_forces": n > 0x7FFF})
            self.particles(owner, count & 0x7FFF, *WALL_PARTICLE[count >> 15])

    def walls_and_rule(self, first):
        """Byte 1. What its last four bits may be hangs on the version in byte 0, which is `first`;
        version 1 has a single rule, so its JSON and its text name none."""
        version, rules = first >> 4, VERSIONS[first >> 4].rules if first >> 4 in VERSIONS else []

        def text(n):
            return counted(n >> 4, "wall") + (", " + titled_rule(n & 15, rules) if version != 1 or n & 15 else "")

        def parts(n): return dict(zip(RULE, rules[n & 15])) if version != 1 and n & 15 < len(rules) else {}

        both = self.whole((), "walls and rule", 1, text, parts)
        if both >> 4 > MODELS:
            self.fault(3, 1, "%d walls; leave out some, at most %d may be there" % (both >> 4, MODELS))
        if rules and both & 15 >= len(rules):
            ways = ["%02X hex for %s" % (both & 0xF0 | k, titled_rule(k, rules)) for k in range(len(rules))]
            others = ["; or put %02X hex at byte 0 for version %d, which has it" % (other << 4 | first & 15, other)
                      for other, form in VERSIONS.items()
                      if form.axes == self.axes and both & 15 < len(form.rules)]
            self.fault(2, 1, "rule %d, the last four bits of byte 1, is none of version %d; put there %s"
                       % (both & 15, version, either(ways) + "".join(others)))
        return both

    def count(self, owner, mask, parts=lambda n: {}):
        def text(n): return counted(n & mask, "particle") + (", keeps forces" if n & ~mask else "")
        both = self.whole(owner, "count", 2, text, parts)
        if both & mask > PARTICLES:
            self.fault(4, self.end - 2, "%s has a count of %d; correct it, at most %d may be there"
                       % (titled(owner), both & mask, PARTICLES))
        self.counts[owner[0]] = both & mask
        return both

    def particles(self, model, count, form, words):
        for owner in (model + (("particle", k),) for k in range(count)):
            self.doubles(owner, form)
            for word, n in [(word, self.whole(owner, "number of %ss" % word, 1, lambda n: counted(n, word)))
                            for word in words]:
                self.lists.append(Record(at=self.end, owner=owner, word=word, contacts=[]))
                for k in range(n):
                    self.contact(owner + ((word, k),), *CONTACT[word])

    def contact(self, owner, model, form):
        name = self.whole(owner, "the particle it names", 2,
                          lambda n: "names %s %d, particle %d" % (model, n >> 12, n & 0xFFF),
                          lambda n: {model: n >> 12, "particle": n & 0xFFF})
        self.lists[-1].contacts.append((self.fields[-1], (model, name >> 12), name & 0xFFF))
        self.doubles(owner, form)

    def behind(self):
        """What is tested after the last field."""
        if self.end < len(self.data):
            self.fault(5, self.end,
                       "what stands from offset %d on (%s) follows the last record; cut it off, or mend the counts "
                       "before it"
                       % (self.end, counted(len(self.data) - self.end, "byte")))
        for field, model, k in (contact for found in self.lists for contact in found.contacts):
            if k >= self.counts.get(model, 0):
                there = "there is no %s" % titled([model])
                if model in self.counts:
                    there = "%s has %s" % (titled([model]), counted(self.counts[model], "particle"))
                self.fault(7, field.at, "%s %s, but %s (numbers start at 0); name one that is there"
                           % (titled(field.owner), field.text, there))


def told(faults): return ["refusal %d at %d: %s" % fault for fault in faults]
