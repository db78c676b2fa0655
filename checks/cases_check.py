#!/usr/bin/env python3
"""Writes crates/cases_check/data/scenes and crates/cases_check/stdout: packed scenes, and what
their check must answer.

data/scenes has for each scene its length in four bytes, most significant first, and its bytes;
stdout has a line for each: the verdict, `accepted` or a refusal's number and place, and then the
looks at each contact list that was checked for refusal 7. These are all lists, in the order of the
scene, or those up to and with the one that is refused; of a scene that is refused 1 to 6, none. The
looks are the list's contacts, or those up to and with the one that is refused.

The answers come from a reader written from the specification alone: it knows nothing of the code or
its definitions. Solid scenes come first, then flat ones.
"""
import argparse
import math
import pathlib
import struct

from parts import list_scenes
from parts.packing import flat
from parts.step_rules import AXES, FLAT, SOLID
from reference import batch

CRATE = pathlib.Path(__file__).resolve().parent.parent / "crates" / "cases_check"
LAST_RULES = {1: 0, 2: 3, 4: 3}      # of each version that there is


class Refused(Exception):
    pass


class Reader:
    """Goes through the fields in order. Each is first there (1), then tested by its own rule."""

    def __init__(self, data):
        self.data, self.at = data, 0

    def take(self, size):
        here = self.at
        if here + size > len(self.data):
            raise Refused(1, here)
        self.at += size
        return here, int.from_bytes(self.data[here:self.at], "big")

    def doubles(self, n):
        for _ in range(n):
            here, value = self.take(8)
            if not math.isfinite(struct.unpack(">d", value.to_bytes(8, "big"))[0]):
                raise Refused(6, here)

    def count(self, value, here):
        if value > 4096:
            raise Refused(4, here)
        return value

    def names(self, n, doubles):
        found = []
        for _ in range(n):
            here, name = self.take(2)
            self.doubles(doubles)
            found.append((here, name >> 12, name & 0xFFF))
        return found


def contact_lists(data):
    """The contact lists of a scene whose fields are all accepted, in its order. A contact is its
    place and whether what it names is missing."""
    r = Reader(data)
    _, first = r.take(1)
    if first >> 4 not in LAST_RULES:
        raise Refused(2, 0)
    if first & 15 > 8:
        raise Refused(3, 0)
    _, second = r.take(1)
    if second >> 4 > 8:
        raise Refused(3, 1)
    if second & 15 > LAST_RULES[first >> 4]:
        raise Refused(2, 1)
    axes = AXES[first >> 4]
    r.take(1)
    r.take(1)
    r.doubles(3 + axes)
    fluids, boundaries = [], []      # the models' counts
    lists = []                       # of each list the counts, once they are all read, for its names; and these
    for _ in range(first & 15):
        here, n = r.take(2)
        fluids.append(r.count(n, here))
        r.doubles(1)
        for _ in range(n):
            r.doubles(3 * axes + 2)
            _, a = r.take(1)
            _, b = r.take(1)
            lists += [(fluids, r.names(a, 1 + axes)), (boundaries, r.names(b, 1 + axes))]
    for _ in range(second >> 4):
        here, n = r.take(2)
        boundaries.append(r.count(n & 0x7FFF, here))
        for _ in range(n & 0x7FFF):
            r.doubles((1 + (n >> 15)) * axes)
            _, a = r.take(1)
            lists.append((boundaries, r.names(a, 1)))
    if r.at < len(data):
        raise Refused(5, r.at)
    return [[(at, m >= len(counts) or j >= counts[m]) for at, m, j in names] for counts, names in lists]


# ---- the answer

def until(ends, things):
    """The things up to and with the first for which `ends` holds, or all of them."""
    return things[:next((k + 1 for k, thing in enumerate(things) if ends(thing)), len(things))]


def is_missing(contact): return contact[1]
def is_refused(contacts): return any(map(is_missing, contacts))


def line(data):
    try:
        lists = contact_lists(data)
    except Refused as e:
        return "%d %d\n" % e.args
    places = [at for contacts in lists for at, missing in contacts if missing]
    verdict = "7 %d" % min(places) if places else "accepted"
    looks = [len(until(is_missing, contacts)) for contacts in until(is_refused, lists)]
    return " ".join([verdict, *map(str, looks)]) + "\n"


# ---- solid scenes

def doubles(*xs):
    return b"".join(struct.pack(">d", x) for x in xs)


def contact(model, particle, *xs):
    return struct.pack(">H", model << 12 | particle) + doubles(*xs)


def header(fluids, boundaries):
    return bytes([16 + fluids, 16 * boundaries, 1, 3]) + doubles(0.5, 1.0, 0.1, 0.0, -0.0, -9.81)


def fluid(records, count=None):
    return struct.pack(">H", len(records) if count is None else count) + doubles(1000.0) + b"".join(records)


def fluid_record(to_fluids, to_boundaries):
    fields = doubles(*[0.25 * k for k in range(11)])
    return fields + bytes([len(to_fluids), len(to_boundaries)]) + b"".join(to_fluids + to_boundaries)


def boundary(keeps, records, count=None):
    return struct.pack(">H", keeps << 15 | (len(records) if count is None else count)) + b"".join(records)


def boundary_record(keeps, contacts):
    return doubles(*[0.5] * ((1 + keeps) * SOLID)) + bytes([len(contacts)]) + b"".join(contacts)


def to(model, particle):
    return contact(model, particle, 1.0, 0.5, -0.5, 0.0)


def near(model, particle):
    return contact(model, particle, 2.0)


# An empty fluid, contacts with itself and repeated ones, an empty boundary, forces kept and not
# kept.
def rich(fluid_name=(1, 0), boundary_name=(2, 0), own_name=(0, 0)):
    return (header(2, 3) + fluid([]) + fluid([fluid_record([to(*fluid_name), to(1, 0)], [to(*boundary_name)])])
            + boundary(1, [boundary_record(1, [near(*own_name), near(0, 0)])]) + boundary(0, [])
            + boundary(0, [boundary_record(0, [near(2, 0)])]))


def changed(data, *bytes_at):
    data = bytearray(data)
    for at, value in bytes_at:
        data[at] = value
    return bytes(data)


# ---- solid scenes and flat ones; `turned` makes either of a solid one, `behind` is where its header ends

def forms(whole, versions):
    """Byte 0 with each version, and byte 1 with each rule of these, alone and with other faults of
    these two bytes."""
    fluids, boundaries = whole[0] & 15, whole[1] >> 4
    for version in range(16):
        yield changed(whole, (0, version << 4 | fluids))
        yield bytes([version << 4 | 9])
        yield bytes([version << 4 | 8])
    for version in versions:
        for rule in range(16):
            head = version << 4 | fluids
            yield changed(whole, (0, head), (1, boundaries << 4 | rule))
            for b in 8, 9, 15:
                yield bytes([head, b << 4 | rule])


def of_rules(version, turned, behind):
    """Under each rule: cut, with bytes that follow, and with each other refusal of the check."""
    for rule in range(LAST_RULES[version] + 1):
        whole, lost = (changed(turned(data), (0, version << 4 | 2), (1, 0x30 | rule))
                       for data in (rich(), rich(own_name=(0, 1))))
        yield changed(turned(header(0, 0)), (0, version << 4), (1, rule))
        yield from (whole[:n] for n in range(0, len(whole), 7))
        yield from (whole + b"\0", lost, lost + b"\0")
        for at in 4, behind - 8, behind + 2, behind, behind + 10:
            yield changed(whole, (at, 0x7F), (at + 1, 0xF0))
            yield changed(lost, (at, 0x7F), (at + 1, 0xF0))


def named(turned):
    """Names: the last particle's follower, an empty model, one that is not there."""
    for name in ((1, 1), (0, 0), (2, 0), (15, 4095)):
        yield turned(rich(fluid_name=name))
    for name in ((2, 1), (1, 0), (3, 0), (15, 0)):
        yield turned(rich(boundary_name=name))
    for name in ((0, 1), (1, 0), (3, 0)):
        yield turned(rich(own_name=name))


def several_faults(turned, behind):
    """At once."""
    whole, lost = turned(rich()), turned(rich((2, 0)))
    version = whole[0] >> 4
    yield turned(rich((2, 0), (3, 0), (3, 0)))
    yield lost + b"\0"
    yield whole + b"\0"
    for first in 0x29, version << 4 | 9:
        yield changed(whole, (0, first), (1, 0x9F))
    yield changed(whole, (1, 0x9F))
    yield changed(whole, (1, 0x8F))
    yield changed(lost, (4, 0x7F), (5, 0xF0))
    yield changed(whole, (4, 0x7F), (5, 0xF0), (behind, 0xFF))
    yield changed(whole, (4, 0xFF), (5, 0xF8))[:12]
    yield changed(whole, (4, 0xFF), (5, 0xF8))[:11]


def of_axes(versions, turned, behind):
    whole = turned(rich())
    yield whole
    for n in range(len(whole)):
        yield whole[:n]
    for value in (0xFF, 0x00):
        for at in range(len(whole)):
            yield changed(whole, (at, value))
    yield turned(header(0, 0))
    # counts at and above 4,096, with nothing behind them
    for n in (4095, 4096, 4097, 0x7FFF, 0x8000, 0xFFFF):
        for data in header(1, 0) + fluid([]), header(0, 1) + boundary(0, []):
            yield changed(turned(data), (behind, n >> 8), (behind + 1, n & 0xFF))
    # eight models of each kind, empty, and nine
    yield turned(header(8, 8) + fluid([]) * 8 + boundary(0, []) * 4 + boundary(1, []) * 4)
    yield turned(header(9, 0) + fluid([]) * 9)
    yield turned(header(0, 9) + boundary(0, []) * 9)
    yield from named(turned)
    yield from several_faults(turned, behind)
    yield from forms(whole, versions)
    yield from of_rules(versions[-1], turned, behind)
    yield from map(turned, list_scenes.scenes())


def cases():
    for axes, turned in (SOLID, lambda data: data), (FLAT, flat):
        yield from of_axes([version for version in AXES if AXES[version] == axes], turned, 28 + 8 * axes)


def files():
    """What is written where."""
    scenes = list(cases())
    return {CRATE / "data" / "scenes": batch(scenes), CRATE / "stdout": "".join(map(line, scenes)).encode()}


def main():
    argparse.ArgumentParser(description=__doc__, formatter_class=argparse.RawDescriptionHelpFormatter).parse_args()
    for path, content in files().items():
        path.write_bytes(content)
        print("%s: %d bytes" % (path.name, len(content)))


if __name__ == "__main__":
    main()
