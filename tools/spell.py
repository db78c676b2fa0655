#!/usr/bin/env python3
"""Turns the repository's own definitions and lemmas to today's spelling: words in snake case, a prime as an apostrophe,
a dash only where it joins two words that are names of their own.

usage: python3 tools/spell.py [--look]      at the top, once, right after the kit's port.py; --look writes nothing

A word in camel case that begins small is a definition, a field or a variable of specs/ and proofs/, or stands for one in a
clause, an edit or a page: all of them turn alike. Lemmas turn where they are declared, in proofs/*.antt, and where they
are cited. Types, modules, the names that the check makes, and those of proofs/F/ keep theirs.
"""
import glob
import os
import re
import sys

LOOK = "--look" in sys.argv
WORD = re.compile(r"(?<![\w'-])[^\W\d](?:[\w-]|'(?!\w'))*")


def snake(part):
    """aBc as a_bc; what begins large, as a fact or a type in the name of a lemma, stays."""
    if not part or not (part[0].islower() or part[0] == "_"):
        return part
    part = re.sub(r"(?<=[a-z0-9₀-₉])(?=[A-Z])", "_", part)
    part = re.sub(r"(?<=[A-Z])(?=[A-Z][a-z])", "_", part)
    return part.lower() if re.search(r"[A-Z]", part) else part


def texts():
    for top in ("crates",):
        for p in sorted(glob.glob(top + "/**/*", recursive=True)):
            if p.endswith((".rt", ".antt", ".edit")) and "/out/" not in p:
                yield p


def own():
    """The names declared in specs/ and proofs/*.antt; of these those of specs/, and of these the functions."""
    declared, defined, functions = set(), set(), set()
    for p in sorted(glob.glob("crates/*/specs/**/*.antt", recursive=True)) + sorted(glob.glob("crates/*/proofs/*.antt")):
        with open(p, encoding="utf-8") as f:
            for line in f:
                m = re.match(r"\s*(?:unfoldable |abbrev |pub |private |opaque )*([^\W\d][\w'-]*) : ", line)
                if m and not line.lstrip().startswith("--"):
                    declared.add(m.group(1))
                    if "/specs/" in p:
                        defined.add(m.group(1))
                        if line[0] != " ":
                            functions.add(m.group(1))
    return declared, defined, functions


# words of the older library, which an edit may still have
KEPT = {"getD"}
# words of the library that the lemmas here join by a dash
LIBRARY = {"sets", "length", "set", "get_or", "take", "drop", "append", "map", "flatten", "nil", "cons", "zero", "suc", "add", "mul", "sub"}


def joined(name, known):
    """A lemma's name: each dash stays where it joins two known words, and else is a `_`."""
    parts = [snake(p) for p in name.split("-")]
    pieces, i = [], 0
    while i < len(parts):
        for j in range(len(parts), i, -1):
            if "_".join(parts[i:j]) in known or j == i + 1:
                pieces.append(("_".join(parts[i:j]), "_".join(parts[i:j]) in known or parts[i][:1].isupper()))
                i = j
                break
    out = pieces[0][0]
    for (a, ka), (b, kb) in zip(pieces, pieces[1:]):
        out += ("-" if ka and kb else "_") + b
    return out


def mapping():
    declared, defined, functions = own()
    made = set()
    for p in texts():
        with open(p, encoding="utf-8") as f:
            t = f.read()
        # what the check makes is cited behind the module of the goals, and answers in proofs/F/ bear those names
        made |= set(re.findall(r"\b(?:tie|goal)\.([^\W\d][\w'-]*)", t))
        if re.search(r"/proofs/[^/]+/", p) or re.search(r"/proofs/[^/]+/[^/]+/", p):
            made |= set(re.findall(r"(?m)^(?:abbrev )?(?:pub )?([^\W\d][\w'-]*-[\w'-]*) : ", t))
    known = {snake(d) for d in functions if "-" not in d} | LIBRARY
    turn = {}
    for p in texts():
        with open(p, encoding="utf-8") as f:
            t = f.read()
        for w in set(WORD.findall(t)):
            w = w.rstrip("-'") if w.endswith("-") else w
            if w[:1].islower() and w not in KEPT and not re.search(r"[-_]", w) and re.search(r"[A-Z]", w):
                turn[w] = snake(w)
    for d in declared:
        if "-" in d and d not in made:
            new = joined(d, known)
            if new != d:
                turn[d] = new
    # what a definition's name becomes is no lemma's: the lemma gets _lem
    targets = {b for a, b in turn.items() if "-" not in a}
    lemmas = declared - defined
    for a, b in list(turn.items()):
        if "-" in a and (b in targets or b in defined or b in declared):
            turn[a] = b + "_lem"
    beside = {b: b + "_lem" for a, b in turn.items() if "-" not in a and b in lemmas and b not in defined}
    return turn, declared, beside


def falls(turn, declared):
    """Names that would fall together."""
    back = {}
    for a, b in turn.items():
        back.setdefault(b, []).append(a)
    words = set()
    for p in texts():
        with open(p, encoding="utf-8") as f:
            words |= set(WORD.findall(f.read()))
    for b, olds in sorted(back.items()):
        if len(olds) > 1:
            print("together:", b, olds)
        if b in words and b not in turn:
            print("stands already:", b, olds, "declared" if b in declared else "")


def turned(text, turn, beside):
    def one(m):
        w = m.group(0)
        if w in beside and text[max(0, m.start() - 1):m.start()] != ".":
            return beside[w]
        return turn.get(w, w)

    return WORD.sub(one, text)


def main():
    turn, declared, beside = mapping()
    falls(turn, declared)
    for a, b in sorted(beside.items()):
        print("beside:", a, b)
    for a, b in sorted(turn.items()):
        print(a, b)
    if LOOK:
        return
    for p in texts():
        with open(p, encoding="utf-8") as f:
            t = f.read()
        new = turned(t, turn, beside if p.endswith(".antt") and "/proofs/" in p else {})
        if new != t:
            with open(p, "w", encoding="utf-8") as f:
                f.write(new)


if __name__ == "__main__":
    main()
