#!/usr/bin/env python3
"""Counts the loads of the solver's inner loops in the built archive: each double of a contact is to
be one 8-byte load and one byte swap.

  checks/count_loads.py    builds libiisph_c.a (rt lib in crates/iisph_c), disassembles it with
                           objdump and compares

Per function: how many byte swaps there are, one for each double that is read from the packed scene,
and how many single bytes are loaded at most (a contact's name and a model's count are two each; a
number of contacts is one).
A change that breaks a read up shows as fewer swaps or more bytes, and so does a sum that is no
longer inlined where it is called. What is expected was counted in an archive that an older kit
built; a compiler that makes other loops of the same sums shows as well.
"""
import argparse
import collections
import pathlib
import re
import subprocess
import sys

ROOT = pathlib.Path(__file__).resolve().parent.parent
CRATE = ROOT / "crates" / "iisph_c"
ARCHIVE = CRATE / "out" / "libiisph_c.a"

# function, with the sums over contacts that are inlined in it: doubles read, single bytes loaded at most
EXPECTED = {
    # advection, coefficients, dij_pjl, next pressures; names in nine sums, numbers of contacts
    "iisph_passes::traverse::update_rows": (8 + 25 + 3 + 7, 9 * 2 + 5),
    # motion, gathered forces, given forces; names in three loops, numbers of contacts, the counts of a fluid, in a loop
    # for each criterion, and of a boundary, the rule, and two that are no field but answers, on the stack
    "iisph_lent::step_long": (16 + 4 + 3, 3 * 2 + 4 + 3 * 2 + 1 + 2),
}


def counted(text):
    swaps, singles, name = collections.Counter(), collections.Counter(), ""
    for line in text.splitlines():
        head = re.match(r"[0-9a-f]+ <(.*)>:$", line)
        if head:
            name = head.group(1)
        elif re.search(r"\b(bswap|movbe)\b", line):
            swaps[name] += 1
        elif re.search(r"\bmovzb[lwq]\s+\S*\(", line):
            singles[name] += 1
    return swaps, singles


def main():
    argparse.ArgumentParser(description=__doc__, formatter_class=argparse.RawDescriptionHelpFormatter).parse_args()
    subprocess.run(["rt", "lib"], cwd=CRATE, check=True, stdout=subprocess.DEVNULL)
    text = subprocess.run(["objdump", "-d", str(ARCHIVE)], check=True, capture_output=True, text=True).stdout
    swaps, singles = counted(text)
    wrong = 0
    for name, (doubles, most) in EXPECTED.items():
        good = swaps[name] == doubles and singles[name] <= most
        wrong += not good
        print("%s: %s: %d byte swaps (expected %d), %d single bytes (at most %d)"
              % ("as expected" if good else "DIFFERS", name, swaps[name], doubles, singles[name], most))
    sys.exit(1 if wrong else 0)


if __name__ == "__main__":
    main()
