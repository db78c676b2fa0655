#!/usr/bin/env python3
"""The weight shape for a board with no floating point: C files with the proved table and its
lookup, and the weights that the board must give.

  tools/board.py write [FOLDER]    writes iisph_board.h and iisph_board.c, into bindings/board where
                                   no folder is given
  tools/board.py weight Q ..       a line for each q: the weight that the lookup gives, the exact
                                   weight, and the error, which is the first less the second
  tools/board.py table             a line for each entry: k, and the weight at a q of k / 1024
  tools/board.py sum               what bindings/c/board_sum.c must print on the board: one number
                                   for all entries, and all weights up to a q of 1

Q is in units of 2^-20, as a decimal or, behind 0x, in hex: a q of 0.5 is 524288 or 0x80000. Weights
and errors are in units of 2^-30. The exact weight and the error are told in full, as a whole number
and a fraction: 3+1/2 is 3.5, and -3-1/2 is -3.5.
The table is read from crates/weight_table/src/table.rt.
Status: 0; 1 if there is no table in that file; 2 if a file or the command is wrong.
"""
import pathlib
import re
import sys
from fractions import Fraction

from commands import Misused, Wrong, carried_out

ROOT = pathlib.Path(__file__).resolve().parent.parent
NAME = "crates/weight_table/src/table.rt"
TABLE, FOLDER = ROOT / NAME, ROOT / "bindings/board"
ENTRIES, A_ROW = 1025, 8      # in the table; in a line of the C file
ONE, ALL = 2**20, 2**32       # where q is 1; how many q there are
COLUMNS = "%10s  %10s  %-30s  %s\n"

COMMANDS = {"write": ("write [FOLDER]", [0, 1], {}),
            "weight": ("weight Q ..", range(1, ALL), {}),
            "table": ("table", [0], {}),
            "sum": ("sum", [0], {})}


# ---- the table, the lookup, the exact shape

def entries():
    """The proved table."""
    text = TABLE.read_text(encoding="utf-8", errors="replace")
    found = re.search(r"^pub const ENTRIES: \[u32; 1025\] = \[([0-9,\s]*)\];", text, re.M)
    numbers = [int(digits) for digits in re.findall("[0-9]+", found[1])] if found else []
    if len(numbers) != ENTRIES:
        raise Wrong("%s has no list ENTRIES of 1025 numbers; restore it, as in: git checkout %s" % (NAME, NAME))
    return numbers


def lookup(table, q):
    """On the line between two entries, rounded down: // is the floor, also of a negative number."""
    if q >= ONE:
        return 0
    k, f = divmod(q, 1024)
    return table[k] + (table[k + 1] - table[k]) * f // 1024


def exact(q):
    """The exact weight (docs/METHOD.md, 1.5)."""
    x = Fraction(q, ONE)
    return 2**30 * (1 - 6 * (x**2 - x**3) if 2 * x <= 1 else 2 * (1 - x)**3 if x <= 1 else Fraction(0))


# ---- write

HEADER = """\
/* SPDX-License-Identifier: Apache-2.0 */
/* The weight shape from a table of whole numbers, for a board with no floating point: this file and
   iisph_board.c, in C99, with nothing but <stdint.h>. Both are written by tools/board.py from the
   proved table, crates/weight_table/src/table.rt. Do not edit them; have them written anew.

   q is a distance over the radius, in units of 2^-20: 1048576 is 1. A weight is in units of 2^-30:
   1073741824 is 1. The table takes 4100 bytes of read-only memory, or of RAM where the compiler
   keeps constants in RAM, as avr-gcc does.

   All arithmetic is that of uint32_t, and nothing overflows: from an entry to the next the table
   falls by at most 2^21, and f, below, is at most 1023, so their product, and that plus 1023, is
   below 2^31. Nothing depends on the width of int or on the order of bytes. All divisions are by
   1024, which compilers turn into shifts. */
#ifndef IISPH_BOARD_H
#define IISPH_BOARD_H

#include <stdint.h>

#ifdef __cplusplus
extern "C" {
#endif

/* Entry k is the exact weight at q = 1024 * k: 2^30 + 6 * k^3 - 6144 * k^2 up to k = 512, and
   2 * (1024 - k)^3 from 512 on. Proved of the table that this one is written from: it follows the
   rule, and falls strictly from 2^30 to 0. */
extern const uint32_t iisph_board_entries[1025];

/* The weight at q. With k the quotient and f the remainder of q by 1024, it is entry k plus the
   floor of (entry k+1 - entry k) * f / 1024; from 1048576 on it is 0.
   The archive's lookup, iisph_board_weight of libiisph_c_board.a, is proved: it is within 1537
   units of the exact weight at every q. This one is held to it on every value of a uint32_t by a
   test. */
uint32_t iisph_board_lookup(uint32_t q);

#ifdef __cplusplus
}
#endif

#endif
"""

SOURCE = """\
/* SPDX-License-Identifier: Apache-2.0 */
/* The table and the lookup of iisph_board.h. Written by tools/board.py; do not edit. */
#include "iisph_board.h"

const uint32_t iisph_board_entries[1025] = {
ROWS
};

uint32_t iisph_board_lookup(uint32_t q) {
    if (q >= UINT32_C(1048576)) return 0;
    const uint32_t k = q / UINT32_C(1024), f = q % UINT32_C(1024);
    const uint32_t here = iisph_board_entries[k], next = iisph_board_entries[k + UINT32_C(1)];
    /* the table falls, so entry k plus a floor is entry k less a quotient that is rounded up */
    return here - ((here - next) * f + UINT32_C(1023)) / UINT32_C(1024);
}
"""


def files(table):
    """The text of each C file, by its name."""
    rows = [table[k:k + A_ROW] for k in range(0, len(table), A_ROW)]
    listed = "\n".join("    %s," % ", ".join(map(str, row)) for row in rows)
    return {"iisph_board.h": HEADER, "iisph_board.c": SOURCE.replace("ROWS", listed)}


def write(folder, table):
    for name, text in files(table).items():
        (folder / name).write_text(text, newline="\n")


# ---- weight

def given(word):
    """The q that a word says."""
    hexed = re.fullmatch("0[xX]([0-9a-fA-F]{1,20})", word)
    q = int(hexed[1], 16) if hexed else int(word) if re.fullmatch("[0-9]{1,20}", word) else ALL
    if q >= ALL:
        raise Misused("%s is no q; give a whole number of units of 2^-20 from 0 to 4294967295, as in: "
                      "tools/board.py weight 524288 for a q of 0.5" % word)
    return q


def mixed(x):
    """A fraction in full: its whole part and what is left, without the one that is 0."""
    whole, left = divmod(abs(x.numerator), x.denominator)
    parts = [str(whole)] * (whole > 0 or left == 0) + ["%d/%d" % (left, x.denominator)] * (left > 0)
    return "-" * (x < 0) + ("-" if x < 0 else "+").join(parts)


def weight_lines(table, places):
    yield COLUMNS % ("q", "weight", "exact weight", "error")
    for q in places:
        found, right = lookup(table, q), exact(q)
        yield COLUMNS % (q, found, mixed(right), mixed(found - right))


# ---- sum

def summed(table):
    """FNV-1a, by numbers of 32 bits in place of bytes, of the numbers that bindings/c/board_sum.c takes."""
    places = [*range(ONE + 1), *(2**n - 1 for n in range(32, 20, -1))]
    total = 2166136261
    for number in [*table, *(lookup(table, q) for q in places)]:
        total = (total ^ number) * 16777619 % ALL
    return total


# ---- the commands

def run(command, words, options):
    """Does what a command says, and gives notes and the status."""
    places = [given(word) for word in words] if command == "weight" else []
    table = entries()
    if command == "write":
        write(pathlib.Path(words[0]) if words else FOLDER, table)
    elif command == "weight":
        print("".join(weight_lines(table, places)), end="")
    elif command == "table":
        print("".join("%4d  %10d\n" % pair for pair in enumerate(table)), end="")
    else:
        print("%08x" % summed(table))
    return [], 0


def main(arguments):
    return carried_out("tools/board.py", __doc__, COMMANDS, run, arguments)


if __name__ == "__main__":
    sys.exit(main(sys.argv[1:]))
