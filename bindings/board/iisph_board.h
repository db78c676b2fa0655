/* SPDX-License-Identifier: Apache-2.0 */
/* The weight shape from a table of whole numbers, for a board with no floating point: this file and
   iisph_board.c, in C99, with nothing but <stdint.h>. Both are written by tools/board.py from the
   proved table, crates/weight_table/src/table.rt. Do not edit them; have them written anew.

   q is a distance over the radius, in units of 2^-20: 1048576 is 1. A weight is in units of 2^-30:
   1073741824 is 1. The table takes 4100 bytes of read-only memory, or of RAM where the compiler
   keeps constants in RAM, as avr-gcc does.

   All arithmetic is that of uint32_t, and nothing overflows: from an entry to the next the table
   falls by at most 2^21, and f, below, is at most 1023, so their product, and that plus 1023, is
   below 2^31. Nothing depends on the width of int or on the order of bytes. All divisions are by
   1024, which compilers turn into shifts. */
#ifndef IISPH_BOARD_H
#define IISPH_BOARD_H

#include <stdint.h>

#ifdef __cplusplus
extern "C" {
#endif

/* Entry k is the exact weight at q = 1024 * k: 2^30 + 6 * k^3 - 6144 * k^2 up to k = 512, and
   2 * (1024 - k)^3 from 512 on. Proved of the table that this one is written from: it follows the
   rule, and falls strictly from 2^30 to 0. */
extern const uint32_t iisph_board_entries[1025];

/* The weight at q. With k the quotient and f the remainder of q by 1024, it is entry k plus the
   floor of (entry k+1 - entry k) * f / 1024; from 1048576 on it is 0.
   The archive's lookup, iisph_board_weight of libiisph_c_board.a, is proved: it is within 1537
   units of the exact weight at every q. This one is held to it on every value of a uint32_t by a
   test. */
uint32_t iisph_board_lookup(uint32_t q);

#ifdef __cplusplus
}
#endif

#endif
