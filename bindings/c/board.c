/* The board's table and lookup, bindings/board, against the proved lookup of the archive: at every entry, and on every
   value of a uint32_t. Prints how many were compared, or the first difference. Takes some 7 seconds, without -flto 13.
   mkdir -p target
   gcc -O2 -flto -Wall -Wextra -Iinclude -Ibindings/board bindings/c/board.c bindings/board/iisph_board.c \
       crates/iisph_c_board/out/libiisph_c_board.a -o target/board && target/board */
#include "iisph.h"
#include "iisph_board.h"
#include <inttypes.h>
#include <stdio.h>

enum { ENTRIES = sizeof iisph_board_entries / sizeof *iisph_board_entries };

static int different(const char *what, uint32_t q, uint32_t found) {
    printf("q %" PRIu32 ": the board's %s gives %" PRIu32 ", the archive %" PRIu32 "\n", q, what, found,
           iisph_board_weight(q));
    return 1;
}

/* how many values of q from 0 on get the same weight */
static uint64_t alike(void) {
    uint64_t q = 0;
    while (q <= UINT32_MAX && iisph_board_lookup((uint32_t)q) == iisph_board_weight((uint32_t)q)) q++;
    return q;
}

int main(void) {
    for (uint32_t k = 0; k < ENTRIES; k++)
        if (iisph_board_entries[k] != iisph_board_weight(1024 * k))
            return different("table", 1024 * k, iisph_board_entries[k]);
    const uint64_t compared = alike();
    if (compared <= UINT32_MAX)
        return different("lookup", (uint32_t)compared, iisph_board_lookup((uint32_t)compared));
    printf("no difference: %d entries, %" PRIu64 " values of q\n", ENTRIES, compared);
    return 0;
}
