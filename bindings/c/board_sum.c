/* One number for all that bindings/board gives: its table, and its lookup at every q up to 2^20 and at some beyond. For
   machines that the archive is not for: compile it for the board, and hold what it prints to `tools/board.py sum`.
   mkdir -p target
   gcc -std=c99 -Os -Ibindings/board bindings/c/board_sum.c bindings/board/iisph_board.c -o target/board_sum */
#include "iisph_board.h"
#include <inttypes.h>
#include <stdio.h>

/* FNV-1a, by numbers of 32 bits in place of bytes */
static uint32_t with(uint32_t sum, uint32_t number) { return (sum ^ number) * UINT32_C(16777619); }

static uint32_t board_sum(void) {
    uint32_t sum = UINT32_C(2166136261);
    for (uint32_t k = 0; k <= 1024; k++) sum = with(sum, iisph_board_entries[k]);
    for (uint32_t q = 0; q <= UINT32_C(1048576); q++) sum = with(sum, iisph_board_lookup(q));
    for (uint32_t q = UINT32_MAX; q > UINT32_C(1048576); q /= 2) sum = with(sum, iisph_board_lookup(q));
    return sum;
}

int main(void) {
    printf("%08" PRIx32 "\n", board_sum());
    return 0;
}
