/* How many bytes of stack each function takes, the most under any rule, as a table over scenes of four sizes. Fails if
   a call is refused, or if the lent step takes 16 KiB or more. Each call has a stack of its own, painted before; it
   took what lies above the lowest byte that has changed.
   mkdir -p target
   gcc -O2 -Wall -Wextra -Iinclude bindings/c/stack.c crates/iisph_c{,_lists,_board}/out/lib*.a -o target/stack
   target/stack */
#include "iisph.h"
#include "packing.h"
#include <stdio.h>
#include <ucontext.h>

enum { MODELS = 8, MOST = 4096, OF_A_KIND = MODELS * MOST };
enum { STACK = 2 << 20, PAINT = 0xA5, LENT_LIMIT = 16 << 10 };

static _Alignas(16) uint8_t stack[STACK];
static double answers[(7 + 4) * OF_A_KIND], work[(15 + 1) * OF_A_KIND], numbers[4], kept[4] = {0.25}, out[1];
static uint64_t lent[4 + 16 * (2 * MODELS) + (2 + 1) * OF_A_KIND], counts[2], told;

#define LIST(list) list, sizeof list / sizeof *list

static void step(void) { told = iisph_step(scene, len, LIST(answers), LIST(work), LIST(numbers), LIST(counts)); }

static void step_lent(void) {
    told = iisph_step_lent(scene, len, LIST(answers), LIST(work), LIST(lent), LIST(numbers), LIST(counts));
}

static void step_keeping(void) {
    told = iisph_step_keeping(scene, len, LIST(kept), LIST(answers), LIST(work), LIST(numbers), LIST(counts));
}

static void needed(void) { told = iisph_needed(scene, len, LIST(counts)); }

static void validate(void) { told = iisph_validate(scene, len, LIST(work), LIST(counts)); }

/* the fluid contacts of the first fluid particle, which is in each of the scenes */
static void check_list(void) { told = iisph_check_list(scene, len, 0, 0, 0, LIST(counts)); }

static void weight(void) { told = iisph_weight(0.5, 1, LIST(out)); }

static void slope(void) { told = iisph_slope(0.5, 1, LIST(out)); }

static void weight_2d(void) { told = iisph_weight_2d(0.5, 1, LIST(out)); }

static void slope_2d(void) { told = iisph_slope_2d(0.5, 1, LIST(out)); }

/* the last q that the table is laid out for; its weight is 0, which counts as done */
static void board_weight(void) { told = iisph_board_weight((1 << 20) - 1); }

static const struct { const char *name; void (*call)(void); } functions[] = {
    {"iisph_step", step}, {"iisph_step_lent", step_lent}, {"iisph_step_keeping", step_keeping},
    {"iisph_needed", needed}, {"iisph_validate", validate}, {"iisph_check_list", check_list},
    {"iisph_weight", weight}, {"iisph_slope", slope}, {"iisph_weight_2d", weight_2d}, {"iisph_slope_2d", slope_2d},
    {"iisph_board_weight", board_weight},
};

/* models of each kind, and particles in each */
static const struct { const char *name; unsigned fluids, boundaries, particles; } sizes[] = {
    {"scene A", 1, 0, 1}, {"64", 1, 0, 64}, {"2000", 1, 0, 2000}, {"largest", MODELS, MODELS, MOST},
};

enum { FUNCTIONS = sizeof functions / sizeof *functions, SIZES = sizeof sizes / sizeof *sizes };

/* of one call, with the few words of its caller here; the first call is not counted, since what it takes of the C
   library, memset, may be bound then */
static size_t taken(void (*call)(void)) {
    ucontext_t here, there;
    call();
    memset(stack, PAINT, STACK);
    getcontext(&there);
    there.uc_stack.ss_sp = stack;
    there.uc_stack.ss_size = STACK;
    there.uc_link = &here;
    makecontext(&there, call, 0);
    swapcontext(&here, &there);
    size_t untouched = 0;
    while (untouched < STACK && stack[untouched] == PAINT) untouched++;
    return STACK - untouched / sizeof(void *) * sizeof(void *);
}

static size_t bytes[FUNCTIONS][SIZES];

/* whether function f on the scene of size s is done, with no more stack than it may take */
static int measured(int f, int s) {
    const size_t now = taken(functions[f].call);
    if (bytes[f][s] < now) bytes[f][s] = now;
    if (told > 2) {
        printf("%s, %s: answered %d\n", functions[f].name, sizes[s].name, (int)told);
        return 0;
    }
    if (functions[f].call == step_lent && bytes[f][s] >= LENT_LIMIT) {
        printf("%s, %s: takes %zu bytes of stack\n", functions[f].name, sizes[s].name, bytes[f][s]);
        return 0;
    }
    return 1;
}

static void print_row(int f) {
    printf("%-20s", functions[f].name);
    for (int s = 0; s < SIZES; s++) printf("%9zu", bytes[f][s]);
    puts("");
}

/* the packed scene as version 2, under this rule */
static void change_rule(unsigned rule) {
    scene[0] = (uint8_t)(2 << 4 | (scene[0] & 15));
    scene[1] = (uint8_t)((scene[1] & 0xF0) | rule);
}

int main(void) {
    int wrong = 0;
    for (int s = 0; s < SIZES; s++) {
        pack_scene(sizes[s].fluids, sizes[s].boundaries, sizes[s].particles);
        for (unsigned rule = IISPH_RULE_SALVA; rule <= IISPH_RULE_IHMSEN2014_BY_HALVES; rule++) {
            change_rule(rule);
            for (int f = 0; f < FUNCTIONS; f++) wrong += !measured(f, s);
        }
    }
    printf("%-20s%9s%9s%9s%9s\n", "particles", sizes[0].name, sizes[1].name, sizes[2].name, sizes[3].name);
    for (int f = 0; f < FUNCTIONS; f++) print_row(f);
    return wrong > 0;
}
