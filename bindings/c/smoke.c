/* Each function through the archives, on scene A of docs/FORMAT.md; the steps under all rules (endings.h, summation.h)
   and in the plane (flat.h); and the check of one contact list on a scene that has ten. Prints `ok`, or the line of the
   first difference.
   mkdir -p target
   gcc -O2 -Wall -Wextra -Iinclude bindings/c/smoke.c crates/iisph_c{,_lists,_board}/out/lib*.a -o target/smoke
   target/smoke */
#include "endings.h"
#include "flat.h"
#include "iisph.h"
#include "packing.h"
#include "same.h"
#include "summation.h"
#include <math.h>

static void scene_a(void) { pack_scene(1, 0, 1); }

/* what a step on scene A writes, and a 7 behind it */
static const double expected[8] = {0, 0, -1, 0, 0, -2, 0, 7};
static const double expected_numbers[5] = {0, 0.5, 2, 0.5, 7};

static void sevens(double *list, int n) {
    for (int k = 0; k < n; k++) list[k] = 7;
}

static int all_sevens(const double *list, int n) {
    while (n > 0 && list[n - 1] == 7) n--;
    return n == 0;
}

/* the step that is lent its index, first one that is too short, then one of the length told */
static int lent_step(void) {
    double answers[8], work[15], numbers[5];
    uint64_t index[22], counts[3] = {7, 7, 7};
    sevens(answers, 8); sevens(work, 15); sevens(numbers, 5);
    SAME(iisph_step_lent(scene, len, answers, 8, work, 15, index, 22, numbers, 3, counts, 3) == 99);
    SAME(iisph_step_lent(scene, len, answers, 8, work, 15, index, 22, numbers, 5, counts, 1) == 99);
    SAME(counts[0] == 7 && counts[1] == 7);

    /* 1 and 8 come before 98 */
    SAME(iisph_step_lent(scene, 51, answers, 8, work, 15, NULL, 0, numbers, 5, counts, 3) == 101);
    SAME(counts[0] == 7 && counts[1] == 44);
    SAME(iisph_step_lent(scene, len, answers, 6, work, 15, NULL, 0, numbers, 5, counts, 3) == 108);
    SAME(counts[0] == 7 && counts[1] == 0);

    counts[1] = 7;
    SAME(iisph_step_lent(scene, len, answers, 8, work, 15, NULL, 0, numbers, 5, counts, 3) == 98);
    SAME(counts[0] == 4 + 16 * 1 + 2 * 1 && counts[0] == sizeof index / sizeof *index);
    SAME(iisph_step_lent(scene, len, answers, 8, work, 15, index, counts[0] - 1, numbers, 5, counts, 3) == 98);
    SAME(counts[0] == 22 && counts[1] == 7 && counts[2] == 7);
    SAME(all_sevens(answers, 8) && all_sevens(work, 15) && all_sevens(numbers, 5));

    SAME(iisph_step_lent(scene, len, answers, 8, work, 15, index, counts[0], numbers, 5, counts, 3) == 1);
    SAME(memcmp(answers, expected, sizeof expected) == 0);
    SAME(memcmp(numbers, expected_numbers, sizeof expected_numbers) == 0);
    SAME(counts[0] == 2 && counts[1] == 0 && counts[2] == 7);
    for (int k = 0; k < 14; k++) SAME(work[k] == 0 && !signbit(work[k]));
    SAME(work[14] == 7);
    return 0;
}

enum { FLUID_FLUID, FLUID_BOUNDARY, BOUNDARY_BOUNDARY, NO_CONTACTS };

/* fluids of 2 and 1 particles, boundaries of 1, 3 and 0; each contact names the last particle of a model, and one of
   the other kind with that name is not there */
static void scene_of_lists(void) {
    const unsigned drop = 0x0001, stone = 0x1002;
    pack_header(2, 3);
    pack_fluid_head(2); pack_drop(3, drop, 2, stone); pack_drop(0, drop, 1, stone);
    pack_fluid_head(1); pack_drop(1, drop, 0, stone);
    pack_boundary_head(1, 1); pack_stone(1, 3, stone);
    pack_boundary_head(0, 3); pack_stone(0, 1, stone); pack_stone(0, 0, stone); pack_stone(0, 2, stone);
    pack_boundary_head(0, 0);
}

/* its contact lists: whose, how many contacts, and where these begin */
static const struct { uint64_t contacts; size_t model, particle; uint64_t count, first; } lists[] = {
    {FLUID_FLUID, 0, 0, 3, 152}, {FLUID_BOUNDARY, 0, 0, 2, 254},
    {FLUID_FLUID, 0, 1, 0, 412}, {FLUID_BOUNDARY, 0, 1, 1, 412},
    {FLUID_FLUID, 1, 0, 1, 546}, {FLUID_BOUNDARY, 1, 0, 0, 580},
    {BOUNDARY_BOUNDARY, 0, 0, 3, 631},
    {BOUNDARY_BOUNDARY, 1, 0, 1, 688}, {BOUNDARY_BOUNDARY, 1, 1, 0, 723}, {BOUNDARY_BOUNDARY, 1, 2, 2, 748},
};

enum { LISTS = sizeof lists / sizeof *lists, NO_LIST = LISTS, NOBODIES = 5 };

/* names of nobody: no such model, twice, and no such particle, three times */
static const unsigned no_drop[NOBODIES] = {0x2000, 0xF000, 0x0002, 0x0FFF, 0x1001};
static const unsigned no_stone[NOBODIES] = {0x3000, 0xF000, 0x1003, 0x1FFF, 0x2000};

static void overwrite(size_t at, unsigned v) {
    const size_t whole = len;
    len = at;
    two_bytes(v);
    len = whole;
}

/* where contact k of a list begins */
static size_t contact_at(int list, uint64_t k) {
    return lists[list].first + k * (lists[list].contacts == BOUNDARY_BOUNDARY ? 10 : 34);
}

static void name_nobody(int list, uint64_t contact, int n) {
    overwrite(contact_at(list, contact), lists[list].contacts == FLUID_FLUID ? no_drop[n] : no_stone[n]);
}

/* whether a check answers so, with a list of sevens in which it writes these two */
static int told(uint64_t contacts, size_t model, size_t particle, uint64_t code, uint64_t looks, uint64_t offset) {
    uint64_t counts[3] = {7, 7, 7};
    return iisph_check_list(scene, len, contacts, model, particle, counts, 3) == code
        && counts[0] == looks && counts[1] == offset && counts[2] == 7;
}

static int told_of(int list, uint64_t code, uint64_t looks, uint64_t offset) {
    return told(lists[list].contacts, lists[list].model, lists[list].particle, code, looks, offset);
}

/* whether all lists but one pass, each contact looked at */
static int pass_but(int refused) {
    for (int k = 0; k < LISTS; k++)
        if (k != refused && !told_of(k, 0, lists[k].count, 7)) return 0;
    return 1;
}

/* a contact that names nobody, each in turn: refused there, and so is no other list, before it or behind it */
static int refused_contacts(void) {
    for (int list = 0; list < LISTS; list++)
        for (uint64_t k = 0; k < lists[list].count; k++)
            for (int n = 0; n < NOBODIES; n++) {
                scene_of_lists();
                name_nobody(list, k, n);
                SAME(told_of(list, 107, k + 1, contact_at(list, k)));
                SAME(pass_but(list));
            }
    return 0;
}

/* all contacts at once: each list is refused at its first, a step at the first of all */
static int refused_lists(void) {
    uint64_t counts[2];
    scene_of_lists();
    for (int list = 0; list < LISTS; list++)
        for (uint64_t k = 0; k < lists[list].count; k++) name_nobody(list, k, 0);
    for (int list = 0; list < LISTS; list++)
        SAME(lists[list].count ? told_of(list, 107, 1, lists[list].first) : told_of(list, 0, 0, 7));
    SAME(iisph_needed(scene, len, counts, 2) == 107 && counts[1] == lists[0].first);
    return 0;
}

/* the fields come before all contacts, and before it is known whether there is such a list */
static int refused_fields(void) {
    static const struct { size_t at; unsigned bytes; uint64_t code; } fields[] = {
        {0, 0x3230, 102}, {0, 0x1930, 103}, {52, 4097, 104}, {54, 0x7FF0, 106},
    };
    for (size_t k = 0; k < sizeof fields / sizeof *fields; k++) {
        scene_of_lists();
        name_nobody(0, 0, 0);
        overwrite(fields[k].at, fields[k].bytes);
        SAME(told_of(0, fields[k].code, 7, fields[k].at));
        SAME(told(FLUID_FLUID, 2, 0, fields[k].code, 7, fields[k].at));
        SAME(told(NO_CONTACTS, 0, 0, 97, 7, 7));
    }
    scene_of_lists();
    const size_t whole = len, last_head = whole - 2;
    len = whole - 1;
    SAME(told_of(0, 101, 7, last_head) && told(BOUNDARY_BOUNDARY, 3, 0, 101, 7, last_head));
    len = whole + 1;
    SAME(told_of(0, 105, 7, whole) && told(FLUID_BOUNDARY, 0, 2, 105, 7, whole));
    len = 0;
    SAME(told_of(0, 101, 7, 0) && told(NO_CONTACTS, 0, 0, 97, 7, 7));
    return 0;
}

static int no_such_list(void) {
    static const struct { uint64_t contacts; size_t model, particle; } none[] = {
        {NO_CONTACTS, 0, 0}, {UINT64_MAX, 0, 0}, {1ull << 32, 0, 0},
        {FLUID_FLUID, 2, 0}, {FLUID_BOUNDARY, 2, 0}, {BOUNDARY_BOUNDARY, 3, 0}, {FLUID_FLUID, SIZE_MAX, 0},
        {FLUID_FLUID, 0, 2}, {FLUID_BOUNDARY, 0, 2}, {FLUID_FLUID, 1, 1}, {FLUID_BOUNDARY, 0, SIZE_MAX},
        {BOUNDARY_BOUNDARY, 0, 1}, {BOUNDARY_BOUNDARY, 1, 3}, {BOUNDARY_BOUNDARY, 2, 0},
    };
    scene_of_lists();
    for (size_t k = 0; k < sizeof none / sizeof *none; k++)
        SAME(told(none[k].contacts, none[k].model, none[k].particle, 97, 7, 7));
    return 0;
}

static int contact_lists(void) {
    uint64_t counts[1] = {7};
    scene_of_lists();
    SAME(len == 770);
    SAME(pass_but(NO_LIST));
    SAME(iisph_check_list(scene, len, FLUID_FLUID, 0, 0, counts, 1) == 99 && counts[0] == 7);
    SAME(iisph_check_list(NULL, 0, NO_CONTACTS, 0, 0, NULL, 0) == 99);
    return refused_contacts() || refused_lists() || refused_fields() || no_such_list();
}

/* the weight shape in whole numbers: on entries of its table, between them, rounded down, and beyond */
static int board_weights(void) {
    static const struct { uint32_t q, shape; } worked[] = {
        {0, 1 << 30}, {1, 1073741818}, {511, 1073738760}, {1023, 1073735691}, {1024, 1073735686},
        {(1 << 19) - 1, 268436994}, {1 << 19, 1 << 28}, {(1 << 19) + 1, 268433922}, {3 << 18, 1 << 25},
        {(1 << 20) - 1024, 2}, {(1 << 20) - 512, 1}, {(1 << 20) - 511, 0}, {(1 << 20) - 1, 0},
        {1 << 20, 0}, {1u << 31, 0}, {UINT32_MAX, 0},
    };
    for (size_t k = 0; k < sizeof worked / sizeof *worked; k++)
        SAME(iisph_board_weight(worked[k].q) == worked[k].shape);
    return 0;
}

typedef uint64_t kernel_function(double r, double h, double *out, size_t out_len);

/* of the radius 1, whose normalizer is given: the shapes at 0.5 are 0.25 and -1.5 */
static int kernel(kernel_function *weight, kernel_function *slope, double normalizer) {
    double out[2] = {7, 7};
    SAME(weight(0.5, 1, out, 0) == 99 && slope(0.5, 1, NULL, 0) == 99 && out[0] == 7);
    SAME(weight(0.5, 1, out, 2) == 0 && out[0] == normalizer * 0.25 && out[1] == 7);
    SAME(slope(0.5, 1, out, 2) == 0 && out[0] == normalizer * -1.5);
    SAME(weight(-1, 0, out, 2) == 111 && slope(1, 0, out, 2) == 112 && out[0] == normalizer * -1.5);
    SAME(weight(-0.0, 1, out, 2) == 0 && out[0] == normalizer);
    return 0;
}

int main(void) {
    double answers[8], work[15], numbers[5], clock[5] = {0.25, 7, 7, 3, 7};
    uint64_t counts[3] = {7, 7, 7};
    sevens(answers, 8); sevens(work, 15); sevens(numbers, 5);
    if (contact_lists() || board_weights()) return 1;
    scene_a();
    if (lent_step()) return 1;

    /* too short: nothing is written */
    SAME(iisph_step(scene, len, answers, 8, work, 15, numbers, 3, counts, 3) == 99);
    SAME(iisph_step(scene, len, answers, 8, work, 15, numbers, 5, counts, 1) == 99);
    SAME(iisph_step_keeping(scene, len, clock, 3, answers, 8, work, 15, numbers, 5, counts, 3) == 99);
    SAME(iisph_step_keeping(scene, len, clock, 5, answers, 8, work, 15, numbers, 3, counts, 3) == 99);
    SAME(iisph_needed(scene, len, counts, 1) == 99);
    SAME(iisph_validate(scene, len, work, 15, counts, 1) == 99);
    SAME(answers[0] == 7 && work[0] == 7 && numbers[0] == 7 && counts[0] == 7 && counts[1] == 7);

    /* refused: 8, then 1 */
    SAME(iisph_step(scene, len, answers, 6, work, 15, numbers, 5, counts, 3) == 108);
    SAME(counts[0] == 7 && counts[1] == 0 && answers[0] == 7 && work[0] == 7 && numbers[0] == 7);
    SAME(iisph_step_keeping(scene, len, clock, 5, answers, 6, work, 15, numbers, 5, counts, 3) == 108);
    static const double as_it_was[5] = {0.25, 7, 7, 3, 7};
    SAME(memcmp(clock, as_it_was, sizeof as_it_was) == 0);
    SAME(iisph_step(scene, 51, NULL, 0, NULL, 0, numbers, 5, counts, 3) == 101 && counts[1] == 44);
    SAME(iisph_step(NULL, 0, NULL, 0, NULL, 0, numbers, 5, counts, 3) == 101 && counts[1] == 0);
    SAME(iisph_needed(scene, 51, counts, 3) == 101 && counts[0] == 7 && counts[1] == 44);
    SAME(iisph_validate(scene, 51, work, 15, counts, 3) == 101 && counts[0] == 7 && counts[1] == 44);
    SAME(iisph_validate(scene, len, work, 13, counts, 3) == 108 && counts[0] == 7 && counts[1] == 0);
    SAME(work[0] == 7);

    /* done */
    SAME(iisph_needed(scene, len, counts, 3) == 0 && counts[0] == 7 && counts[1] == 14 && counts[2] == 7);
    SAME(iisph_validate(scene, len, work, 15, counts, 3) == 0 && work[0] == 0 && work[14] == 7);
    SAME(counts[0] == 7 && counts[1] == 14 && counts[2] == 7);
    SAME(iisph_step(scene, len, answers, 8, work, 15, numbers, 5, counts, 3) == 1);
    SAME(memcmp(answers, expected, sizeof expected) == 0);
    SAME(memcmp(numbers, expected_numbers, sizeof expected_numbers) == 0);
    SAME(counts[0] == 2 && counts[1] == 0 && counts[2] == 7);
    for (int k = 0; k < 14; k++) SAME(work[k] == 0 && !signbit(work[k]));
    SAME(work[14] == 7);

    /* the same with a clock that is kept: it is moved on by its own step length */
    SAME(iisph_step_keeping(scene, len, clock, 5, answers, 8, work, 15, numbers, 5, counts, 3) == 1);
    static const double moved_on[5] = {0.25, 0.25, 4, 2.75, 7};
    SAME(memcmp(clock, moved_on, sizeof moved_on) == 0);
    SAME(memcmp(answers, expected, sizeof expected) == 0);
    SAME(memcmp(numbers, expected_numbers, sizeof expected_numbers) == 0);
    SAME(counts[0] == 2 && counts[1] == 0 && counts[2] == 7);
    if (endings() || summation() || flat_scenes()) return 1;
    if (kernel(iisph_weight, iisph_slope, 8 / 3.141592653589793)) return 1;
    if (kernel(iisph_weight_2d, iisph_slope_2d, 40.0 / 7 / 3.141592653589793)) return 1;
    puts("ok");
    return 0;
}
