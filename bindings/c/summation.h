/* How errors are summed, for smoke.c: on terms that one summation loses and the other does not; an error of -0; and the
   work list that each rule needs. */
#ifndef SUMMATION_H
#define SUMMATION_H

#include "endings.h"
#include <float.h>

enum { RULES = 4 };

static int by_halves(unsigned rule) { return rule >= IISPH_RULE_SALVA_BY_HALVES; }

/* a particle that touches the one stone alone. Where volume and the stone's weight are 1 over the rest density, both
   masses are 1 and so is its density, and its aii is -2 */
static void pack_at_stone(double speed, double volume, double warm) {
    vector(0, 0, 0); vector(speed, 0, 0); vector(0, 0, 0);
    real(volume); real(warm); byte(0); byte(1);
    two_bytes(0); real(1); vector(1, 0, 0);
}

static void pack_one_stone(double weight) {
    pack_boundary_head(0, 1);
    vector(0, 0, 0);
    byte(1); two_bytes(0); real(weight);
}

/* particles that run into the stone with these speeds: in the first iteration their terms are half of them, under every
   rule */
static void pack_running(unsigned rule, unsigned most, double limit, const double *speeds, unsigned n) {
    pack_still(2, rule, 1, 0, most, limit);
    two_bytes(n); real(1);
    for (unsigned k = 0; k < n; k++) pack_at_stone(speeds[k], 1, 0);
    pack_one_stone(1);
}

/* a term that is lost beside 2, and the speed that it comes from */
#define LOST DBL_EPSILON
#define SLOW (2 * LOST)

/* speeds, and what their terms make in order and by halves */
static const struct { double speeds[5]; unsigned n; double in_order, by_halves; } sums[] = {
    {{4}, 1, 2, 2},
    {{4, SLOW}, 2, 2, 2},
    {{4, SLOW, SLOW}, 3, 2, 2 + 2 * LOST},
    {{SLOW, SLOW, 4}, 3, 2 + 2 * LOST, 2},
    {{4, SLOW, SLOW, SLOW}, 4, 2, 2 + 2 * LOST},
    {{4, SLOW, SLOW, SLOW, SLOW}, 5, 2, 2 + 4 * LOST},
};

static int errors(void) {
    for (size_t k = 0; k < sizeof sums / sizeof *sums; k++) {
        double first[ROOM];
        for (unsigned rule = 0; rule < RULES; rule++) {
            pack_running(rule, 1, 0, sums[k].speeds, sums[k].n);
            SAME(end(RAN_OUT, 1, (by_halves(rule) ? sums[k].by_halves : sums[k].in_order) / sums[k].n, 0));
            if (rule == 0) memcpy(first, last_answers, sizeof first);
            SAME(memcmp(first, last_answers, sizeof first) == 0);
        }
    }
    return 0;
}

/* a limit that is met in order and not by halves, so that there is a second iteration */
static int one_more(void) {
    static const double speeds[] = {4, SLOW, SLOW, SLOW};
    pack_running(IISPH_RULE_SALVA, 2, 0.5, speeds, 4);
    SAME(end(SETTLED, 1, 0.5, 0));
    pack_running(IISPH_RULE_IHMSEN2014, 2, 0.5, speeds, 4);
    SAME(end(SETTLED, 1, 0.5, 0));
    pack_running(IISPH_RULE_SALVA_BY_HALVES, 2, 0.5, speeds, 4);
    SAME(end(RAN_OUT, 2, 0.75 + LOST, 0));
    pack_running(IISPH_RULE_IHMSEN2014_BY_HALVES, 2, 0.5, speeds, 4);
    SAME(end(SETTLED, 2, 0.25, 0));
    return 0;
}

/* a negative rest density, and the pressure with which the density is that: the term is 0 / -1 by Ihmsen's criterion,
   and -2 by salva's */
static void scene_minus_zero(unsigned rule, double limit) {
    pack_still(2, rule, 1, 1, 50, limit);
    two_bytes(1); real(-1);
    pack_at_stone(0, -1, 2);
    pack_one_stone(-1);
}

static int minus_zero(void) {
    for (unsigned rule = 0; rule < RULES; rule++) {
        const double error = rule == IISPH_RULE_IHMSEN2014_BY_HALVES ? -0.0 : 0.0;
        scene_minus_zero(rule, 0);
        SAME(end(SETTLED, 2, error, 0));
        scene_minus_zero(rule, -0.0);
        SAME(end(SETTLED, 2, error, 0));
    }
    return 0;
}

/* whether of a list of sevens the first n are now +0 and the others as they were */
static int cleared(const double *work, size_t n) {
    for (size_t k = 0; k < ROOM; k++) SAME(k < n ? work[k] == 0 && !signbit(work[k]) : work[k] == 7);
    return 0;
}

/* what each step and a validation say with a work list of this length, and how much of it they clear */
static int worked(size_t length, uint64_t code, size_t clears) {
    double a[ROOM], work[ROOM], n[4], clock[4] = {0.25, 7, 7, 3};
    uint64_t index[ROOM], c[2], told;
    for (int way = 0; way < 4; way++) {
        for (int k = 0; k < ROOM; k++) work[k] = 7;
        told = way == 0 ? iisph_step(scene, len, a, ROOM, work, length, n, 4, c, 2)
             : way == 1 ? iisph_step_lent(scene, len, a, ROOM, work, length, index, ROOM, n, 4, c, 2)
             : way == 2 ? iisph_step_keeping(scene, len, clock, 4, a, ROOM, work, length, n, 4, c, 2)
             : iisph_validate(scene, len, work, length, c, 2);
        SAME(told == (way == 3 && code < 100 ? 0 : code));
        SAME(!cleared(work, clears));
    }
    return 0;
}

/* the lengths told for so many particles and the stone; with one double more all that is needed is cleared, and with
   one less nothing is touched */
static int lists_for(unsigned particles, unsigned rule, uint64_t code) {
    uint64_t counts[2];
    SAME(iisph_needed(scene, len, counts, 2) == 0);
    SAME(counts[0] == 7 * particles + 1 && counts[1] == (by_halves(rule) ? 15 : 14) * particles + 1);
    SAME(!worked(counts[1] + 1, code, counts[1]));
    SAME(!worked(counts[1], code, counts[1]));
    SAME(!worked(counts[1] - 1, 108, 0));
    return 0;
}

/* done with and without iterations, and refused by 9, as the stone has no mass, and by 10 */
static int work_lists(void) {
    static const double speeds[] = {4, SLOW, SLOW}, away[] = {1, -1};
    for (unsigned rule = 0; rule < RULES; rule++) {
        pack_running(rule, 2, 0, speeds, 3);
        SAME(!lists_for(3, rule, RAN_OUT));
        pack_running(rule, 0, 0, speeds, 3);
        SAME(!lists_for(3, rule, UNSWEPT));
        pack_still(2, rule, 1, 0, 2, 0);
        two_bytes(1); real(1); pack_at_stone(0, 1, 0); pack_one_stone(0);
        SAME(!lists_for(1, rule, 109));
        pack_running(rule, 2, 0, away, 2);
        SAME(!lists_for(2, rule, 110));
    }
    return 0;
}

static int summation(void) { return errors() || one_more() || minus_zero() || work_lists(); }

#endif
