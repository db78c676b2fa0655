/* How the iterations end, for smoke.c: by all three steps, under all rules, in space and in the plane; and which
   versions and rules are refused. summation.h has what the rules by halves do otherwise. */
#ifndef ENDINGS_H
#define ENDINGS_H

#include "iisph.h"
#include "packing.h"
#include "same.h"
#include <math.h>

enum { UNSWEPT, SETTLED, RAN_OUT };

/* in every list for the scenes of endings.h and summation.h */
enum { ROOM = 96 };

static double last_answers[ROOM];

/* one fluid and so many boundaries, no gravity; the step length is 1 */
static void pack_still(unsigned version, unsigned rule, unsigned boundaries, unsigned least, unsigned most,
                       double limit) {
    pack_form(version, rule, 1, boundaries);
    byte(least); byte(most);
    real(1); real(1); real(limit); vector(0, 0, 0);
}

/* a particle that touches the one of that name */
static void pack_moving(double speed, double warm, unsigned named, double gradient) {
    vector(0, 0, 0); vector(speed, 0, 0); vector(0, 0, 0);
    real(1); real(warm); byte(1); byte(0);
    two_bytes(named); real(1); vector(gradient, 0, 0);
}

/* scene B, with a warm pressure w: the first iteration makes both pressures right. Its error is 1 + w under rules 0 and
   2, and 1 - w under 1 and 3; those that follow have 2 and 0 */
static void scene_b(unsigned version, unsigned rule, unsigned least, double warm, double limit) {
    pack_still(version, rule, 0, least, 50, limit);
    two_bytes(2); real(1);
    pack_moving(1, warm, 1, 1);
    pack_moving(-1, warm, 0, -1);
}

/* one particle whose warm pressure makes the average of its fluid no number in the first iteration, and the pressure 0
   in the second */
static void scene_overflowing(unsigned version, unsigned rule, unsigned least, unsigned most) {
    pack_still(version, rule, 0, least, most, 0.05);
    two_bytes(1); real(1);
    pack_moving(0, 1e308, 0, 2);
}

/* -0 is not +0 */
static int same_number(double a, double b) { return isnan(a) ? isnan(b) : a == b && !signbit(a) == !signbit(b); }

/* whether all three steps on the scene end so; its answers are then in last_answers */
static int end(uint64_t ending, uint64_t iterations, double error, uint64_t passed_over) {
    double *answers = last_answers, work[ROOM], clock[4] = {0.25, 7, 7, 3};
    uint64_t index[ROOM];
    for (int way = 0; way < 3; way++) {
        double numbers[4] = {7, 7, 7, 7};
        uint64_t counts[3] = {7, 7, 7}, told;
        told = way == 0 ? iisph_step(scene, len, answers, ROOM, work, ROOM, numbers, 4, counts, 3)
             : way == 1 ? iisph_step_lent(scene, len, answers, ROOM, work, ROOM, index, ROOM, numbers, 4, counts, 3)
             : iisph_step_keeping(scene, len, clock, 4, answers, ROOM, work, ROOM, numbers, 4, counts, 3);
        if (told != ending || counts[0] != iterations || counts[1] != passed_over || counts[2] != 7) return 0;
        if (!same_number(numbers[0], error)) return 0;
    }
    return 1;
}

/* scene B is at rest after its step, and both pressures are right */
static int at_rest(void) {
    const unsigned row = 2 * axes + 1;
    for (unsigned k = 0; k < 2 * row; k += row) SAME(last_answers[k + axes] == 0 && last_answers[k + 2 * axes] == 0.5);
    return 0;
}

/* the rules of both criteria, in order and by halves */
static const struct { unsigned salva, ihmsen; } summations[] = {
    {IISPH_RULE_SALVA, IISPH_RULE_IHMSEN2014}, {IISPH_RULE_SALVA_BY_HALVES, IISPH_RULE_IHMSEN2014_BY_HALVES},
};

enum { SUMMATIONS = sizeof summations / sizeof *summations };

/* by salva's criterion scene B does not settle though its pressures are right; by Ihmsen's it does, and meets a
   negative limit */
static int criteria(unsigned version, unsigned salva, unsigned ihmsen) {
    scene_b(version, salva, 1, 0, 0.05);
    SAME(end(RAN_OUT, 50, 2, 0) && !at_rest());
    scene_b(version, ihmsen, 1, 0, 0.05);
    SAME(end(SETTLED, 2, 0, 0) && !at_rest());

    scene_b(version, salva, 0, 8, -7);
    SAME(end(RAN_OUT, 50, 2, 0));
    scene_b(version, ihmsen, 0, 8, -7);
    SAME(end(SETTLED, 1, -7, 0));
    scene_b(version, ihmsen, 0, 8, -7.5);
    SAME(end(RAN_OUT, 50, 0, 0));
    return 0;
}

/* that an average was passed over, by salva's criterion, is told of the last iteration alone */
static int passed_over(unsigned version, unsigned rule) {
    scene_overflowing(version, rule, 1, 0);
    SAME(end(UNSWEPT, 0, 0, 0));
    scene_overflowing(version, rule, 1, 1);
    SAME(end(RAN_OUT, 1, 0, 1));
    scene_overflowing(version, rule, 1, 2);
    SAME(end(SETTLED, 2, 0, 0));
    scene_overflowing(version, rule, 0, 2);
    SAME(end(SETTLED, 1, 0, 1));
    return 0;
}

/* by Ihmsen's none is passed over: the error is no number, and the iteration does not settle */
static int no_number(unsigned version, unsigned rule) {
    scene_overflowing(version, rule, 0, 0);
    SAME(end(UNSWEPT, 0, 0, 0));
    scene_overflowing(version, rule, 0, 1);
    SAME(end(RAN_OUT, 1, NAN, 0));
    scene_overflowing(version, rule, 0, 2);
    SAME(end(SETTLED, 2, 0, 0));
    return 0;
}

/* version 1 has one rule */
static int one_rule(void) {
    scene_b(IISPH_VERSION_1, IISPH_RULE_SALVA, 1, 0, 0.05);
    SAME(end(RAN_OUT, 50, 2, 0) && !at_rest());
    SAME(!passed_over(IISPH_VERSION_1, IISPH_RULE_SALVA));
    return 0;
}

/* and versions 2 and 4 have all */
static int all_rules(unsigned version) {
    for (int k = 0; k < SUMMATIONS; k++) {
        SAME(!criteria(version, summations[k].salva, summations[k].ihmsen));
        SAME(!passed_over(version, summations[k].salva) && !no_number(version, summations[k].ihmsen));
    }
    return 0;
}

/* the version comes before the fluids, the boundaries before the rule */
static int refused_forms(void) {
    static const struct { unsigned version, rule, fluids, boundaries; uint64_t code, offset; } forms[] = {
        {0, 0, 0, 0, 102, 0}, {3, 0, 9, 0, 102, 0}, {2, 4, 9, 9, 103, 0}, {1, 1, 0, 9, 103, 1}, {2, 4, 0, 9, 103, 1},
        {1, 1, 0, 8, 102, 1}, {1, 2, 0, 8, 102, 1}, {1, 3, 0, 0, 102, 1}, {2, 4, 0, 8, 102, 1}, {2, 15, 0, 0, 102, 1},
        {5, 0, 0, 0, 102, 0}, {4, 4, 9, 0, 103, 0}, {4, 4, 0, 9, 103, 1}, {4, 4, 0, 8, 102, 1}, {4, 15, 0, 0, 102, 1},
    };
    for (size_t k = 0; k < sizeof forms / sizeof *forms; k++) {
        double answers[1], work[1], numbers[4];
        uint64_t counts[2] = {7, 7};
        pack_form(forms[k].version, forms[k].rule, forms[k].fluids, forms[k].boundaries);
        SAME(iisph_step(scene, len, answers, 1, work, 1, numbers, 4, counts, 2) == forms[k].code);
        SAME(counts[0] == 7 && counts[1] == forms[k].offset);
    }
    return 0;
}

static int endings(void) { return one_rule() || all_rules(IISPH_VERSION_2) || refused_forms(); }

#endif
