/* Scenes in the plane, for smoke.c: scene A by all three steps, the lists that each rule needs, a wall that keeps its
   forces, and how the iterations end. */
#ifndef FLAT_H
#define FLAT_H

#include "endings.h"

/* scene A in the plane; its header is one double shorter, and so is each vector */
static int flat_scene_a(void) {
    static const double expected[6] = {0, -1, 0, -2, 0, 7};
    uint64_t counts[3] = {7, 7, 7};
    pack_scene(1, 0, 1);
    SAME(len == 44 + 10 + 66 + 26);
    SAME(iisph_needed(scene, 43, counts, 3) == 101 && counts[0] == 7 && counts[1] == 36);
    SAME(iisph_needed(scene, len, counts, 3) == 0 && counts[0] == 5 && counts[1] == 11 && counts[2] == 7);
    last_answers[5] = 7;
    SAME(end(SETTLED, 2, 0, 0) && memcmp(last_answers, expected, sizeof expected) == 0);
    for (unsigned rule = 0; rule < 4; rule++) {
        scene[1] = (uint8_t)rule;
        SAME(iisph_needed(scene, len, counts, 3) == 0 && counts[0] == 5);
        SAME(counts[1] == (rule < IISPH_RULE_SALVA_BY_HALVES ? 11 : 12));
    }
    return 0;
}

enum { DROPS = 2, STONES = 3 };

/* warm drops that touch themselves and press on the first of some stones */
static void pack_pressed(void) {
    pack_still(axes == 3 ? IISPH_VERSION_2 : IISPH_VERSION_FLAT, IISPH_RULE_SALVA, 1, 0, 0, 0.05);
    two_bytes(DROPS); real(1);
    for (unsigned k = 0; k < DROPS; k++) {
        vector(k, 0, 0); vector(0, 0, k); vector(0, 0, 0);
        real(1); real(4); byte(1); byte(1);
        two_bytes(k); real(1); vector(0, 0, 0);
        two_bytes(0); real(0); vector(0.5, 0, 1);
    }
    pack_boundary(0, STONES);
}

/* a scene without y has the same answers in the plane: 5 for 7 doubles of a drop, 3 for 4 of a stone */
static int flat_wall(void) {
    double in_space[ROOM];
    uint64_t counts[2];
    axes = 3;
    pack_pressed();
    SAME(iisph_needed(scene, len, counts, 2) == 0 && counts[0] == 7 * DROPS + 4 * STONES);
    SAME(end(UNSWEPT, 0, 0, 0));
    memcpy(in_space, last_answers, sizeof in_space);
    SAME(in_space[7 * DROPS + 1] != 0 && in_space[7 * DROPS + 3] != 0);
    axes = 2;
    pack_pressed();
    SAME(iisph_needed(scene, len, counts, 2) == 0);
    SAME(counts[0] == 5 * DROPS + 3 * STONES && counts[1] == 11 * DROPS + STONES);
    SAME(end(UNSWEPT, 0, 0, 0));
    const double *flat = last_answers, *space = in_space;
    for (int k = 0; k < DROPS; k++, flat += 5, space += 7) {
        SAME(flat[0] == space[0] && flat[1] == space[2] && space[1] == 0);
        SAME(flat[2] == space[3] && flat[3] == space[5] && space[4] == 0);
        SAME(flat[4] == space[6]);
    }
    for (int k = 0; k < STONES; k++, flat += 3, space += 4) {
        SAME(flat[0] == space[0] && flat[0] == 0.25);
        SAME(flat[1] == space[1] && flat[2] == space[3] && space[2] == 0);
    }
    return 0;
}

static int flat_scenes(void) {
    axes = 2;
    const int differs = flat_scene_a() || flat_wall() || all_rules(IISPH_VERSION_FLAT);
    axes = 3;
    return differs;
}

#endif
