/* Packs a scene for the C programs here, field by field as include/iisph.h has them: `scene`, of `len` bytes. */
#ifndef PACKING_H
#define PACKING_H

#include "iisph.h"
#include <stddef.h>
#include <stdint.h>
#include <string.h>

/* the largest scene's 8 x 4096 particles of each kind, with room to spare */
static uint8_t scene[8 << 20];
static size_t len;

static void byte(unsigned v) { scene[len++] = (uint8_t)v; }

static void two_bytes(unsigned v) {
    byte(v >> 8);
    byte(v & 255);
}

static void real(double v) {
    uint64_t bits;
    memcpy(&bits, &v, 8);
    for (int k = 56; k >= 0; k -= 8) byte((unsigned)(bits >> k) & 255);
}

/* how many axes a scene has: with two it lies in the plane of x and z */
static unsigned axes = 3;

static void vector(double x, double y, double z) {
    real(x);
    if (axes == 3) real(y);
    real(z);
}

/* the first two bytes of a scene: its version and rule, and how many fluids and boundaries there are */
static void pack_form(unsigned version, unsigned rule, unsigned fluids, unsigned boundaries) {
    len = 0;
    byte(version << 4 | fluids); byte(boundaries << 4 | rule);
}

/* the header of version 1, or of a flat scene, of so many fluids and boundaries */
static void pack_header(unsigned fluids, unsigned boundaries) {
    pack_form(axes == 3 ? IISPH_VERSION_1 : IISPH_VERSION_FLAT, IISPH_RULE_SALVA, fluids, boundaries);
    byte(1); byte(50);
    real(0.5); real(1); real(0.05); vector(0, 0, -4);
}

static void pack_fluid_head(unsigned particles) { two_bytes(particles); real(2); }

static void pack_boundary_head(int keeps_forces, unsigned particles) {
    two_bytes((keeps_forces ? 0x8000 : 0) | particles);
}

/* scene A's particle, which touches the fluid particle and the boundary particle of those names, each so many times */
static void pack_drop(unsigned near, unsigned drop, unsigned walls, unsigned stone) {
    for (int k = 0; k < 3; k++) vector(0, 0, 0);
    real(0.5); real(0); byte(near); byte(walls);
    for (; near > 0; near--) { two_bytes(drop); real(2); vector(0, 0, 0); }
    for (; walls > 0; walls--) { two_bytes(stone); real(0); vector(0, 0, 0.125); }
}

/* a boundary particle that touches the one of that name so many times */
static void pack_stone(int keeps_forces, unsigned near, unsigned stone) {
    vector(0, 0, 0);
    if (keeps_forces) vector(0, 0, 0);
    byte(near);
    for (; near > 0; near--) { two_bytes(stone); real(4); }
}

/* drops that touch themselves, and the first stone of the first boundary if there is one */
static void pack_fluid(unsigned model, unsigned particles, int stones) {
    pack_fluid_head(particles);
    for (unsigned k = 0; k < particles; k++) pack_drop(1, model << 12 | k, stones, 0);
}

/* stones that touch themselves, of a boundary that keeps its forces */
static void pack_boundary(unsigned model, unsigned particles) {
    pack_boundary_head(1, particles);
    for (unsigned k = 0; k < particles; k++) pack_stone(1, 1, model << 12 | k);
}

/* so many fluids and boundaries, with so many particles in each */
static void pack_scene(unsigned fluids, unsigned boundaries, unsigned particles) {
    pack_header(fluids, boundaries);
    for (unsigned model = 0; model < fluids; model++) pack_fluid(model, particles, boundaries > 0);
    for (unsigned model = 0; model < boundaries; model++) pack_boundary(model, particles);
}

#endif
