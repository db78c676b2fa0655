/* The C interface: one proved IISPH pressure step over a packed scene, and the smoothing kernel.

   Build and link (x86-64 Linux; the archive needs no other library):
       (cd crates/iisph_c && rt lib)
       gcc -Iinclude program.c crates/iisph_c/out/libiisph_c.a -o program
   iisph_check_list and iisph_board_weight have an archive each, made and linked likewise:
       (cd crates/iisph_c_lists && rt lib)
       (cd crates/iisph_c_board && rt lib)

   Every function is total: it takes any bytes, any numbers and any lengths, and ends. A list of n
   elements is passed as a pointer and n; the pointer may be null if n is 0, and is aligned for its
   type. Lists that a call writes must not overlap each other or the scene. Nothing is allocated and
   nothing is kept between calls, so calls with lists of their own may run at the same time. What
   each takes of the stack is told below, as bindings/c/stack.c measures it.

   A packed scene has its fields most significant bit first, doubles as their 64 bits:
       header      version (4 bits, 1, 2 or 4), fluids (4 bits, 0 to 8); boundaries (4 bits, 0 to
                   8), rule (4 bits, 0, in versions 2 and 4 up to 3); least iterations (1 byte);
                   most iterations (1 byte); step length, remaining time, error limit, gravity (3):
                   52 bytes in all
       each fluid  count (2 bytes, 0 to 4096), rest density; then records: position, velocity,
                   acceleration (3 doubles each), volume, warm pressure, the numbers of fluid and of
                   boundary contacts (1 byte each), and those contacts: model (4 bits), particle
                   (12 bits), weight, gradient (3)
       each boundary  keeps forces (1 bit), count (15 bits, 0 to 4096); then records: velocity,
                   force (only if kept), the number of contacts (1 byte), and those contacts, to
                   boundaries: model (4 bits), particle (12 bits), weight
   A scene of version 4 is flat: a vector, which has 3 doubles above and in the answer list below,
   has 2, so that the header has 44 bytes. Version 4 is laid out as version 2 otherwise.

   The rule names the error that has to be at most the error limit for the iterations to end: its
   stopping criterion, and how it is summed. Each error is an average over the particles of a fluid,
   in which one whose pressure becomes 0 counts as 0, and of the fluids' averages the greatest. An
   iteration's pressures are the same under all rules. Version 1 has rule 0 alone; else versions 1
   and 2 are the same. Choose rule 1, or for large fluids 3, unless steps have to equal the Rust's,
   which they do under rule 0 alone; on flat scenes they equal those of the Rust built with dim2.
        0  salva's: by how much the pressures lower the density, over the rest density. It grows
           with them, towards the compression that there would be without them, and stays there. So
           it can settle long before they are right, while they are still too low; and where that
           compression is above the limit, it runs out though they are right. It is never negative.
           An average that is not a number is passed over, which is told (iisph_step).
        1  that of Ihmsen et al. 2014: by how much the density that results from the iteration is
           above the rest density, over the rest density. It tends to 0 as the pressures become
           right. It may be negative, so a negative limit can be met. Where the average of any fluid
           is not a number, neither is the error, and the iteration does not settle.
        2  as 0, and
        3  as 1, but with the particles' terms added by halves: a list of one is its term, a longer
           one is split after its first half, rounded down, and the sums of both parts, found alike,
           are added. Under 0 and 1 they are added in order, from +0 on, and a small term is lost
           beside a large sum. By halves a term goes through 12 additions at most, in order through
           4096. The work list is longer, by one double for each fluid particle. Under 3 the error
           may be -0.

   A refusal has a number and an offset in the scene, that of the byte where the field, contact or
   record in question begins:
        1  a field is not wholly there
        2  version not 1, 2 or 4, or a rule that the version does not have
        3  more than 8 fluids or boundaries
        4  a count above 4096
        5  bytes follow the last record
        6  a double that is not finite
        7  a contact that names nobody
        8  the answer or the work list is shorter than needed (offset 0)
        9  a density is zero (the particle's record)
       10  a predicted density is zero (the particle's record)
   and of the kernel, without an offset,
       11  a distance that is negative (-0 is not) or not finite
       12  a radius that is zero, negative or not finite

   What the functions that write lists return: 99 where a list is too short for what every answer
   writes, and then nothing at all is written; 98 where the index lent to iisph_step_lent is too
   short; 97 where the scene has no such contact list as iisph_check_list is asked for; 100 + n for
   refusal n, of a packed scene with its offset in counts[1]; otherwise what each says below.
   Elements that are not named are never touched. */
#ifndef IISPH_H
#define IISPH_H

#include <stddef.h>
#include <stdint.h>

/* The versions, for the upper 4 bits of a packed scene's byte 0. */
enum {
    IISPH_VERSION_1 = 1,
    IISPH_VERSION_2 = 2,
    IISPH_VERSION_FLAT = 4
};

/* The rules, for the lower 4 bits of a packed scene's byte 1. */
enum {
    IISPH_RULE_SALVA = 0,
    IISPH_RULE_IHMSEN2014 = 1,
    IISPH_RULE_SALVA_BY_HALVES = 2,
    IISPH_RULE_IHMSEN2014_BY_HALVES = 3
};

#ifdef __cplusplus
extern "C" {
#endif

/* One step. numbers: at least 4 elements. counts: at least 2 elements.
   answers: per fluid particle, fluid by fluid, position, velocity (3 doubles each) and pressure;
       then of each boundary particle the volume, and the force (3) where forces are kept. So a
       fluid particle has 7 doubles, and a boundary particle 1 or 4; of a flat scene 5, and 1 or 3.
   work: scratch, 14 doubles for a fluid particle, under rules 2 and 3 15, of a flat scene 11 and
       12, and 1 for a boundary particle; what it holds before does not matter. iisph_needed tells
       both lengths.
   Returns 0 if there was no iteration (the scene's most is 0), 1 if the iterations settled, 2 if
   they ran out. Then the needed part of answers is written, that of work is all +0, numbers[0] is
   the last iteration's error by the scene's rule (+0 if there was none), numbers[1] dt, numbers[2]
   1 / dt (0 for a dt of 0), numbers[3] the remaining time, counts[0] the number of iterations, and
   counts[1] 1 if in the last iteration, under rule 0 or 2, the average error of some fluid was not
   a number, else 0 (0 too if there was none). Such an average is passed over when the greatest is
   taken: where counts[1] is 1, do not trust a 1 for settled. Under rules 1 and 3, where it is not
   passed over, counts[1] is 0, and numbers[0] may be negative or, after a 2, not a number.
   Refused by 1 to 10. Then answers, numbers and counts[0] are unchanged; the needed part of work is
   all +0 after 9 and 10, and work is unchanged after 1 to 8.
   Takes some 35 KiB of stack where the scene's index, as iisph_step_lent has it, is of at most 4096
   elements (one fluid of 2000 particles), and some 805 KiB where it is longer. */
uint64_t iisph_step(const uint8_t *scene, size_t scene_len, double *answers, size_t answers_len,
                    double *work, size_t work_len, double *numbers, size_t numbers_len,
                    uint64_t *counts, size_t counts_len);

/* One step that is lent its index, the list of where each record begins, which iisph_step takes of
   the stack and clears: for threads with little stack, and for many steps.
   index: scratch, at least 4 + 16 * (fluids + boundaries) + 2 * fluid particles + boundary
       particles elements, which is at most 98564; what it holds before does not matter.
   All else, and what is returned, is as for iisph_step, but that 98 is returned where the index is
   too short. Then counts[0] is the length that it needs, and nothing else is written. 99 and
   refusals 1 to 8 come before that, and leave the index as it was; 9 and 10 come after it. Of an
   index that was used it is not told what it holds.
   Takes some 2.5 KiB of stack at most, whatever the scene. */
uint64_t iisph_step_lent(const uint8_t *scene, size_t scene_len, double *answers,
                         size_t answers_len, double *work, size_t work_len, uint64_t *index,
                         size_t index_len, double *numbers, size_t numbers_len, uint64_t *counts,
                         size_t counts_len);

/* One step for a caller that keeps a clock. clock: at least 4 elements, the step length, dt, 1 / dt
   and the remaining time. All else, what is returned and the stack are as for iisph_step.
   Where the step is done (0, 1, 2) the clock is moved on by its own step length: clock[1] is
   clock[0], clock[2] is 1 / clock[0] (0 for a zero of either sign), and clock[3] is less clock[0].
   Otherwise it is unchanged. The scene's own step length and remaining time are those of the step
   and of numbers, whatever the clock holds. */
uint64_t iisph_step_keeping(const uint8_t *scene, size_t scene_len, double *clock, size_t clock_len,
                            double *answers, size_t answers_len, double *work, size_t work_len,
                            double *numbers, size_t numbers_len, uint64_t *counts,
                            size_t counts_len);

/* How long the lists of a step must be. counts: at least 2 elements.
   Returns 0 with counts[0] the length that the answer list needs and counts[1] that of the work
   list. Refused by 1 to 7; then counts[0] is unchanged. Takes some 1 KiB of stack. */
uint64_t iisph_needed(const uint8_t *scene, size_t scene_len, uint64_t *counts, size_t counts_len);

/* Whether a step with a long enough answer list would be refused. counts: at least 2 elements.
   Returns 0 if not, with counts unchanged and the needed part of work all +0. Refused by 1 to 10,
   as that step; then counts[0] is unchanged, and work is as that step leaves it. Takes as much
   stack as iisph_step. */
uint64_t iisph_validate(const uint8_t *scene, size_t scene_len, double *work, size_t work_len,
                        uint64_t *counts, size_t counts_len);

/* Whether all contacts of one contact list name particles that are there, and how many looks at a
   contact it takes to tell. counts: at least 2 elements.
   contacts: which list, 0 the fluid contacts of a fluid particle, 1 its boundary contacts, 2 the
       contacts of a boundary particle.
   model, particle: whose list, the number of the fluid or boundary and that of the particle in it,
       both from 0.
   Returns 0 if all do. Then counts[0] is the number of looks, one for each contact of the list, and
   counts[1] is unchanged.
   Refused by 7 if one does not. Then counts[1] is the offset of the first such contact, and
   counts[0] the number of looks, which is that contact's number in the list, from 0, plus one. No
   other list is looked at, so it also tells of lists behind the one at which a step stops.
   Refused by 1 to 6 as a step, before any list is looked at; then counts[0] is unchanged.
   Returns 97 if there is no such list, and then nothing is written: contacts is above 2, which is
   told before the scene is looked at, or the model or the particle is not there, which is told once
   1 to 6 have passed.
   Costs a walk over the whole scene, whatever list is asked for. Takes some 1 KiB of stack. In
   libiisph_c_lists.a, which needs no other archive. */
uint64_t iisph_check_list(const uint8_t *scene, size_t scene_len, uint64_t contacts, size_t model,
                          size_t particle, uint64_t *counts, size_t counts_len);

/* The cubic spline at the distance r with the radius h, and its derivative there, in three
   dimensions and, for flat scenes, in two. out: at least 1 element.
   Returns 0 with out[0] the value. Refused by 11, then by 12; then out is unchanged.
   With n, the normalizer in doubles, 8 / (pi * h * h * h) and in two dimensions (40 / 7) /
   (pi * h * h): a weight is within 5 * 2^-52 * n of n times the exact shape at r / h
   (docs/METHOD.md, 1.5), unless n is infinite, which it is for no h from 2^-340 (some 4.5e-103),
   and in two dimensions from 2^-511 (some 1.5e-154), on. Where n is infinite, the value is infinite
   or not a number; a slope may be infinite for an h below 1.3e-77, and in two dimensions below
   2.8e-103.
   Each takes less than 100 bytes of stack. */
uint64_t iisph_weight(double r, double h, double *out, size_t out_len);
uint64_t iisph_slope(double r, double h, double *out, size_t out_len);
uint64_t iisph_weight_2d(double r, double h, double *out, size_t out_len);
uint64_t iisph_slope_2d(double r, double h, double *out, size_t out_len);

/* The weight shape in whole numbers, by a table. q: r / h, in units of 2^-20.
   Returns the shape there, in units of 2^-30; from 2^20 on 0. It is no code: every q is taken, and
   none is refused. Times the normalizer n it is the value of iisph_weight, or of iisph_weight_2d,
   but for the errors of both.
   The result is proved to be within 1537 units of the exact shape at that q (docs/METHOD.md, 1.6),
   and is exact where q is a multiple of 1024.
   Takes some 4 KiB of stack, on which it lays the table out. In libiisph_c_board.a, which needs no
   other archive. A board takes bindings/board/ instead, which needs no archive. */
uint32_t iisph_board_weight(uint32_t q);

#ifdef __cplusplus
}
#endif

#endif
