/* For checks/bench_turns.py: turns ROUNDS LIBRARY... -- SCENE...
   Steps each scene with every library in turn, by iisph_step and by iisph_step_lent, and prints the least nanoseconds
   of each: a line a scene, with a column a library and way. The answers must be the same. */
#include <dlfcn.h>
#include <stdint.h>
#include <stdio.h>
#include <stdlib.h>
#include <string.h>
#include <time.h>

enum { MOST = 16, NUMBERS = 4, COUNTS = 2, RAN_OUT = 2, SHORT_INDEX = 98 };

typedef uint64_t needed_f(const uint8_t *, size_t, uint64_t *, size_t);
typedef uint64_t step_f(const uint8_t *, size_t, double *, size_t, double *, size_t, double *, size_t,
                        uint64_t *, size_t);
typedef uint64_t lent_f(const uint8_t *, size_t, double *, size_t, double *, size_t, uint64_t *, size_t,
                        double *, size_t, uint64_t *, size_t);

struct library { needed_f *needed; step_f *step; lent_f *lent; };

struct lists { double *answers, *work; uint64_t *index; size_t answers_len, work_len, index_len; };

static void stop(const char *what, const char *which) {
    fprintf(stderr, "%s: %s\n", which, what);
    exit(2);
}

static double nanoseconds(void) {
    struct timespec t;
    clock_gettime(CLOCK_MONOTONIC, &t);
    return t.tv_sec * 1e9 + t.tv_nsec;
}

static struct library opened(const char *name) {
    void *handle = dlopen(name, RTLD_NOW | RTLD_LOCAL);
    if (!handle) stop(dlerror(), name);
    struct library l = {(needed_f *)dlsym(handle, "iisph_needed"), (step_f *)dlsym(handle, "iisph_step"),
                        (lent_f *)dlsym(handle, "iisph_step_lent")};
    if (!l.needed || !l.step || !l.lent) stop("has no iisph_needed, iisph_step or iisph_step_lent", name);
    return l;
}

static uint64_t stepped(const struct library *l, int lent, const uint8_t *s, size_t n, struct lists *to) {
    double numbers[NUMBERS];
    uint64_t counts[COUNTS];
    if (!lent)
        return l->step(s, n, to->answers, to->answers_len, to->work, to->work_len, numbers, NUMBERS, counts, COUNTS);
    uint64_t ending = l->lent(s, n, to->answers, to->answers_len, to->work, to->work_len, to->index, to->index_len,
                              numbers, NUMBERS, counts, COUNTS);
    if (ending != SHORT_INDEX) return ending;
    to->index_len = counts[0];
    to->index = calloc(to->index_len, sizeof *to->index);
    return stepped(l, lent, s, n, to);
}

/* The nanoseconds of a step, the mean of as many as take some 20 microseconds, by the bytes of the scene. */
static double timed(const struct library *l, int lent, const uint8_t *s, size_t n, struct lists *to) {
    size_t steps = 1 + 40000 / n;
    uint64_t worst = 0;
    double began = nanoseconds();
    for (size_t k = 0; k < steps; k++) {
        uint64_t ending = stepped(l, lent, s, n, to);
        worst = ending > worst ? ending : worst;
    }
    double took = (nanoseconds() - began) / steps;
    return worst > RAN_OUT ? -1 : took;
}

static uint8_t *read_whole(const char *name, size_t *n) {
    FILE *file = fopen(name, "rb");
    if (!file || fseek(file, 0, SEEK_END)) stop("can't be read", name);
    *n = ftell(file);
    rewind(file);
    uint8_t *bytes = malloc(*n + 1);
    if (fread(bytes, 1, *n, file) != *n) stop("can't be read", name);
    fclose(file);
    return bytes;
}

static void scene(const char *name, int rounds, struct library *libraries, int number) {
    size_t n;
    uint8_t *s = read_whole(name, &n);
    uint64_t needed[COUNTS];
    if (libraries[0].needed(s, n, needed, COUNTS)) stop("the first archive refuses it", name);
    struct lists to = {calloc(needed[0] + 1, 8), calloc(needed[1] + 1, 8), NULL, needed[0], needed[1], 0};
    double *first = malloc(needed[0] * 8 + 8), best[MOST][2];
    for (int turn = 0; turn < rounds * number * 2; turn++) {
        int k = turn / 2 % number, lent = turn % 2;
        double took = timed(&libraries[k], lent, s, n, &to);
        if (took < 0) stop("an archive refuses it", name);
        if (turn == 0) memcpy(first, to.answers, needed[0] * 8);
        if (memcmp(first, to.answers, needed[0] * 8)) stop("the answers differ", name);
        best[k][lent] = turn / 2 < number || took < best[k][lent] ? took : best[k][lent];
    }
    printf("%s", name);
    for (int k = 0; k < number; k++) printf(" %.1f %.1f", best[k][0], best[k][1]);
    printf("\n");
    fflush(stdout);
    free(s), free(first), free(to.answers), free(to.work), free(to.index);
}

int main(int argc, char **argv) {
    struct library libraries[MOST];
    int number = 0, at = 2;
    if (argc < 5) stop("ROUNDS LIBRARY... -- SCENE...", "use");
    for (; at < argc && strcmp(argv[at], "--"); at++)
        if (number < MOST) libraries[number++] = opened(argv[at]);
    for (at++; at < argc; at++) scene(argv[at], atoi(argv[1]), libraries, number);
    return 0;
}
