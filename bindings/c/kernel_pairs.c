/* For each line of standard input with a distance and a radius, 16 hex digits each: weight and slope,
   or the refusal; with --flat those of two dimensions. checks/compare.py holds it against the Rust,
   checks/shape_picture.py to the exact weight:
     mkdir -p target
     gcc -O2 -Wall -Wextra -Iinclude bindings/c/kernel_pairs.c crates/iisph_c/out/libiisph_c.a -o target/kernel_pairs
     checks/compare.py --kernel 10000 --subject target/kernel_pairs
     checks/compare.py --kernel 10000 --axes 2 --subject 'target/kernel_pairs --flat'
     checks/shape_picture.py --subject target/kernel_pairs */
#include "iisph.h"
#include <inttypes.h>
#include <math.h>
#include <stdio.h>
#include <string.h>

/* every not-a-number alike */
static uint64_t bits(double x) {
    uint64_t b;
    memcpy(&b, &x, 8);
    return isnan(x) ? UINT64_C(0x7FF8000000000000) : b;
}

int main(int count, char **arguments) {
    const int flat = count == 2 && strcmp(arguments[1], "--flat") == 0;
    if (count > 1 && !flat) {
        fprintf(stderr, "use: %s [--flat] < FILE\n", arguments[0]);
        return 2;
    }
    uint64_t distance, radius;
    while (scanf("%16" SCNx64 " %16" SCNx64, &distance, &radius) == 2) {
        double r, h, weight, slope;
        memcpy(&r, &distance, 8);
        memcpy(&h, &radius, 8);
        uint64_t answer = (flat ? iisph_weight_2d : iisph_weight)(r, h, &weight, 1);
        if (answer != (flat ? iisph_slope_2d : iisph_slope)(r, h, &slope, 1)) {
            fprintf(stderr, "weight and slope are not refused alike\n");
            return 1;
        }
        if (answer != 0)
            printf("refused %" PRIu64 "\n", answer - 100);
        else
            printf("%016" PRIX64 " %016" PRIX64 "\n", bits(weight), bits(slope));
    }
    return 0;
}
