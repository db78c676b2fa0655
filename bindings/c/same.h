/* A check in the C programs here: if it does not hold, prints where it stands and ends its function with 1. */
#ifndef SAME_H
#define SAME_H

#include <stdio.h>

#define SAME(x) do { if (!(x)) { printf("%s:%d: %s\n", __FILE__, __LINE__, #x); return 1; } } while (0)

#endif
