/* Prints the classes of a run and holds each to its quota. Assumes nothing. */
#include "classes.h"
#include <stdio.h>

int classes_hold(const struct class *classes, size_t count, long trials) {
    int held = 1;
    for (size_t i = 0; i < count; i++) {
        long quota = trials < LEAST_TRIALS ? 0 : classes[i].quota * trials / 10000;
        int enough = classes[i].count >= quota;
        printf("  %8ld %s (at least %ld)%s\n", classes[i].count, classes[i].name, quota, enough ? "" : " TOO FEW");
        held &= enough;
    }
    return held;
}
