/* Classes of trials: how many a run had of each, and how many it must have had at least, as a share of its trials. Assumes nothing. */
#ifndef CLASSES_H
#define CLASSES_H
#include <stddef.h>

enum { LEAST_TRIALS = 1000 }; /* a shorter run has no quotas: chance decides too much in it */

/* The quota is in trials for each 10,000 trials of the run. */
struct class { const char *name; long quota, count; };

/* Prints every class with its count and quota. Returns 1 where each has its quota, else 0. */
int classes_hold(const struct class *classes, size_t count, long trials);
#endif
