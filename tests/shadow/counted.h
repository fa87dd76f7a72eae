/* A program over the checker, which it loads by its path, and what it asks the checker for. */
#ifndef SHADOW_COUNTED_H
#define SHADOW_COUNTED_H

#include "library.h"
#include "mbj_shadow.h"

/* What the checker of this library has counted. */
struct mbj_shadow_counters counts_now(const struct library *library);

/* The same, once all samples are compared or dropped; those that wait for lanes need a moment. */
struct mbj_shadow_counters counts_at_rest(const struct library *library);

/* Prints them on a line. */
void print_counts(const struct mbj_shadow_counters *counts);

#endif
