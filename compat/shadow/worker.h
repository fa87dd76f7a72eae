/* Who gives the samples to the proved library: the background thread, which begins with the first sample, or each thread its own. */
#ifndef SHADOW_WORKER_H
#define SHADOW_WORKER_H

#include "feed.h"

/* A thread gave a sample away. Without a background thread it is done now, and once in a second also what waits for lanes. */
void worker_wake(struct feed *feed);

/* A program found its manager empty, or frees it: without a background thread, samples that wait for lanes are finished now. */
void worker_rest(void);

#endif
