/* Times a library. */
#ifndef TIMING_H
#define TIMING_H

#include "bench.h"

/* The lengths of packets: each is drawn from least to most. */
struct lengths {
    size_t least, most;
};

/* Of one thread: nanoseconds a job, and the mean of the packets' lengths. */
struct timed {
    double ns, bytes;
};

/* Each of this many threads puts the same batch through a manager of its own, again and again, all starting each pass together. Of each the
 * fastest pass counts, and the mean of these is returned. */
struct timed time_library(const struct library *library, const struct work *work, struct lengths lengths, size_t threads, int passes);

/* Gives up if the two libraries' results differ. */
void compare(const struct library *library, const struct work *work, struct lengths lengths);

#endif
