#include "counted.h"

#include <dlfcn.h>
#include <stdio.h>
#include <unistd.h>

struct mbj_shadow_counters counts_now(const struct library *library) {
    size_t (*ask)(struct mbj_shadow_counters *, size_t);
    struct mbj_shadow_counters counts;
    *(void **)&ask = dlsym(library->loaded, "mbj_shadow_counts");
    if (ask == NULL || ask(&counts, sizeof counts) != sizeof counts) {
        fprintf(stderr, "%s is no checker of this version\n", library->path);
        exit(2);
    }
    return counts;
}

struct mbj_shadow_counters counts_at_rest(const struct library *library) {
    enum { MILLISECOND = 1000, MOST_WAITS = 20000 };
    struct mbj_shadow_counters counts = counts_now(library);
    for (int i = 0; i < MOST_WAITS && counts.sampled > counts.compared + counts.dropped; i++) {
        usleep(MILLISECOND);
        counts = counts_now(library);
    }
    return counts;
}

void print_counts(const struct mbj_shadow_counters *counts) {
    printf("seen %lu sampled %lu compared %lu differing %lu refused-alike %lu dropped %lu over-rate %lu unspecified %lu skipped %lu untold %lu\n",
           counts->seen, counts->sampled, counts->compared, counts->differing, counts->refused_alike, counts->dropped, counts->over_rate,
           counts->unspecified, counts->skipped, counts->untold);
}
