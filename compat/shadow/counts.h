/* The counters of mbj_shadow.h. Any thread counts. */
#ifndef SHADOW_COUNTS_H
#define SHADOW_COUNTS_H

#include "imb.h"
#include "mbj_shadow.h"

#include <stdatomic.h>

/* The counters, in the order of struct mbj_shadow_counters. */
enum count {
    COUNT_SEEN,
    COUNT_SAMPLED,
    COUNT_COMPARED,
    COUNT_DIFFERING,
    COUNT_REFUSED_ALIKE,
    COUNT_DROPPED,
    COUNT_OVER_RATE,
    COUNT_UNSPECIFIED,
    COUNT_SKIPPED,
    COUNT_SKIPPED_CIPHERS,
    COUNT_SKIPPED_HASHES = COUNT_SKIPPED_CIPHERS + MBJ_SHADOW_CIPHERS,
    COUNT_UNTOLD = COUNT_SKIPPED_HASHES + MBJ_SHADOW_HASHES,
    COUNTS
};

extern _Atomic uint64_t counts[COUNTS];

static inline void count_more(unsigned which, uint64_t more) {
    atomic_fetch_add_explicit(&counts[which], more, memory_order_relaxed);
}

static inline uint64_t count_of(unsigned which) {
    return atomic_load_explicit(&counts[which], memory_order_relaxed);
}

/* Counts a job whose algorithm the proved library hasn't. */
void count_skipped(const IMB_JOB *job);

/* All counters are 0, as in a new process. */
void counts_forget(void);

#endif
