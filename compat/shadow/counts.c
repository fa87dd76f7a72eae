#include "counts.h"
#include "algorithms.h"

#include <string.h>

_Atomic uint64_t counts[COUNTS];

_Static_assert(sizeof(struct mbj_shadow_counters) == COUNTS * sizeof(uint64_t), "each field is a counter");
_Static_assert(offsetof(struct mbj_shadow_counters, skipped_hashes) == COUNT_SKIPPED_HASHES * sizeof(uint64_t), "in the same order");
_Static_assert((int)IMB_CIPHER_NUM <= (int)MBJ_SHADOW_CIPHERS && (int)IMB_AUTH_NUM <= (int)MBJ_SHADOW_HASHES, "each code has a counter");

void count_skipped(const IMB_JOB *job) {
    unsigned kind = cipher_of(job)->kind, cipher = (unsigned)job->cipher_mode, hash = (unsigned)job->hash_alg;
    bool is_ciphers = kind == CIPHER_ABSENT || kind == CIPHER_CUSTOM;
    count_more(COUNT_SKIPPED, 1);
    if (is_ciphers)
        count_more(COUNT_SKIPPED_CIPHERS + cipher % MBJ_SHADOW_CIPHERS, 1);
    else
        count_more(COUNT_SKIPPED_HASHES + hash % MBJ_SHADOW_HASHES, 1);
}

void counts_forget(void) {
    for (unsigned i = 0; i < COUNTS; i++)
        atomic_store_explicit(&counts[i], 0, memory_order_relaxed);
}

IMB_DLL_EXPORT size_t mbj_shadow_counts(struct mbj_shadow_counters *room, size_t len) {
    uint64_t now[COUNTS];
    for (unsigned i = 0; i < COUNTS; i++)
        now[i] = count_of(i);
    memcpy(room, now, len < sizeof now ? len : sizeof now);
    return sizeof now;
}
