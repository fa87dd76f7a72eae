/* What the checker under load counts (docs/SHADOW.md). A program that is linked to intel-ipsec-mb, and runs over the checker, may ask for
 * it. Over Intel's library alone the function's address is NULL:
 *
 *     struct mbj_shadow_counters counts;
 *     if (mbj_shadow_counts != NULL && mbj_shadow_counts(&counts, sizeof counts) != 0 && counts.differing != 0)
 *         ...
 */
#ifndef MBJ_SHADOW_H
#define MBJ_SHADOW_H

#include <stddef.h>
#include <stdint.h>

#ifdef __cplusplus
extern "C" {
#endif

enum { MBJ_SHADOW_CIPHERS = 32, MBJ_SHADOW_HASHES = 64 };

/* Counts of the process, since it was loaded or forked. Jobs and direct calls are counted alike. */
struct mbj_shadow_counters {
    uint64_t seen;          /* submitted; each thread tells those since its last sample at its next one, or when it ends */
    uint64_t sampled;       /* due, and to be given to the proved library */
    uint64_t compared;      /* of the sampled ones, done by both libraries and compared */
    uint64_t differing;     /* of the compared ones, with another text, tag, status or error */
    uint64_t refused_alike; /* of the compared ones, refused by both with the same error */
    uint64_t dropped;       /* of the sampled ones, lost: no room, no memory, too long. The others wait, or their manager was forgotten */
    uint64_t over_rate;     /* due, and left out because of the bound of bytes a second */
    uint64_t unspecified;   /* due, and left out since intel-ipsec-mb doesn't say what comes out */
    uint64_t skipped;       /* due, and left out since the proved library hasn't the algorithm */
    uint64_t skipped_ciphers[MBJ_SHADOW_CIPHERS]; /* of those, by IMB_CIPHER_MODE, if the cipher is the reason; else */
    uint64_t skipped_hashes[MBJ_SHADOW_HASHES];   /* by IMB_HASH_ALG */
    uint64_t untold;        /* differing, and without a file or a line: told too fast, or the file couldn't be written */
};

/* Writes the counts, at most len bytes of them, and returns how many bytes they have in all. */
size_t mbj_shadow_counts(struct mbj_shadow_counters *counts, size_t len) __attribute__((weak));

#ifdef __cplusplus
}
#endif
#endif
