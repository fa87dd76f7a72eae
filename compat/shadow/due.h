/* Which jobs and calls are sampled: one in about MBJ_SHADOW_EVERY, at gaps that are drawn, and the first ones of each algorithm. The state
 * is of each thread, so that what isn't sampled costs no more than a few instructions. */
#ifndef SHADOW_DUE_H
#define SHADOW_DUE_H

#include "imb.h"

#include <stdatomic.h>
#include <stdbool.h>

/* Which of Intel's functions a thread is in, by a function of the checker. */
enum inside { INSIDE_NONE, INSIDE_CALL, INSIDE_PARTS /* of a job of GCM that does a part of a text */ };

struct thread_state {
    uint32_t left;     /* jobs and calls before the next sampled one */
    uint32_t planned;  /* those since the last sampled one, the next one included; 0 if no gap was drawn yet */
    uint8_t inside;    /* enum inside */
    uint64_t random;   /* 0 if nothing was drawn yet */
    struct feed *feed; /* where this thread's samples go, or NULL */
};

/* Its place is found without a call. */
extern __thread struct thread_state here __attribute__((tls_model("initial-exec")));

/* Classes of jobs: each cipher with its direction and length of key, and each authentication with it. */
enum { CLASSES = 1 << 14 };

static inline unsigned class_of_job(const IMB_JOB *job) {
    unsigned cipher = (unsigned)job->cipher_mode & 31, dir = (unsigned)job->cipher_direction & 1;
    unsigned key = (unsigned)(job->key_len_in_bytes >> 3) & 3, hash = (unsigned)job->hash_alg & 63;
    return cipher << 9 | dir << 8 | key << 6 | hash;
}

/* Classes of direct calls: the kind of sample, and which of it. */
enum { CALL_CLASSES = 1 << 7 };

static inline unsigned class_of_call(unsigned kind, unsigned which) {
    return kind << 4 | which;
}

/* How many of a class are still to be sampled before its gaps decide alone. */
extern _Atomic uint8_t not_yet_of_jobs[CLASSES], not_yet_of_calls[CALL_CLASSES];

/* The rest of is_due: draws a gap if the thread has none yet. */
bool is_due_now(const _Atomic uint8_t *not_yet);

/* Whether one of this class is sampled; counted for the gap in any case. */
static inline bool is_due(const _Atomic uint8_t *not_yet) {
    uint32_t left = here.left--;
    if (__builtin_expect((left != 0) & (atomic_load_explicit(not_yet, memory_order_relaxed) == 0), 1))
        return false;
    return is_due_now(not_yet);
}

/* What was due is taken, and counted as sampled, if the bound of bytes a second lets it. One that is too long is dropped. */
bool take_due(_Atomic uint8_t *not_yet, size_t bytes);

/* What was due isn't sampled. In both calls the next gap is drawn where the last one is over. */
void pass_due(_Atomic uint8_t *not_yet);

/* Counts what the thread has seen since its last sample. */
void count_seen(void);

/* In a child of a fork, and when the library is loaded: no class was sampled yet, and this thread has no gap. */
void due_forget(void);

#endif
