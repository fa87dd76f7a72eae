/* The calls of jobs in a manager's own array, by their names without an architecture. */
#ifndef COMPAT_RING_H
#define COMPAT_RING_H

#include "queue.h"

IMB_JOB *next_job(IMB_MGR *m);
IMB_JOB *submit_checked(IMB_MGR *m);
IMB_JOB *submit_unchecked(IMB_MGR *m);
IMB_JOB *completed_job(IMB_MGR *m);
IMB_JOB *flushed_job(IMB_MGR *m);
uint32_t jobs_out(IMB_MGR *m);

/* The place behind this one in the array, as an offset in bytes, and the job there. */
static inline int offset_behind(int offset) {
    int next = offset + (int)sizeof(IMB_JOB);
    return next == (int)(IMB_MAX_JOBS * sizeof(IMB_JOB)) ? 0 : next;
}

static inline IMB_JOB *job_at(IMB_MGR *m, int offset) {
    return (IMB_JOB *)(void *)((char *)m->jobs + offset);
}

/* Submits the next n jobs of the array, if as many are left. */
void ring_submit_burst(IMB_MGR *m, uint32_t n, bool is_checked);

/* Give up to n jobs back, the earliest ones, if these have ended, or after finishing them. Return how many. */
uint32_t ring_completed_burst(IMB_MGR *m, uint32_t n, IMB_JOB **jobs);
uint32_t ring_flush_burst(IMB_MGR *m, uint32_t n, IMB_JOB **jobs);

/* A burst of an array of the application's by an AEAD, all of whose jobs are done when it returns: how many are. */
uint32_t aead_burst(IMB_MGR *m, IMB_JOB *jobs, uint32_t n, IMB_CIPHER_MODE cipher, IMB_CIPHER_DIRECTION dir, IMB_KEY_SIZE_BYTES key_len,
                    bool is_checked);

/* Sets the functions of jobs, and of bursts.c, in the manager's table. */
void set_job_functions(IMB_MGR *m);
void set_burst_functions(IMB_MGR *m);

#endif
