/* What stands behind a manager in the application's memory, for which imb_get_mb_mgr_size asks: Intel's functions of jobs, and the samples
 * of jobs that Intel's library hasn't given back. A program may free that memory without a call, so nothing else points to it. */
#ifndef SHADOW_BEHIND_H
#define SHADOW_BEHIND_H

#include "due.h"
#include "records.h"

/* The functions of jobs that the checker's stand for. */
struct job_calls {
    submit_job_t submit_job, submit_job_nocheck;
    get_completed_job_t get_completed_job;
    flush_job_t flush_job;
    burst_fn_t submit_burst, submit_burst_nocheck, flush_burst;
    submit_cipher_burst_t submit_cipher_burst, submit_cipher_burst_nocheck;
    submit_hash_burst_t submit_hash_burst, submit_hash_burst_nocheck;
};

enum { WAITING_BYTES = 1 << 20 };

struct behind {
    uint64_t mark; /* BEHIND_MARK if the manager was made in this memory */
    struct job_calls calls;
    const IMB_JOB *expected; /* the job of the earliest sample that waits, or NULL */
    uint32_t table;          /* the number of the direct calls' table, or NO_TABLE */
    uint32_t is_checked;     /* whether the manager has the checker's functions */
    struct records waiting;  /* samples in the order of submission; its bytes follow */
};

#define BEHIND_MARK UINT64_C(0x6d626a2073686477)

/* How far behind the manager it stands; set when the library is loaded. */
extern size_t behind_offset;

static inline struct behind *behind(IMB_MGR *m) {
    return (struct behind *)(void *)((char *)m + behind_offset);
}

/* Puts the checker's functions of jobs in a manager that has Intel's, or Intel's again. */
void put_checking_jobs(IMB_MGR *m);
void put_jobs(IMB_MGR *m, const struct job_calls *calls);

/* Forgets the samples that wait: their jobs won't come back. */
void forget_waiting(struct behind *b);

#endif
