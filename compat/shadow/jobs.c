/* Jobs of a manager's own array. Each function makes Intel's call, and looks at the jobs that go in and come back. */
#include "waiting.h"
#include "worker.h"

static IMB_JOB *next_job(IMB_MGR *m) {
    return (IMB_JOB *)(void *)((char *)m->jobs + m->next_job);
}

/* What Intel's library does for a job of GCM in parts, by calls of its table, is sampled as these calls are. */
static uint8_t inside_of(const IMB_JOB *job) {
    return job->cipher_mode == IMB_CIPHER_GCM_SGL ? INSIDE_PARTS : INSIDE_CALL;
}

/* ---- single jobs ---- */

__attribute__((noinline, cold)) static IMB_JOB *submit_sampled(IMB_MGR *m, submit_job_t call, enum call way) {
    struct behind *b = behind(m);
    IMB_JOB *job = next_job(m);
    struct sample *sample = take_waiting(b, job, way, true);
    here.inside = inside_of(job);
    IMB_JOB *back = call(m);
    here.inside = INSIDE_NONE;
    if (sample != NULL && sample->is_unsent)
        sample->their_error = m->imb_errno;
    if (back != NULL)
        give_waiting(b, back);
    return back;
}

static inline IMB_JOB *submit(IMB_MGR *m, submit_job_t call, enum call way) {
    struct behind *b = behind(m);
    const IMB_JOB *job = next_job(m);
    if (is_due(&not_yet_of_jobs[class_of_job(job)]))
        return submit_sampled(m, call, way);
    here.inside = inside_of(job);
    IMB_JOB *back = call(m);
    here.inside = INSIDE_NONE;
    if (__builtin_expect(back == b->expected, 0) && back != NULL)
        give_waiting(b, back);
    return back;
}

static IMB_JOB *submit_job(IMB_MGR *m) {
    return submit(m, behind(m)->calls.submit_job, CALL_JOB);
}

static IMB_JOB *submit_job_unchecked(IMB_MGR *m) {
    return submit(m, behind(m)->calls.submit_job_nocheck, CALL_JOB_UNCHECKED);
}

static IMB_JOB *completed_job(IMB_MGR *m) {
    struct behind *b = behind(m);
    IMB_JOB *back = b->calls.get_completed_job(m);
    if (__builtin_expect(back == b->expected, 0) && back != NULL)
        give_waiting(b, back);
    return back;
}

static IMB_JOB *flush_job(IMB_MGR *m) {
    struct behind *b = behind(m);
    here.inside = INSIDE_CALL;
    IMB_JOB *back = b->calls.flush_job(m);
    here.inside = INSIDE_NONE;
    if (__builtin_expect(back == b->expected, 0) && back != NULL)
        give_waiting(b, back);
    if (back == NULL)
        worker_rest();
    return back;
}

/* ---- bursts ---- */

static void give_burst(struct behind *b, IMB_JOB *const *jobs, uint32_t n) {
    for (uint32_t i = 0; i < n && b->expected != NULL; i++)
        if (jobs[i] == b->expected)
            give_waiting(b, jobs[i]);
}

/* A burst with a wrong job isn't submitted at all, and tells that by an error: so its samples are taken back. */
static uint32_t submit_burst_by(IMB_MGR *m, burst_fn_t call, uint32_t n, IMB_JOB **jobs, enum call way) {
    struct behind *b = behind(m);
    uint64_t head = records_head(&b->waiting);
    uint8_t inside = INSIDE_CALL;
    for (uint32_t i = 0; jobs != NULL && i < n && n <= IMB_MAX_BURST_SIZE && jobs[i] != NULL; i++) {
        if (is_due(&not_yet_of_jobs[class_of_job(jobs[i])]))
            (void)take_waiting(b, jobs[i], way, false);
        inside = inside_of(jobs[i]) == INSIDE_PARTS ? INSIDE_PARTS : inside;
    }
    here.inside = inside;
    uint32_t back = call(m, n, jobs);
    here.inside = INSIDE_NONE;
    if (back == 0 && m->imb_errno != 0)
        take_back_waiting(b, head);
    else
        give_burst(b, jobs, back);
    return back;
}

static uint32_t submit_burst(IMB_MGR *m, const uint32_t n, IMB_JOB **jobs) {
    return submit_burst_by(m, behind(m)->calls.submit_burst, n, jobs, CALL_BURST);
}

static uint32_t submit_burst_unchecked(IMB_MGR *m, const uint32_t n, IMB_JOB **jobs) {
    return submit_burst_by(m, behind(m)->calls.submit_burst_nocheck, n, jobs, CALL_BURST_UNCHECKED);
}

static uint32_t flush_burst(IMB_MGR *m, const uint32_t n, IMB_JOB **jobs) {
    struct behind *b = behind(m);
    here.inside = INSIDE_CALL;
    uint32_t back = b->calls.flush_burst(m, n, jobs);
    here.inside = INSIDE_NONE;
    give_burst(b, jobs, back);
    if (back == 0)
        worker_rest();
    return back;
}

/* ---- the table ---- */

#define JOB_CALLS(CALL)                                                                                                                    \
    CALL(submit_job)                                                                                                                       \
    CALL(submit_job_nocheck)                                                                                                               \
    CALL(get_completed_job)                                                                                                                \
    CALL(flush_job)                                                                                                                        \
    CALL(submit_burst)                                                                                                                     \
    CALL(submit_burst_nocheck)                                                                                                             \
    CALL(flush_burst)                                                                                                                      \
    CALL(submit_cipher_burst)                                                                                                              \
    CALL(submit_cipher_burst_nocheck)                                                                                                      \
    CALL(submit_hash_burst)                                                                                                                \
    CALL(submit_hash_burst_nocheck)

#define READ(name) calls->name = m->name;
#define WRITE(name) m->name = calls->name;

void put_jobs(IMB_MGR *m, const struct job_calls *calls) {
    JOB_CALLS(WRITE)
}

void put_checking_jobs(IMB_MGR *m) {
    struct job_calls *calls = &behind(m)->calls;
    JOB_CALLS(READ)
    m->submit_job = submit_job;
    m->submit_job_nocheck = submit_job_unchecked;
    m->get_completed_job = completed_job;
    m->flush_job = flush_job;
    m->submit_burst = submit_burst;
    m->submit_burst_nocheck = submit_burst_unchecked;
    m->flush_burst = flush_burst;
    put_checking_arrays(m);
}
