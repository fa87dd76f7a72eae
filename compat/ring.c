/* The ring of 256 jobs in the manager itself. Facts of intel-ipsec-mb 1.3: the earliest and the next job are told as offsets in bytes, the
 * first of them -1 if no job is out; a job that was handed out isn't cleared, and is handed out again until it is submitted; and the
 * submission that fills the ring finishes the earliest job. */
#include "ring.h"
#include "errors.h"
#include "parts.h"

static struct queue *ring_of(IMB_MGR *m) {
    struct dropin *d = m->aes128_ooo;
    return &d->ring;
}

/* The job was given back: the one behind it is the earliest now. */
static IMB_JOB *return_job(IMB_MGR *m, IMB_JOB *job) {
    if (job != NULL)
        m->earliest_job = queue_len(ring_of(m)) == 0 ? -1 : offset_behind((int)((char *)job - (char *)m->jobs));
    return job;
}

static IMB_JOB *ring_completed(IMB_MGR *m) {
    return return_job(m, queue_completed(m->aes128_ooo, ring_of(m)));
}

static IMB_JOB *ring_flush(IMB_MGR *m) {
    return return_job(m, queue_flush(m->aes128_ooo, ring_of(m)));
}

static IMB_JOB *ring_submit(IMB_MGR *m, bool is_checked) {
    if (queue_len(ring_of(m)) == IMB_MAX_JOBS)
        return NULL;
    IMB_JOB *job = job_at(m, m->next_job);
    if (m->earliest_job < 0)
        m->earliest_job = m->next_job;
    m->next_job = offset_behind(m->next_job);
    return return_job(m, queue_submit(m, ring_of(m), job, is_checked));
}

void ring_submit_burst(IMB_MGR *m, uint32_t n, bool is_checked) {
    struct part part;
    part_begin(&part);
    if (n != 0 && m->earliest_job < 0)
        m->earliest_job = m->next_job;
    for (uint32_t i = 0; i < n; i++) {
        IMB_JOB *job = job_at(m, m->next_job);
        m->next_job = offset_behind(m->next_job);
        part_add(m, ring_of(m), &part, job, job, is_checked);
    }
    part_hand_over(m, ring_of(m), &part);
}

/* The jobs were given back, which is noted by the last one. */
static uint32_t return_burst(IMB_MGR *m, IMB_JOB **jobs, uint32_t n) {
    if (n != 0)
        (void)return_job(m, jobs[n - 1]);
    return n;
}

uint32_t ring_completed_burst(IMB_MGR *m, uint32_t n, IMB_JOB **jobs) {
    return return_burst(m, jobs, queue_completed_burst(m->aes128_ooo, ring_of(m), n, jobs));
}

uint32_t ring_flush_burst(IMB_MGR *m, uint32_t n, IMB_JOB **jobs) {
    return return_burst(m, jobs, queue_flush_burst(m->aes128_ooo, ring_of(m), n, jobs));
}

/* ---- the calls ---- */

IMB_JOB *next_job(IMB_MGR *m) {
    if (dropin_of(m) == NULL)
        return NULL;
    if (queue_len(ring_of(m)) == IMB_MAX_JOBS) {
        set_error(m, IMB_ERR_QUEUE_SPACE);
        return NULL;
    }
    return job_at(m, m->next_job);
}

static IMB_JOB *submit(IMB_MGR *m, bool is_checked) {
    if (dropin_of(m) == NULL)
        return NULL;
    IMB_JOB *job = ring_submit(m, is_checked);
    return job == NULL && queue_len(ring_of(m)) == IMB_MAX_JOBS ? ring_flush(m) : job;
}

IMB_JOB *submit_checked(IMB_MGR *m) {
    return submit(m, true);
}

IMB_JOB *submit_unchecked(IMB_MGR *m) {
    return submit(m, false);
}

IMB_JOB *completed_job(IMB_MGR *m) {
    return dropin_of(m) == NULL ? NULL : ring_completed(m);
}

IMB_JOB *flushed_job(IMB_MGR *m) {
    return dropin_of(m) == NULL ? NULL : ring_flush(m);
}

uint32_t jobs_out(IMB_MGR *m) {
    return dropin_of(m) == NULL ? 0 : queue_len(ring_of(m));
}

void set_job_functions(IMB_MGR *m) {
    m->get_next_job = next_job;
    m->submit_job = submit_checked;
    m->submit_job_nocheck = submit_unchecked;
    m->get_completed_job = completed_job;
    m->flush_job = flushed_job;
    m->queue_size = jobs_out;
}
