#include "queue.h"
#include "at_once.h"
#include "check.h"
#include "errors.h"
#include "parts.h"
#include "slots.h"
#include "unchecked.h"

void queue_empty(struct queue *queue) {
    queue->first = queue->waiting = queue->next = 0;
}

/* ---- results ---- */

static void take_completed(struct dropin *d, struct queue *queue) {
    struct mbj_raw_done done;
    COMPAT_ALIGNED_FRAME uint8_t tag[MBJ_MAX_TAG_BYTES];
    uint32_t refusal;
    make_room(&done, tag, slot_at(queue, queue->waiting));
    if (proved.mbj_c_get_completed(&d->handle, &done, &refusal))
        take_result(d, queue, &done);
}

/* A flush gives a result wherever a job waits. If it didn't, the job would come back as one that failed: none is lost. */
static void take_flushed(struct dropin *d, struct queue *queue) {
    struct mbj_raw_done done;
    COMPAT_ALIGNED_FRAME uint8_t tag[MBJ_MAX_TAG_BYTES];
    uint32_t refusal;
    make_room(&done, tag, slot_at(queue, queue->waiting));
    if (proved.mbj_c_flush(&d->handle, &done, &refusal)) {
        take_result(d, queue, &done);
    } else {
        end_slot(d, slot_at(queue, queue->waiting), IMB_STATUS_INTERNAL_ERROR);
        skip_ended(queue);
    }
}

IMB_JOB *queue_completed(struct dropin *d, struct queue *queue) {
    if (queue->first == queue->waiting && queue->first != queue->next)
        take_completed(d, queue);
    return give(queue);
}

IMB_JOB *queue_flush(struct dropin *d, struct queue *queue) {
    if (queue->first == queue->waiting && queue->first != queue->next)
        take_flushed(d, queue);
    return give(queue);
}

void finish_all(struct dropin *d) {
    queue_finish(d, &d->ring);
    queue_finish(d, &d->burst);
}

/* ---- submission ---- */

/* The slot is that behind the queue's jobs: if these have all ended, the job's own result comes next. */
static void hand_over(IMB_MGR *m, struct dropin *d, struct queue *queue, const IMB_JOB *job, struct raw_form *form) {
    struct slot *slot = slot_at(queue, queue->next);
    struct mbj_raw_done done;
    COMPAT_ALIGNED_FRAME uint8_t tag[MBJ_MAX_TAG_BYTES];
    (void)mbj_pool_name(d->pool);
    uint32_t refusal = proved.mbj_c_fill(&d->handle, form->raw);
    slot->found = form->found;
    forget_form(d, form);
    if (refusal != MBJ_ERR_NONE) {
        set_error(m, error_of_refusal(refusal));
        end_slot(d, slot, IMB_STATUS_INTERNAL_ERROR);
        return;
    }
    keep_places(slot, job);
    make_room(&done, tag, slot_at(queue, queue->waiting));
    if (proved.mbj_c_submit(&d->handle, &done, &refusal))
        take_result(d, queue, &done);
}

static void start(IMB_MGR *m, struct dropin *d, struct queue *queue, const IMB_JOB *given, bool is_checked) {
    struct slot *slot = slot_at(queue, queue->next);
    struct mbj_raw_job raw;
    struct raw_form form;
    IMB_JOB copy;
    const IMB_JOB *job = is_checked ? given : job_as_taken(given, &copy);
    int error = check_job(job, is_checked);
    if (error != 0) {
        set_error(m, error);
        end_slot(d, slot, IMB_STATUS_INVALID_ARGS);
    } else if (!is_done_at_once(job) && fill_job(d, &form, &raw, job, 0)) {
        hand_over(m, d, queue, job, &form);
    } else {
        finish_all(d);
        end_slot(d, slot, do_at_once(m, d, job, slot->job));
    }
}

IMB_JOB *queue_submit(IMB_MGR *m, struct queue *queue, IMB_JOB *job, bool is_checked) {
    (void)take_slot(queue, job);
    start(m, m->aes128_ooo, queue, job, is_checked);
    queue->next++;
    skip_ended(queue);
    return give(queue);
}
