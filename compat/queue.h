/* Jobs on their way through the proved manager: submitted, done, and given back in order. */
#ifndef COMPAT_QUEUE_H
#define COMPAT_QUEUE_H

#include "manager.h"

/* Submits a job as the next one of the queue, which isn't full. Returns the queue's earliest job if that has ended. */
IMB_JOB *queue_submit(IMB_MGR *m, struct queue *queue, IMB_JOB *job, bool is_checked);

/* Gives the earliest job back if it has ended; NULL if it hasn't, or none is there. */
IMB_JOB *queue_completed(struct dropin *d, struct queue *queue);

/* Finishes the earliest job and gives it back; NULL if none is there. */
IMB_JOB *queue_flush(struct dropin *d, struct queue *queue);

/* Finishes all jobs of both queues, and gives none back: the proved manager is empty then. */
void finish_all(struct dropin *d);

/* Forgets the jobs that aren't given back. */
void queue_empty(struct queue *queue);

static inline uint32_t queue_len(const struct queue *queue) {
    return queue->next - queue->first;
}

#endif
