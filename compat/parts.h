/* Jobs that go to the proved manager together, and results that come from it together. */
#ifndef COMPAT_PARTS_H
#define COMPAT_PARTS_H

#include "queue.h"
#include "raw_form.h"

/* How many go at once; a longer burst goes in parts. A job that waits for no lanes is done soonest while its packet, which is copied when
 * it is filled, is still in the nearest cache: so a part ends where such packets have together MOST_ALONE bytes. */
enum { MOST_IN_PART = 32, MOST_ALONE = 2048 };

/* Jobs of a queue, the last ones, whose forms are filled and which aren't handed over yet. */
struct part {
    uint32_t count;
    size_t alone;    /* the bytes of the packets of jobs that wait for no lanes */
    size_t gathered; /* the bytes of their packets that were gathered */
    struct raw_form forms[MOST_IN_PART];
    struct mbj_raw_job raws[MOST_IN_PART]; /* their descriptions */
    struct slot *slots[MOST_IN_PART];
};

static inline void part_begin(struct part *part) {
    part->count = 0;
    part->alone = 0;
    part->gathered = 0;
}

/* Adds a job to the queue, which isn't full. The job's arguments are those of `job`, which were found right if it is a checked one, and
 * `given` is what is given back. A part that is full, or before a job that is done at once, is handed over. */
void part_add(IMB_MGR *m, struct queue *queue, struct part *part, const IMB_JOB *job, IMB_JOB *given, bool is_checked);

/* Hands over what was added. */
void part_hand_over(IMB_MGR *m, struct queue *queue, struct part *part);

/* Give up to n jobs back, the earliest ones, if these have ended, or after finishing them. Return how many. */
uint32_t queue_completed_burst(struct dropin *d, struct queue *queue, uint32_t n, IMB_JOB **jobs);
uint32_t queue_flush_burst(struct dropin *d, struct queue *queue, uint32_t n, IMB_JOB **jobs);

/* Finishes all jobs of a queue, and gives none back. */
void queue_finish(struct dropin *d, struct queue *queue);

#endif
