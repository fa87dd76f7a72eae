/* The slots of a queue: which job's result goes where, and what is done with it. */
#ifndef COMPAT_SLOTS_H
#define COMPAT_SLOTS_H

#include "queue.h"

static inline struct slot *slot_at(struct queue *queue, uint32_t number) {
    return &queue->slots[number % IMB_MAX_JOBS];
}

static inline void skip_ended(struct queue *queue) {
    while (queue->waiting != queue->next && slot_at(queue, queue->waiting)->has_ended)
        queue->waiting++;
}

/* The slot of the next job. The job is the queue's once it is counted. */
static inline struct slot *take_slot(struct queue *queue, IMB_JOB *given) {
    struct slot *slot = slot_at(queue, queue->next);
    slot->job = given;
    slot->found = 0;
    slot->has_ended = false;
    given->status = IMB_STATUS_BEING_PROCESSED;
    return slot;
}

/* Keeps where the result of a job goes whose arguments are right. */
void keep_places(struct slot *slot, const IMB_JOB *job);

void end_slot(struct dropin *d, struct slot *slot, IMB_STATUS status);

/* Room for the result of a slot's job: the bytes go to their place at once, and the tag behind them, since it may lie within them. */
static inline void make_room(struct mbj_raw_done *done, uint8_t *tag, const struct slot *slot) {
    done->dst = room_at(slot->dst, slot->dst_len);
    done->tag = room_at(tag, MBJ_MAX_TAG_BYTES);
}

/* Takes the result of the earliest job that waits. */
void take_result(struct dropin *d, struct queue *queue, const struct mbj_raw_done *done);

/* Gives the earliest job back if it has ended. */
static inline IMB_JOB *give(struct queue *queue) {
    if (queue->first == queue->waiting)
        return NULL;
    return slot_at(queue, queue->first++)->job;
}

#endif
