#include "parts.h"
#include "at_once.h"
#include "check.h"
#include "errors.h"
#include "slots.h"
#include "unchecked.h"

/* ---- results ---- */

/* Room for the results that come next. No two of them overlap: low and high bound all of them. */
struct rooms {
    uint32_t count;
    uintptr_t low, high;
    struct mbj_raw_done done[MOST_IN_PART];
    COMPAT_ALIGNED_FRAME uint8_t tags[MOST_IN_PART][MBJ_MAX_TAG_BYTES];
};

/* Whether the place of a slot's result overlaps none of the rooms. Mostly it lies before or behind them all. */
static bool is_apart(const struct rooms *rooms, const struct slot *slot) {
    uintptr_t start = (uintptr_t)slot->dst;
    if (slot->dst_len == 0 || start >= rooms->high || start + slot->dst_len <= rooms->low)
        return true;
    for (uint32_t i = 0; i < rooms->count; i++)
        if (overlap(slot->dst, slot->dst_len, rooms->done[i].dst.at, rooms->done[i].dst.len))
            return false;
    return true;
}

static void add_room(struct rooms *rooms, const struct slot *slot) {
    uintptr_t start = (uintptr_t)slot->dst, end = start + slot->dst_len;
    make_room(&rooms->done[rooms->count], rooms->tags[rooms->count], slot);
    rooms->count++;
    if (slot->dst_len != 0) {
        rooms->low = start < rooms->low ? start : rooms->low;
        rooms->high = end > rooms->high ? end : rooms->high;
    }
}

/* A result comes of each job that waits and hasn't ended, in their order. There is room for up to n, and at least for the first one. */
static void make_rooms(struct rooms *rooms, struct queue *queue, uint32_t n) {
    rooms->count = 0;
    rooms->low = UINTPTR_MAX;
    rooms->high = 0;
    for (uint32_t i = queue->waiting; i != queue->next && rooms->count < n && rooms->count < MOST_IN_PART; i++) {
        const struct slot *slot = slot_at(queue, i);
        if (slot->has_ended)
            continue;
        if (!is_apart(rooms, slot))
            return;
        add_room(rooms, slot);
    }
}

/* One of the exports that give results of a burst. */
typedef void (*giving)(struct mbj_handle *, struct mbj_raw_done *, size_t, struct mbj_raw_burst *);

/* Makes the call of the export as many times as there are rooms, and takes what it gives. Returns how many results that are. */
static uint32_t take_results(struct dropin *d, struct queue *queue, struct rooms *rooms, giving call) {
    struct mbj_raw_burst burst = {0, 0, MBJ_ERR_NONE};
    call(&d->handle, rooms->done, rooms->count, &burst);
    for (size_t i = 0; i < burst.given; i++)
        take_result(d, queue, &rooms->done[i]);
    return (uint32_t)burst.given;
}

/* A flush gives a result wherever a job waits. If it didn't, the job would come back as one that failed: none is lost. */
static void flush_some(struct dropin *d, struct queue *queue, uint32_t n) {
    struct rooms rooms;
    make_rooms(&rooms, queue, n);
    for (uint32_t given = take_results(d, queue, &rooms, proved.mbj_c_flush_burst); given < rooms.count; given++) {
        end_slot(d, slot_at(queue, queue->waiting), IMB_STATUS_INTERNAL_ERROR);
        skip_ended(queue);
    }
}

static uint32_t give_some(struct queue *queue, uint32_t n, IMB_JOB **jobs) {
    uint32_t given = 0;
    for (IMB_JOB *job; given < n && (job = give(queue)) != NULL;)
        jobs[given++] = job;
    return given;
}

/* If the earliest job hasn't ended, none behind it is given. */
uint32_t queue_completed_burst(struct dropin *d, struct queue *queue, uint32_t n, IMB_JOB **jobs) {
    uint32_t given = give_some(queue, n, jobs), asked = 1;
    while (given < n && queue->waiting != queue->next) {
        struct rooms rooms;
        make_rooms(&rooms, queue, n - given < asked ? n - given : asked);
        uint32_t taken = take_results(d, queue, &rooms, proved.mbj_c_get_completed_burst);
        given += give_some(queue, n - given, jobs + given);
        if (taken < rooms.count)
            break;
        asked = MOST_IN_PART;
    }
    return given;
}

uint32_t queue_flush_burst(struct dropin *d, struct queue *queue, uint32_t n, IMB_JOB **jobs) {
    uint32_t given = give_some(queue, n, jobs);
    while (given < n && queue->waiting != queue->next) {
        flush_some(d, queue, n - given);
        given += give_some(queue, n - given, jobs + given);
    }
    return given;
}

void queue_finish(struct dropin *d, struct queue *queue) {
    while (queue->waiting != queue->next)
        flush_some(d, queue, MOST_IN_PART);
}

/* ---- jobs ---- */

/* What the proved manager had no memory for comes back, and what stands behind it is submitted. Returns how many are. */
static uint32_t end_refused(IMB_MGR *m, struct part *part, const uint32_t *refusals) {
    struct dropin *d = m->aes128_ooo;
    uint32_t filled = 0;
    for (uint32_t i = 0; i < part->count; i++) {
        forget_form(d, &part->forms[i]);
        if (refusals[i] == MBJ_ERR_NONE) {
            filled++;
        } else {
            set_error(m, error_of_refusal(refusals[i]));
            end_slot(d, part->slots[i], IMB_STATUS_INTERNAL_ERROR);
        }
    }
    return filled;
}

/* All jobs of the part are counted in the queue: each call has room for the result of one of these, or of an earlier one. */
void part_hand_over(IMB_MGR *m, struct queue *queue, struct part *part) {
    struct dropin *d = m->aes128_ooo;
    uint32_t refusals[MOST_IN_PART];
    struct rooms rooms;
    if (part->count == 0)
        return;
    (void)mbj_pool_name(d->pool);
    (void)proved.mbj_c_fill_burst(&d->handle, part->raws, part->count, refusals, part->count);
    uint32_t filled = end_refused(m, part, refusals);
    part_begin(part);
    skip_ended(queue);
    for (; filled != 0; filled -= rooms.count) {
        make_rooms(&rooms, queue, filled);
        (void)take_results(d, queue, &rooms, proved.mbj_c_submit_burst);
    }
}

/* Whether the packets that were gathered leave room for that of this job. */
static bool has_room(const struct part *part, const IMB_JOB *job) {
    if (part->gathered == 0)
        return true;
    bool fits_alone = cipher_bytes(job) <= PACKET_BYTES && hash_bytes(job) <= PACKET_BYTES;
    return fits_alone && most_gathered(job) <= PACKET_BYTES - part->gathered;
}

static bool has_lanes(const struct mbj_raw_job *raw) {
    bool has_hash = raw->auth != MBJ_AUTH_NULL && raw->auth != MBJ_AUTH_GCM && raw->auth != MBJ_AUTH_AES_GMAC;
    return has_hash || (raw->cipher == MBJ_CIPHER_CBC && raw->dir == MBJ_DIR_ENCRYPT);
}

/* Whether the job's form was filled behind the others. */
static bool fill_behind(IMB_MGR *m, struct queue *queue, struct part *part, const IMB_JOB *job, struct slot *slot) {
    struct dropin *d = m->aes128_ooo;
    if (is_done_at_once(job))
        return false;
    if (part->count == MOST_IN_PART || part->alone >= MOST_ALONE || !has_room(part, job))
        part_hand_over(m, queue, part);
    struct raw_form *form = &part->forms[part->count];
    if (!fill_job(d, form, &part->raws[part->count], job, part->gathered))
        return false;
    keep_places(slot, job);
    slot->found = form->found;
    part->slots[part->count++] = slot;
    part->alone += has_lanes(form->raw) ? 0 : form->raw->packet.len;
    if (form->raw->packet.at == d->gathered + form->gathered)
        part->gathered += form->raw->packet.len;
    return true;
}

void part_add(IMB_MGR *m, struct queue *queue, struct part *part, const IMB_JOB *given_job, IMB_JOB *given, bool is_checked) {
    struct dropin *d = m->aes128_ooo;
    struct slot *slot = take_slot(queue, given);
    IMB_JOB copy;
    const IMB_JOB *job = is_checked ? given_job : job_as_taken(given_job, &copy);
    int error = is_checked ? 0 : check_job(job, false);
    if (error != 0) {
        set_error(m, error);
        end_slot(d, slot, IMB_STATUS_INVALID_ARGS);
    } else if (!fill_behind(m, queue, part, job, slot)) {
        part_hand_over(m, queue, part);
        finish_all(d);
        end_slot(d, slot, do_at_once(m, d, job, given));
    }
    queue->next++;
    skip_ended(queue);
}
