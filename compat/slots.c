#include "slots.h"
#include "algorithms.h"
#include "errors.h"
#include "raw_key.h"

#include <string.h>

void keep_places(struct slot *slot, const IMB_JOB *job) {
    uint64_t len = cipher_bytes(job);
    unsigned open_bits = cipher_open_bits(job);
    slot->dst = job->dst;
    slot->dst_len = len;
    slot->tag = job->auth_tag_output;
    slot->kept = open_bits != 0 ? 0xff >> open_bits : 0;
    slot->last_byte = open_bits != 0 ? job->dst[len - 1] : 0;
}

void end_slot(struct dropin *d, struct slot *slot, IMB_STATUS status) {
    slot->job->status = status;
    slot->has_ended = true;
    leave_key(d, slot->found);
    slot->found = 0;
}

void take_result(struct dropin *d, struct queue *queue, const struct mbj_raw_done *done) {
    struct slot *slot = slot_at(queue, queue->waiting);
    if (done->status != 0)
        set_error(manager_of(d), error_of_reason(done->reason));
    if (done->status == 0 && done->tag_len != 0)
        memcpy(slot->tag, done->tag.at, done->tag_len);
    if (done->status == 0 && slot->kept != 0) {
        uint8_t *last = slot->dst + slot->dst_len - 1;
        *last = (uint8_t)((*last & ~slot->kept) | (slot->last_byte & slot->kept));
    }
    end_slot(d, slot, done->status == 0 ? IMB_STATUS_COMPLETED : IMB_STATUS_INVALID_ARGS);
    skip_ended(queue);
}
