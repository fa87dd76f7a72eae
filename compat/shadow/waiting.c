#include "waiting.h"
#include "counts.h"
#include "feed.h"
#include "fit.h"
#include "settings.h"
#include "take.h"

#include <string.h>

/* ---- taking ---- */

static bool is_unchecked(enum call way) {
    return way == CALL_JOB_UNCHECKED || way == CALL_BURST_UNCHECKED || way == CALL_ARRAY_UNCHECKED;
}

/* Whether a due job can be compared; else it is counted. */
static bool is_comparable(const IMB_JOB *job, enum call way, bool may_be_wrong, int *error) {
    switch (fit_of_job(job, !is_unchecked(way), error)) {
    case FIT: return true;
    case FIT_REFUSED: return may_be_wrong;
    case FIT_ABSENT: count_skipped(job); return false;
    case FIT_UNSPECIFIED: count_more(COUNT_UNSPECIFIED, 1); return false;
    default: return false;
    }
}

static struct sample *build(struct behind *b, const IMB_JOB *job, const IMB_JOB *from, enum call way, int error) {
    struct builder builder;
    _Atomic uint8_t *not_yet = &not_yet_of_jobs[class_of_job(job)];
    size_t bytes = error != 0 ? sizeof(struct sample) + RECORD_LINE : job_sample_bytes(job);
    if (!take_due(not_yet, bytes))
        return NULL;
    void *room = records_reserve(&b->waiting, bytes);
    if (room == NULL) {
        count_more(COUNT_DROPPED, 1);
        return NULL;
    }
    builder_begin(&builder, room, bytes, KIND_JOB, way);
    builder.sample->job = *job;
    if (error == 0 && !take_job(&builder, job)) {
        count_more(COUNT_DROPPED, 1);
        return NULL;
    }
    builder.sample->error = error;
    builder.sample->is_unsent = error != 0;
    builder.sample->from = from;
    builder.sample->table = (uint8_t)b->table;
    records_append(&b->waiting, builder.sample->size);
    return builder.sample;
}

struct sample *take_waiting(struct behind *b, const IMB_JOB *job, enum call way, bool may_be_wrong) {
    int error = 0;
    if (!is_comparable(job, way, may_be_wrong, &error)) {
        pass_due(&not_yet_of_jobs[class_of_job(job)]);
        return NULL;
    }
    struct sample *sample = build(b, job, job, way, error);
    if (sample != NULL && b->expected == NULL)
        b->expected = job;
    return sample;
}

struct sample *take_of_array(struct behind *b, const IMB_JOB *job, const IMB_JOB *from, enum call way) {
    int error = 0;
    if (is_comparable(job, way, false, &error))
        return build(b, job, from, way, error);
    pass_due(&not_yet_of_jobs[class_of_job(job)]);
    return NULL;
}

/* ---- giving ---- */

/* The sample goes to the thread's feed, with the results behind it. */
void give_sample(const struct sample *waiting, IMB_STATUS status) {
    size_t bytes = waiting->size + waiting->text.len + waiting->tag.len + 2 * RECORD_LINE;
    struct sample *sample = feed_room(bytes);
    if (sample == NULL)
        return;
    memcpy(sample, waiting, waiting->size);
    sample->their_status = status;
    struct builder builder = {.sample = sample, .used = sample->size, .room = bytes};
    if (put_results(&builder, sample->job.dst, sample->job.auth_tag_output))
        feed_give(sample);
    else
        count_more(COUNT_DROPPED, 1);
}

/* A job at the same place that is another one came there by a way that the checker doesn't see. What a process took that forked, that one
 * compares. */
static bool is_same_job(const struct sample *sample, const IMB_JOB *back) {
    const IMB_JOB *job = &sample->job;
    return sample->from == back && job->src == back->src && job->dst == back->dst && job->auth_tag_output == back->auth_tag_output &&
           job->user_data == back->user_data && job->user_data2 == back->user_data2;
}

void give_waiting(struct behind *b, const IMB_JOB *back) {
    const struct sample *sample = records_first(&b->waiting);
    if (sample == NULL || sample->from != back)
        return;
    if (sample->process == this_process && is_same_job(sample, back))
        give_sample(sample, back->status);
    else
        count_more(COUNT_DROPPED, sample->process == this_process);
    records_drop(&b->waiting);
    sample = records_first(&b->waiting);
    b->expected = sample == NULL ? NULL : sample->from;
}

void take_back_waiting(struct behind *b, uint64_t head) {
    for (uint64_t place = head; records_next(&b->waiting, &place) != NULL;)
        count_more(COUNT_SAMPLED, UINT64_MAX); /* one less */
    records_rewind(&b->waiting, head);
    if (records_first(&b->waiting) == NULL)
        b->expected = NULL;
}
