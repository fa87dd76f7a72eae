#include "run.h"
#include "keys.h"
#include "take.h"

/* ---- direct calls ---- */

static void run_whole(const struct direct *calls, const struct sample *sample, uint8_t *image) {
    struct gcm_context_data context;
    unsigned dir = sample->dir == IMB_DIR_ENCRYPT ? 0 : 1;
    calls->whole[dir][sample->which % KEY_SIZES](input_of(sample, INPUT_KEY), &context, image, image, sample->text.len,
                                                 input_of(sample, INPUT_IV), input_of(sample, INPUT_AAD), sample->inputs[INPUT_AAD].len,
                                                 image + sample->tag.off, sample->tag.len);
}

static void run_parts(const struct direct *calls, const struct sample *sample, uint8_t *image) {
    const struct gcm_key_data *key = input_of(sample, INPUT_KEY);
    struct gcm_context_data context;
    unsigned dir = sample->dir == IMB_DIR_ENCRYPT ? 0 : 1, size = sample->which;
    calls->begin_with_iv[size](key, &context, input_of(sample, INPUT_IV), sample->inputs[INPUT_IV].len, input_of(sample, INPUT_AAD),
                               sample->inputs[INPUT_AAD].len);
    if (sample->text.len != 0)
        calls->part[dir][size](key, &context, image, image, sample->text.len);
    calls->end[dir][size](key, &context, image + sample->tag.off, sample->tag.len);
}

static void run_gmac(const struct direct *calls, const struct sample *sample, uint8_t *image) {
    const struct gcm_key_data *key = input_of(sample, INPUT_KEY);
    struct gcm_context_data context;
    unsigned size = sample->which;
    calls->gmac_begin[size](key, &context, input_of(sample, INPUT_IV), sample->inputs[INPUT_IV].len);
    if (sample->inputs[INPUT_AAD].len != 0)
        calls->gmac_part[size](key, &context, input_of(sample, INPUT_AAD), sample->inputs[INPUT_AAD].len);
    calls->gmac_end[size](key, &context, image + sample->tag.off, sample->tag.len);
}

/* One schedule, or both. */
static void run_keys(const struct direct *calls, const struct sample *sample, uint8_t *image) {
    _Alignas(16) uint8_t unused[LONGEST_SCHEDULE];
    size_t len = 16 * (sample->inputs[INPUT_KEY].len / 4 + 7);
    calls->expand[sample->which](input_of(sample, INPUT_KEY), image, sample->text.len > len ? image + len : unused);
    wipe(unused, sizeof unused);
}

void run_call(const struct direct *calls, const struct sample *sample, uint8_t *image) {
    enum { SUBKEY = 16 };
    switch (sample->kind) {
    case KIND_GCM: run_whole(calls, sample, image); break;
    case KIND_GCM_IN_PARTS: run_parts(calls, sample, image); break;
    case KIND_GMAC_IN_PARTS: run_gmac(calls, sample, image); break;
    case KIND_KEYS: run_keys(calls, sample, image); break;
    case KIND_SUBKEYS: calls->subkeys[sample->which](input_of(sample, INPUT_KEY), image, image + SUBKEY); break;
    case KIND_BLOCK: calls->block[sample->which](input_of(sample, INPUT_FIRST), image); break;
    case KIND_DIGEST:
        calls->digest[sample->which](bytes_of(sample, sample->inputs[INPUT_AAD]), sample->inputs[INPUT_AAD].len, image);
        break;
    default: break;
    }
}

/* ---- jobs ---- */

bool is_checked_job(const struct sample *sample) {
    return sample->call == CALL_JOB || sample->call == CALL_BURST || sample->call == CALL_ARRAY;
}

IMB_STATUS run_alone(IMB_MGR *m, const struct sample *sample, uint8_t *image) {
    if (sample->kind != KIND_JOB) {
        struct direct calls;
        direct_of_manager(&calls, m);
        run_call(&calls, sample, image);
        return IMB_STATUS_COMPLETED;
    }
    job_of_sample(m->get_next_job(m), sample, image);
    const IMB_JOB *back = is_checked_job(sample) ? m->submit_job(m) : m->submit_job_nocheck(m);
    if (back == NULL)
        back = m->flush_job(m);
    return back == NULL ? IMB_STATUS_INTERNAL_ERROR : back->status;
}
