#include "gcm.h"
#include "algorithms.h"
#include "raw_form.h"

#include <string.h>

/* ---- whole texts ---- */

/* What the exports write may not overlap what they read. */
static bool is_apart(const struct gcm_text *text) {
    return !overlap(text->out, text->len, text->key.at, text->key.len) && !overlap(text->out, text->len, text->iv.at, text->iv.len) &&
           !overlap(text->out, text->len, text->aad.at, text->aad.len);
}

static uint32_t change_apart(const struct gcm_text *text, uint8_t *tag) {
    __typeof__(proved.mbj_gcm_seal) change = text->dir == MBJ_DIR_ENCRYPT ? proved.mbj_gcm_seal : proved.mbj_gcm_decrypt_unverified;
    if (text->out != text->in && text->len != 0)
        memmove(text->out, text->in, text->len);
    return change(text->key, text->iv, text->aad, room_at(text->out, text->len), room_at(tag, text->tag_len));
}

/* The additional data may lie where the text goes: it is read before. */
static uint32_t change_in_parts(const struct gcm_text *text, uint8_t *tag) {
    COMPAT_ALIGNED_FRAME struct mbj_gcm_state state;
    uint32_t refusal = proved.mbj_gcm_init(&state, text->dir, text->key, text->iv, text->aad);
    if (refusal != MBJ_ERR_NONE)
        return refusal;
    if (text->out != text->in)
        memmove(text->out, text->in, text->len);
    refusal = proved.mbj_gcm_update(&state, room_at(text->out, text->len));
    if (refusal == MBJ_ERR_NONE)
        refusal = proved.mbj_gcm_finish(&state, room_at(tag, text->tag_len));
    wipe(&state, sizeof state);
    return refusal;
}

/* What the exports would refuse: looked at before the text is moved. */
static uint32_t refusal_of(const struct gcm_text *text) {
    if (text->iv.len == 0 || text->iv.len > PACKET_BYTES)
        return MBJ_ERR_IV_LENGTH;
    return text->tag_len == 0 || text->tag_len > GCM_TAG_BYTES ? MBJ_ERR_TAG_LENGTH : MBJ_ERR_NONE;
}

uint32_t gcm_whole(const struct gcm_text *text) {
    COMPAT_ALIGNED_FRAME uint8_t tag[GCM_TAG_BYTES];
    uint32_t refusal = has_build() ? refusal_of(text) : (uint32_t)MBJ_ERR_PROCESSOR;
    if (refusal == MBJ_ERR_NONE)
        refusal = is_apart(text) ? change_apart(text, tag) : change_in_parts(text, tag);
    if (refusal == MBJ_ERR_NONE)
        memcpy(text->tag, tag, text->tag_len);
    return refusal;
}

uint32_t gcm_long_job(const struct gcm_key_data *key, const IMB_JOB *job) {
    struct gcm_text text = {
        .dir = is_encryption(job) ? MBJ_DIR_ENCRYPT : MBJ_DIR_DECRYPT,
        .key = bytes_at(key->expanded_keys, job->key_len_in_bytes),
        .iv = bytes_at(job->iv, job->iv_len_in_bytes),
        .aad = bytes_at(job->u.GCM.aad, job->u.GCM.aad_len_in_bytes),
        .out = job->dst,
        .in = cipher_start(job),
        .len = job->msg_len_to_cipher_in_bytes,
        .tag = job->auth_tag_output,
        .tag_len = job->auth_tag_output_len_in_bytes,
    };
    return gcm_whole(&text);
}

/* ---- parts ---- */

/* A state of mbj.h: the key and its length, the direction, and what follows from the rest of the text so far. */
struct parts {
    uint8_t key[LONGEST_KEY];
    uint32_t key_len, dir;
    uint8_t rest[80];
};

_Static_assert(sizeof(struct parts) == sizeof(struct mbj_gcm_state), "mbj.h says where the key stands in a state");
_Static_assert(sizeof(struct parts) - LONGEST_KEY == sizeof(struct gcm_context_data), "a context has room for a state without its key");

/* False if the context is none of a key of this length: then no key is copied. */
static bool load(struct parts *parts, const struct gcm_context_data *context, const struct gcm_key_data *key, size_t key_len) {
    memcpy(&parts->key_len, context, sizeof *context);
    if (parts->key_len != key_len)
        return false;
    memset(parts->key, 0, sizeof parts->key);
    memcpy(parts->key, key->expanded_keys, key_len);
    return true;
}

static void store(struct gcm_context_data *context, struct parts *parts) {
    memcpy(context, &parts->key_len, sizeof *context);
    wipe(parts, sizeof *parts);
}

uint32_t gcm_begin(struct gcm_context_data *context, const struct gcm_key_data *key, size_t key_len, struct mbj_bytes iv,
                   struct mbj_bytes aad) {
    COMPAT_ALIGNED_FRAME struct mbj_gcm_state state;
    struct parts parts;
    uint32_t refusal = proved.mbj_gcm_init(&state, MBJ_DIR_ENCRYPT, bytes_at(key->expanded_keys, key_len), iv, aad);
    if (refusal != MBJ_ERR_NONE) {
        memset(context, 0, sizeof *context);
        return refusal;
    }
    memcpy(&parts, &state, sizeof parts);
    store(context, &parts);
    wipe(&state, sizeof state);
    return MBJ_ERR_NONE;
}

/* What is given a state that is none, or of a key of another length, is refused. The direction is that of the call: a context is begun
 * without one. A text that was moved isn't left if it was to be changed. */
uint32_t gcm_part(struct gcm_context_data *context, const struct gcm_key_data *key, size_t key_len, uint32_t dir, uint8_t *out,
                  const uint8_t *in, uint64_t len) {
    COMPAT_ALIGNED_FRAME struct mbj_gcm_state state;
    struct parts parts;
    if (!load(&parts, context, key, key_len))
        return MBJ_ERR_NO_STATE;
    parts.dir = dir;
    memcpy(&state, &parts, sizeof state);
    if (out != in && len != 0)
        memmove(out, in, len);
    uint32_t refusal = proved.mbj_gcm_update(&state, room_at(out, len));
    if (refusal != MBJ_ERR_NONE && out != in && len != 0)
        memset(out, 0, len);
    memcpy(&parts, &state, sizeof parts);
    store(context, &parts);
    wipe(&state, sizeof state);
    return refusal;
}

uint32_t gcm_end(struct gcm_context_data *context, const struct gcm_key_data *key, size_t key_len, uint8_t *tag, size_t tag_len) {
    COMPAT_ALIGNED_FRAME struct mbj_gcm_state state;
    struct parts parts;
    uint8_t whole[GCM_TAG_BYTES];
    if (tag_len > sizeof whole || !load(&parts, context, key, key_len))
        return tag_len > sizeof whole ? MBJ_ERR_TAG_LENGTH : MBJ_ERR_NO_STATE;
    memcpy(&state, &parts, sizeof state);
    wipe(&parts, sizeof parts);
    uint32_t refusal = proved.mbj_gcm_finish(&state, room_at(whole, tag_len));
    if (refusal == MBJ_ERR_NONE) {
        memcpy(tag, whole, tag_len);
        memset(context, 0, sizeof *context);
    }
    wipe(&state, sizeof state);
    return refusal;
}

/* ---- jobs in parts ---- */

static uint32_t do_segments(const struct gcm_key_data *key, const IMB_JOB *job, uint32_t dir) {
    uint32_t refusal = MBJ_ERR_NONE;
    for (uint64_t i = 0; i < job->num_sgl_io_segs && refusal == MBJ_ERR_NONE; i++) {
        const struct IMB_SGL_IOV *segment = &job->sgl_io_segs[i];
        refusal = gcm_part(job->u.GCM.ctx, key, job->key_len_in_bytes, dir, segment->out, segment->in, segment->len);
    }
    return refusal;
}

uint32_t gcm_job_in_parts(const struct gcm_key_data *key, const IMB_JOB *job) {
    struct gcm_context_data *context = job->u.GCM.ctx;
    struct mbj_bytes iv = bytes_at(job->iv, job->iv_len_in_bytes), aad = bytes_at(job->u.GCM.aad, job->u.GCM.aad_len_in_bytes);
    uint32_t dir = is_encryption(job) ? MBJ_DIR_ENCRYPT : MBJ_DIR_DECRYPT, refusal = MBJ_ERR_NONE;
    size_t key_len = job->key_len_in_bytes;
    if (job->sgl_state == IMB_SGL_INIT || has_segments(job))
        refusal = gcm_begin(context, key, key_len, iv, aad);
    if (job->sgl_state == IMB_SGL_UPDATE)
        refusal = gcm_part(context, key, key_len, dir, job->dst, job->src, job->msg_len_to_cipher_in_bytes);
    if (has_segments(job) && refusal == MBJ_ERR_NONE)
        refusal = do_segments(key, job, dir);
    if ((job->sgl_state == IMB_SGL_COMPLETE || has_segments(job)) && refusal == MBJ_ERR_NONE)
        refusal = gcm_end(context, key, key_len, job->auth_tag_output, job->auth_tag_output_len_in_bytes);
    return refusal;
}
