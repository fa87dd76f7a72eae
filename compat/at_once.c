#include "at_once.h"
#include "algorithms.h"
#include "bits.h"
#include "errors.h"
#include "gcm.h"
#include "pieces.h"

#include <string.h>

/* ---- which jobs ---- */

/* The tag is written before the cipher, over bytes that it reads or writes. */
static bool is_tag_ciphered(const IMB_JOB *job) {
    uint64_t tag_len = job->auth_tag_output_len_in_bytes, len = cipher_bytes(job);
    const uint8_t *tag = job->auth_tag_output;
    return is_hash_first(job) && (overlap(tag, tag_len, cipher_start(job), len) || overlap(tag, tag_len, job->dst, len));
}

static bool is_long_aead(const IMB_JOB *job) {
    bool is_gcm = cipher_of(job)->kind == CIPHER_GCM;
    return cipher_bytes(job) > PACKET_BYTES || (is_gcm && job->u.GCM.aad_len_in_bytes > PACKET_BYTES);
}

bool is_done_at_once(const IMB_JOB *job) {
    const struct cipher *cipher = cipher_of(job);
    const struct hash *hash = hash_of(job);
    if (cipher->partner != 0)
        return cipher->is_in_parts || is_long_aead(job);
    if (cipher->kind == CIPHER_CUSTOM || hash->kind == HASH_CUSTOM || counter_wraps(job))
        return true;
    if (cipher->kind == CIPHER_NONE || hash->kind == HASH_NONE)
        return cipher_bytes(job) > PACKET_BYTES || hash_bytes(job) > PACKET_BYTES || is_padded_long(job);
    return hash->kind == HASH_GMAC || cipher_open_bits(job) != 0 || hash_open_bits(job) != 0 || is_tag_ciphered(job);
}

/* ---- doing them ---- */

static IMB_STATUS status_of_refusal(IMB_MGR *m, uint32_t refusal) {
    if (refusal == MBJ_ERR_NONE)
        return IMB_STATUS_COMPLETED;
    set_error(m, error_of_refusal(refusal));
    return refusal == MBJ_ERR_MEMORY ? IMB_STATUS_INTERNAL_ERROR : IMB_STATUS_INVALID_ARGS;
}

static IMB_STATUS custom(int (*function)(IMB_JOB *), IMB_JOB *given) {
    return function(given) == 0 ? IMB_STATUS_COMPLETED : IMB_STATUS_INTERNAL_ERROR;
}

static IMB_STATUS do_cipher(IMB_MGR *m, struct dropin *d, const IMB_JOB *job, IMB_JOB *given) {
    switch (cipher_of(job)->kind) {
    case CIPHER_NONE: return IMB_STATUS_COMPLETED;
    case CIPHER_CUSTOM: return custom(job->cipher_func, given);
    default: return cipher_in_pieces(m, d, job);
    }
}

static uint32_t put_gmac(const struct hash *hash, const IMB_JOB *job, struct mbj_bytes text, struct mbj_room tag) {
    struct mbj_bytes key = bytes_at(job->u.GMAC._key->expanded_keys, hash->key);
    struct mbj_bytes iv = bytes_at(job->u.GMAC._iv, job->u.GMAC.iv_len_in_bytes);
    return proved.mbj_gcm_seal(key, iv, text, room_at(NULL, 0), tag);
}

/* A digest, or GMAC, of a text that is longer than a packet. */
static IMB_STATUS do_long_hash(IMB_MGR *m, const struct hash *hash, const IMB_JOB *job) {
    uint8_t whole[MBJ_MAX_TAG_BYTES];
    struct mbj_bytes text = bytes_at(hash_start(job), hash_bytes(job));
    struct mbj_room tag = room_at(whole, hash->longest);
    uint32_t refusal = MBJ_ERR_TEXT_LENGTH;
    if (hash->kind == HASH_SHA)
        refusal = proved.mbj_digest(hash->hash, text, tag);
    if (hash->kind == HASH_GMAC)
        refusal = put_gmac(hash, job, text, tag);
    if (refusal == MBJ_ERR_NONE)
        memcpy(job->auth_tag_output, whole, job->auth_tag_output_len_in_bytes);
    return status_of_refusal(m, refusal);
}

static IMB_STATUS do_hash(IMB_MGR *m, struct dropin *d, const IMB_JOB *job, IMB_JOB *given) {
    const struct hash *hash = hash_of(job);
    struct mbj_raw_job raw;
    struct raw_form form;
    if (hash->kind == HASH_NONE)
        return IMB_STATUS_COMPLETED;
    if (hash->kind == HASH_CUSTOM)
        return custom(job->hash_func, given);
    if (hash_bytes(job) > PACKET_BYTES)
        return do_long_hash(m, hash, job);
    if (is_padded_long(job))
        return do_padded_long(m, d, job);
    fill_nothing(&form, &raw);
    fill_hash(&form, job);
    form.raw->packet = bytes_at(hash_start(job), hash_bytes(job));
    form.raw->hash_len = hash_bytes(job);
    if (hash_open_bits(job) != 0)
        fill_padded(d, &form, job);
    return do_alone(m, d, &form, NULL, job->auth_tag_output);
}

static IMB_STATUS do_gcm(IMB_MGR *m, const IMB_JOB *job) {
    const struct gcm_key_data *key = cipher_keys(cipher_of(job), job);
    uint32_t refusal = cipher_of(job)->is_in_parts ? gcm_job_in_parts(key, job) : gcm_long_job(key, job);
    return status_of_refusal(m, refusal);
}

IMB_STATUS do_at_once(IMB_MGR *m, struct dropin *d, const IMB_JOB *job, IMB_JOB *given) {
    if (cipher_of(job)->kind == CIPHER_GCM)
        return do_gcm(m, job);
    IMB_STATUS first = is_hash_first(job) ? do_hash(m, d, job, given) : do_cipher(m, d, job, given);
    if (first != IMB_STATUS_COMPLETED)
        return first;
    return is_hash_first(job) ? do_cipher(m, d, job, given) : do_hash(m, d, job, given);
}
