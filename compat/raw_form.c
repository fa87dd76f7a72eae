#include "raw_form.h"
#include "algorithms.h"
#include "bits.h"
#include "raw_key.h"

#include <string.h>

void fill_nothing(struct raw_form *form, struct mbj_raw_job *raw) {
    raw->cipher = MBJ_CIPHER_NULL;
    raw->dir = MBJ_DIR_ENCRYPT;
    raw->order = MBJ_ORDER_CIPHER_HASH;
    raw->auth = MBJ_AUTH_NULL;
    raw->key = raw->iv = raw->auth_key = raw->aad = raw->packet = bytes_at(NULL, 0);
    raw->cipher_off = raw->cipher_len = raw->hash_off = raw->hash_len = 0;
    raw->tag_len = 0;
    raw->session = MBJ_NO_SESSION;
    form->raw = raw;
    form->found = 0;
    form->gathered = 0;
}

static void fill_codes(struct mbj_raw_job *raw, const IMB_JOB *job) {
    raw->cipher = cipher_of(job)->code;
    raw->dir = is_encryption(job) ? MBJ_DIR_ENCRYPT : MBJ_DIR_DECRYPT;
    raw->order = is_hash_first(job) ? MBJ_ORDER_HASH_CIPHER : MBJ_ORDER_CIPHER_HASH;
}

/* A schedule of encryption, and the data of a key of GCM with it, begins with the key (FIPS 197, 5.2). */
static struct mbj_bytes key_of(struct dropin *d, struct raw_form *form, const IMB_JOB *job) {
    const struct cipher *cipher = cipher_of(job);
    size_t len = job->key_len_in_bytes;
    if (cipher->kind != CIPHER_CBC || is_encryption(job))
        return bytes_at(cipher_keys(cipher, job), len);
    form->found = use_key_of_decryption(d, job->dec_keys, len, form->key);
    return bytes_at(form->key, len);
}

void fill_cipher(struct dropin *d, struct raw_form *form, const IMB_JOB *job) {
    fill_codes(form->raw, job);
    if (cipher_of(job)->kind == CIPHER_NONE)
        return;
    form->raw->key = key_of(d, form, job);
    form->raw->iv = bytes_at(job->iv, job->iv_len_in_bytes);
}

static void fill_states(struct raw_form *form, const struct hash *hash, const IMB_JOB *job) {
    turn_words(form->states, job->u.HMAC._hashed_auth_key_xor_ipad, hash->key, hash->word);
    turn_words(form->states + hash->key, job->u.HMAC._hashed_auth_key_xor_opad, hash->key, hash->word);
    form->raw->auth_key = bytes_at(form->states, 2 * hash->key);
}

void fill_hash(struct raw_form *form, const IMB_JOB *job) {
    const struct hash *hash = hash_of(job);
    form->raw->auth = hash->code;
    form->raw->tag_len = hash->kind == HASH_NONE ? 0 : (uint8_t)job->auth_tag_output_len_in_bytes;
    if (hash->kind == HASH_HMAC)
        fill_states(form, hash, job);
    if (hash->kind == HASH_CMAC)
        form->raw->auth_key = bytes_at(job->u.CMAC._key_expanded, hash->key);
    if (hash->kind == HASH_GMAC) {
        form->raw->auth_key = bytes_at(job->u.GMAC._key->expanded_keys, hash->key);
        form->raw->iv = bytes_at(job->u.GMAC._iv, job->u.GMAC.iv_len_in_bytes);
    }
}

void fill_aead(struct raw_form *form, const IMB_JOB *job) {
    bool is_ccm = cipher_of(job)->kind == CIPHER_CCM;
    const void *aad = is_ccm ? job->u.CCM.aad : job->u.GCM.aad;
    fill_codes(form->raw, job);
    form->raw->key = bytes_at(cipher_keys(cipher_of(job), job), job->key_len_in_bytes);
    form->raw->iv = bytes_at(job->iv, job->iv_len_in_bytes);
    form->raw->auth = hash_of(job)->code;
    form->raw->tag_len = (uint8_t)job->auth_tag_output_len_in_bytes;
    form->raw->aad = bytes_at(aad, is_ccm ? job->u.CCM.aad_len_in_bytes : job->u.GCM.aad_len_in_bytes);
    form->raw->packet = bytes_at(cipher_start(job), job->msg_len_to_cipher_in_bytes);
    form->raw->cipher_len = job->msg_len_to_cipher_in_bytes;
}

void forget_form(struct dropin *d, struct raw_form *form) {
    if (form->raw->key.at == form->key)
        wipe(form->key, sizeof form->key);
    if (form->raw->auth_key.at == form->states)
        wipe(form->states, sizeof form->states);
    if (form->raw->packet.at == d->gathered + form->gathered)
        wipe(d->gathered + form->gathered, form->raw->packet.len);
}

bool overlap(const void *a, uint64_t a_len, const void *b, uint64_t b_len) {
    uintptr_t x = (uintptr_t)a, y = (uintptr_t)b;
    return a_len != 0 && b_len != 0 && (x < y ? y - x < a_len : x - y < b_len);
}

/* One packet of two ranges that overlap: the bytes as they lie, or a copy, if the cipher's come from elsewhere. */
static bool fill_span(struct mbj_raw_job *raw, const IMB_JOB *job, const uint8_t *ciphered, uint8_t *gathered) {
    const uint8_t *hashed = hash_start(job), *start = ciphered < hashed ? ciphered : hashed;
    const uint8_t *end = ciphered + raw->cipher_len, *hash_end = hashed + raw->hash_len;
    size_t len = (size_t)((end > hash_end ? end : hash_end) - start);
    if (len > PACKET_BYTES)
        return false;
    raw->cipher_off = (uint64_t)(ciphered - start);
    raw->hash_off = (uint64_t)(hashed - start);
    raw->packet = bytes_at(start, len);
    if (ciphered != cipher_start(job)) {
        memcpy(gathered, start, len);
        memcpy(gathered + raw->cipher_off, cipher_start(job), raw->cipher_len);
        raw->packet = bytes_at(gathered, len);
    }
    return true;
}

static bool fill_both(struct mbj_raw_job *raw, const IMB_JOB *job, uint8_t *gathered) {
    if (raw->cipher_len + raw->hash_len > PACKET_BYTES)
        return false;
    memcpy(gathered, cipher_start(job), raw->cipher_len);
    memcpy(gathered + raw->cipher_len, hash_start(job), raw->hash_len);
    raw->hash_off = raw->cipher_len;
    raw->packet = bytes_at(gathered, raw->cipher_len + raw->hash_len);
    return true;
}

/* What is hashed is what lies in the range when the cipher has written, or before it has: so the bytes that are ciphered stand in the
 * packet where the destination is, or where the source is. */
bool fill_ranges(struct dropin *d, struct raw_form *form, const IMB_JOB *job) {
    struct mbj_raw_job *raw = form->raw;
    raw->cipher_len = cipher_bytes(job);
    raw->hash_len = hash_bytes(job);
    if (raw->cipher_len > PACKET_BYTES || raw->hash_len > PACKET_BYTES)
        return false;
    raw->packet = raw->cipher == MBJ_CIPHER_NULL ? bytes_at(hash_start(job), raw->hash_len) : bytes_at(cipher_start(job), raw->cipher_len);
    if (raw->cipher == MBJ_CIPHER_NULL || raw->auth == MBJ_AUTH_NULL)
        return true;
    const uint8_t *ciphered = is_hash_first(job) ? cipher_start(job) : job->dst;
    if (overlap(ciphered, raw->cipher_len, hash_start(job), raw->hash_len))
        return fill_span(raw, job, ciphered, d->gathered + form->gathered);
    return fill_both(raw, job, d->gathered + form->gathered);
}

bool fill_job(struct dropin *d, struct raw_form *form, struct mbj_raw_job *raw, const IMB_JOB *job, size_t gathered) {
    fill_nothing(form, raw);
    form->gathered = gathered;
    if (cipher_of(job)->partner != 0) {
        fill_aead(form, job);
        return true;
    }
    fill_cipher(d, form, job);
    fill_hash(form, job);
    if (!fill_ranges(d, form, job)) {
        forget_form(d, form);
        leave_key(d, form->found);
        return false;
    }
    if (hash_open_bits(job) != 0)
        fill_padded(d, form, job);
    return true;
}

/* Of both ranges, which are no longer than a packet, or of the hash's in whole blocks. */
size_t most_gathered(const IMB_JOB *job) {
    return cipher_of(job)->partner != 0 ? 0 : cipher_bytes(job) + hash_bytes(job) + 16;
}
