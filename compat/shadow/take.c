#include "take.h"
#include "algorithms.h"
#include "unchecked.h"

#include <string.h>

enum { STATES = 2, SUBKEY = 16, BLOCK = 16 };

static size_t schedule_bytes(uint64_t key_len) {
    return 16 * (key_len / 4 + 7);
}

static bool is_aead(const IMB_JOB *job) {
    return cipher_of(job)->partner != 0;
}

/* The range that an authentication reads besides the cipher. */
static uint64_t own_hash_bytes(const IMB_JOB *job) {
    return is_aead(job) ? 0 : hash_bytes(job);
}

static uint64_t tag_bytes(const IMB_JOB *job) {
    return hash_of(job)->kind == HASH_NONE ? 0 : job->auth_tag_output_len_in_bytes;
}

static uint64_t aad_bytes(const IMB_JOB *job) {
    if (!is_aead(job))
        return 0;
    return cipher_of(job)->kind == CIPHER_CCM ? job->u.CCM.aad_len_in_bytes : job->u.GCM.aad_len_in_bytes;
}

static uint64_t iv_bytes(const IMB_JOB *job) {
    uint64_t of_gmac = hash_of(job)->kind == HASH_GMAC ? job->u.GMAC.iv_len_in_bytes : 0;
    return of_gmac + (cipher_of(job)->kind == CIPHER_NONE ? 0 : job->iv_len_in_bytes);
}

size_t job_sample_bytes(const IMB_JOB *job) {
    IMB_JOB copy;
    const IMB_JOB *taken = job_as_taken(job, &copy);
    uint64_t text = cipher_bytes(taken), hashed = own_hash_bytes(taken), aad = aad_bytes(taken);
    if (text > MOST_SAMPLE || hashed > MOST_SAMPLE || aad > MOST_SAMPLE)
        return SIZE_MAX;
    size_t bytes = most_bytes_of(2 * sizeof(struct gcm_key_data) + aad + iv_bytes(taken), 2 * text + hashed + tag_bytes(taken),
                                 text + tag_bytes(taken));
    return bytes > MOST_SAMPLE ? SIZE_MAX : bytes;
}

/* ---- what is read besides the text ---- */

static void take_cipher(struct builder *builder, const IMB_JOB *job) {
    struct range *inputs = builder->sample->inputs;
    const struct cipher *cipher = cipher_of(job);
    if (cipher->kind == CIPHER_NONE)
        return;
    size_t len = cipher->kind == CIPHER_GCM ? sizeof(struct gcm_key_data) : schedule_bytes(job->key_len_in_bytes);
    inputs[INPUT_KEY] = builder_put(builder, cipher_keys(cipher, job), len);
    inputs[INPUT_IV] = builder_put(builder, job->iv, job->iv_len_in_bytes);
}

static void take_hash(struct builder *builder, const IMB_JOB *job) {
    struct range *inputs = builder->sample->inputs;
    const struct hash *hash = hash_of(job);
    switch (hash->kind) {
    case HASH_HMAC:
        inputs[INPUT_FIRST] = builder_put(builder, job->u.HMAC._hashed_auth_key_xor_ipad, hash->key);
        inputs[INPUT_SECOND] = builder_put(builder, job->u.HMAC._hashed_auth_key_xor_opad, hash->key);
        break;
    case HASH_CMAC:
        inputs[INPUT_FIRST] = builder_put(builder, job->u.CMAC._key_expanded, schedule_bytes(hash->key));
        inputs[INPUT_SECOND] = builder_put(builder, job->u.CMAC._skey1, SUBKEY);
        inputs[INPUT_THIRD] = builder_put(builder, job->u.CMAC._skey2, SUBKEY);
        break;
    case HASH_GMAC:
        inputs[INPUT_FIRST] = builder_put(builder, job->u.GMAC._key, sizeof(struct gcm_key_data));
        inputs[INPUT_SECOND] = builder_put(builder, job->u.GMAC._iv, job->u.GMAC.iv_len_in_bytes);
        break;
    case HASH_OF_GCM: inputs[INPUT_AAD] = builder_put(builder, job->u.GCM.aad, aad_bytes(job)); break;
    case HASH_OF_CCM: inputs[INPUT_AAD] = builder_put(builder, job->u.CCM.aad, aad_bytes(job)); break;
    default: break;
    }
}

/* ---- the image ---- */

/* Adds a range to pieces that are in order and apart, so that they stay so: what overlaps it becomes one piece with it. */
static unsigned add_piece(struct piece *pieces, unsigned n, const void *from, uint64_t len) {
    uintptr_t start = (uintptr_t)from, end = start + len;
    unsigned kept = 0;
    if (len == 0)
        return n;
    for (unsigned i = 0; i < n; i++) {
        uintptr_t other = pieces[i].from, other_end = other + pieces[i].at.len;
        if (other_end <= start || end <= other) {
            pieces[kept++] = pieces[i];
            continue;
        }
        start = other < start ? other : start;
        end = other_end > end ? other_end : end;
    }
    unsigned place = kept;
    for (; place > 0 && pieces[place - 1].from > start; place--)
        pieces[place] = pieces[place - 1];
    pieces[place] = (struct piece){start, {0, (uint32_t)(end - start)}};
    return kept + 1;
}

/* Where the sample's image has what is at this address, counted from the image's beginning. */
static uint32_t place_of(const struct sample *sample, const void *at) {
    for (unsigned i = 0; i < PIECES; i++)
        if ((uintptr_t)at - sample->pieces[i].from < sample->pieces[i].at.len)
            return sample->pieces[i].at.off + (uint32_t)((uintptr_t)at - sample->pieces[i].from);
    return 0;
}

/* All that is read and written as text, hash range and tag: overlaps stay as they are, and what lies between isn't copied. */
static void take_image(struct builder *builder, const IMB_JOB *job) {
    struct sample *sample = builder->sample;
    uint64_t text = cipher_bytes(job), tag = tag_bytes(job);
    size_t len = 0;
    unsigned n = add_piece(sample->pieces, 0, cipher_start(job), text);
    n = add_piece(sample->pieces, n, job->dst, text);
    n = add_piece(sample->pieces, n, hash_start(job), own_hash_bytes(job));
    n = add_piece(sample->pieces, n, job->auth_tag_output, tag);
    for (unsigned i = 0; i < n; i++) {
        sample->pieces[i].at.off = (uint32_t)len;
        len += sample->pieces[i].at.len;
    }
    sample->image = builder_leave(builder, len);
    if (builder->is_full)
        return;
    for (unsigned i = 0; i < n; i++)
        memcpy((char *)sample + sample->image.off + sample->pieces[i].at.off, (const void *)sample->pieces[i].from, sample->pieces[i].at.len);
    sample->text = (struct range){place_of(sample, job->dst), (uint32_t)text};
    sample->tag = (struct range){place_of(sample, job->auth_tag_output), (uint32_t)tag};
}

bool take_job(struct builder *builder, const IMB_JOB *job) {
    IMB_JOB copy;
    const IMB_JOB *taken = job_as_taken(job, &copy);
    if (builder->is_full)
        return false;
    builder->sample->job = *taken;
    take_cipher(builder, taken);
    take_hash(builder, taken);
    take_image(builder, taken);
    return !builder->is_full;
}

/* ---- the job again ---- */

static void set_hash(IMB_JOB *job, const struct sample *sample) {
    switch (hash_of(job)->kind) {
    case HASH_HMAC:
        job->u.HMAC._hashed_auth_key_xor_ipad = input_of(sample, INPUT_FIRST);
        job->u.HMAC._hashed_auth_key_xor_opad = input_of(sample, INPUT_SECOND);
        break;
    case HASH_CMAC:
        job->u.CMAC._key_expanded = input_of(sample, INPUT_FIRST);
        job->u.CMAC._skey1 = input_of(sample, INPUT_SECOND);
        job->u.CMAC._skey2 = input_of(sample, INPUT_THIRD);
        break;
    case HASH_GMAC:
        job->u.GMAC._key = input_of(sample, INPUT_FIRST);
        job->u.GMAC._iv = input_of(sample, INPUT_SECOND);
        break;
    case HASH_OF_GCM: job->u.GCM.aad = input_of(sample, INPUT_AAD); break;
    case HASH_OF_CCM: job->u.CCM.aad = input_of(sample, INPUT_AAD); break;
    default: break;
    }
}

/* The source is where the cipher's range begins; the hash range counts from there, modulo 2^64. */
void job_of_sample(IMB_JOB *job, const struct sample *sample, uint8_t *image) {
    const IMB_JOB *given = &sample->job;
    *job = *given;
    job->enc_keys = job->dec_keys = input_of(sample, INPUT_KEY);
    job->iv = input_of(sample, INPUT_IV);
    job->src = image + place_of(sample, cipher_start(given));
    job->dst = image + sample->text.off;
    job->cipher_start_src_offset_in_bytes = job->hash_start_src_offset_in_bytes = 0;
    if (own_hash_bytes(given) != 0)
        job->hash_start_src_offset_in_bytes = (uintptr_t)(image + place_of(sample, hash_start(given))) - (uintptr_t)job->src;
    job->auth_tag_output = image + sample->tag.off;
    job->user_data = job->user_data2 = NULL;
    set_hash(job, sample);
}
