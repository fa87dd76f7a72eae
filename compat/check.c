#include "check.h"
#include "version.h"

/* What intel-ipsec-mb finds wrong, in the order in which it looks, by the source of 1.3: so the same error is told if two things are
 * wrong. 2.0 looks in the same order but at parts of a text (version_2.c). Their limits are these: texts in lanes have fewer than 2^16 - 1
 * bytes, and the additional data of CCM has at most 46 bytes. */
#define MOST_LANE_BYTES UINT64_C(65534)
#define MOST_CCM_AAD_BYTES 46

/* A limit of the proved code, which the other library doesn't have. */
enum { MOST_IV_BYTES = 65535 };

/* ---- ciphers ---- */

static bool is_direction(const IMB_JOB *job) {
    return job->cipher_direction == IMB_DIR_ENCRYPT || job->cipher_direction == IMB_DIR_DECRYPT;
}

static bool is_key_length(const struct cipher *cipher, uint64_t len) {
    return len == 16 || len == 32 || (len == 24 && cipher->kind != CIPHER_CCM);
}

static int check_text(const IMB_JOB *job) {
    if (job->src == NULL)
        return IMB_ERR_JOB_NULL_SRC;
    return job->dst == NULL ? IMB_ERR_JOB_NULL_DST : 0;
}

/* An AEAD takes a text of no byte, and then no place for it. */
int check_text_of_aead(const IMB_JOB *job) {
    return job->msg_len_to_cipher_in_bytes != 0 ? check_text(job) : 0;
}

int check_key(const struct cipher *cipher, const IMB_JOB *job) {
    if (cipher_keys(cipher, job) == NULL)
        return IMB_ERR_JOB_NULL_KEY;
    return is_key_length(cipher, job->key_len_in_bytes) ? 0 : IMB_ERR_JOB_KEY_LEN;
}

static int check_iv_and_key(const struct cipher *cipher, const IMB_JOB *job) {
    return job->iv == NULL ? IMB_ERR_JOB_NULL_IV : check_key(cipher, job);
}

int check_iv_len_of_gcm(const IMB_JOB *job) {
    return job->iv_len_in_bytes == 0 || job->iv_len_in_bytes > MOST_IV_BYTES ? IMB_ERR_JOB_IV_LEN : 0;
}

static int check_cbc(const struct cipher *cipher, const IMB_JOB *job) {
    uint64_t len = job->msg_len_to_cipher_in_bytes;
    int error = check_text(job);
    if (error == 0)
        error = check_iv_and_key(cipher, job);
    if (error != 0)
        return error;
    if (len == 0 || len % 16 != 0 || (is_encryption(job) && len > MOST_LANE_BYTES))
        return IMB_ERR_JOB_CIPH_LEN;
    return job->iv_len_in_bytes == 16 ? 0 : IMB_ERR_JOB_IV_LEN;
}

static int check_ctr(const struct cipher *cipher, const IMB_JOB *job) {
    int error = check_text(job);
    if (error == 0)
        error = check_iv_and_key(cipher, job);
    if (error != 0)
        return error;
    if (job->iv_len_in_bytes != 16 && (job->iv_len_in_bytes != 12 || cipher->is_in_bits))
        return IMB_ERR_JOB_IV_LEN;
    return job->msg_len_to_cipher_in_bytes == 0 ? IMB_ERR_JOB_CIPH_LEN : 0;
}

int check_gcm(const struct cipher *cipher, const IMB_JOB *job) {
    if (job->msg_len_to_cipher_in_bytes > MOST_GCM_BYTES)
        return IMB_ERR_JOB_CIPH_LEN;
    int error = check_text_of_aead(job);
    if (error == 0)
        error = check_iv_and_key(cipher, job);
    return error != 0 ? error : check_iv_len_of_gcm(job);
}

static int check_ccm(const struct cipher *cipher, const IMB_JOB *job) {
    int error = check_text_of_aead(job);
    if (error == 0 && job->msg_len_to_cipher_in_bytes > MOST_LANE_BYTES)
        error = IMB_ERR_JOB_CIPH_LEN;
    if (error == 0)
        error = check_iv_and_key(cipher, job);
    if (error != 0)
        return error;
    return job->iv_len_in_bytes < 7 || job->iv_len_in_bytes > 13 ? IMB_ERR_JOB_IV_LEN : 0;
}

static int check_own_of_cipher(const struct cipher *cipher, const IMB_JOB *job, bool is_checked) {
    switch (cipher->kind) {
    case CIPHER_CBC: return check_cbc(cipher, job);
    case CIPHER_CTR: return check_ctr(cipher, job);
    case CIPHER_GCM: return cipher->is_in_parts ? check_gcm_in_parts(cipher, job, is_checked) : check_gcm(cipher, job);
    case CIPHER_CCM: return check_ccm(cipher, job);
    case CIPHER_CUSTOM: return job->cipher_func == NULL ? EFAULT : 0;
    default: return IMB_ERR_CIPH_MODE;
    }
}

static int check_cipher(const IMB_JOB *job, bool is_checked) {
    const struct cipher *cipher = cipher_of(job);
    if (cipher->kind == CIPHER_NONE)
        return 0;
    if ((is_checked || cipher->kind == CIPHER_CCM) && !is_direction(job))
        return IMB_ERR_JOB_CIPH_DIR;
    int error = check_own_of_cipher(cipher, job, is_checked);
    if (error != 0)
        return error;
    return cipher->partner != 0 && (unsigned)job->hash_alg != cipher->partner ? IMB_ERR_HASH_ALGO : 0;
}

/* ---- authentications ---- */

static bool is_tag_length(const struct hash *hash, uint64_t len, bool is_checked) {
    if (hash->kind == HASH_OF_CCM)
        return len >= 4 && len <= 16 && len % 2 == 0;
    if (is_checked && hash->truncated != 0)
        return len == hash->longest || len == hash->truncated;
    return len != 0 && len <= hash->longest;
}

static int check_tag_length(const struct hash *hash, const IMB_JOB *job, bool is_checked) {
    return is_tag_length(hash, job->auth_tag_output_len_in_bytes, is_checked) ? 0 : IMB_ERR_JOB_AUTH_TAG_LEN;
}

static int check_tag_place(const IMB_JOB *job) {
    return job->auth_tag_output == NULL ? IMB_ERR_JOB_NULL_AUTH : 0;
}

static int check_hmac(const struct hash *hash, const IMB_JOB *job, bool is_checked) {
    uint64_t len = job->msg_len_to_hash_in_bytes;
    if (job->src == NULL)
        return IMB_ERR_JOB_NULL_SRC;
    int error = check_tag_length(hash, job, is_checked);
    if (error == 0 && (len > MOST_LANE_BYTES || (is_checked && len == 0)))
        error = IMB_ERR_JOB_AUTH_LEN;
    if (error == 0)
        error = check_tag_place(job);
    if (error == 0 && job->u.HMAC._hashed_auth_key_xor_ipad == NULL)
        error = IMB_ERR_JOB_NULL_HMAC_IPAD;
    if (error == 0 && job->u.HMAC._hashed_auth_key_xor_opad == NULL)
        error = IMB_ERR_JOB_NULL_HMAC_OPAD;
    return error;
}

static int check_sha(const struct hash *hash, const IMB_JOB *job, bool is_checked) {
    int error = check_tag_length(hash, job, is_checked);
    if (error == 0 && job->src == NULL)
        error = IMB_ERR_JOB_NULL_SRC;
    if (error == 0)
        error = check_tag_place(job);
    return error == 0 && is_checked && job->msg_len_to_hash_in_bytes > MOST_LANE_BYTES ? IMB_ERR_JOB_AUTH_LEN : error;
}

static int check_cmac(const struct hash *hash, const IMB_JOB *job, bool is_checked) {
    if (job->src == NULL)
        return IMB_ERR_JOB_NULL_SRC;
    if (job->u.CMAC._key_expanded == NULL || job->u.CMAC._skey1 == NULL || job->u.CMAC._skey2 == NULL)
        return IMB_ERR_JOB_NULL_KEY;
    int error = check_tag_length(hash, job, is_checked);
    if (error == 0)
        error = check_tag_place(job);
    uint64_t most = hash->is_in_bits ? COMPAT_MOST_CMAC_BITS : MOST_LANE_BYTES;
    return error == 0 && job->msg_len_to_hash_in_bytes > most ? IMB_ERR_JOB_AUTH_LEN : error;
}

static int check_gmac(const struct hash *hash, const IMB_JOB *job, bool is_checked) {
    int error = check_tag_length(hash, job, is_checked);
    if (error == 0)
        error = check_tag_place(job);
    if (error != 0)
        return error;
    if (job->u.GMAC._key == NULL)
        return IMB_ERR_JOB_NULL_AUTH_KEY;
    if (job->u.GMAC._iv == NULL)
        return IMB_ERR_JOB_NULL_IV;
    if (job->u.GMAC.iv_len_in_bytes == 0 || job->u.GMAC.iv_len_in_bytes > MOST_IV_BYTES)
        return IMB_ERR_JOB_IV_LEN;
    return job->msg_len_to_hash_in_bytes != 0 && job->src == NULL ? IMB_ERR_JOB_NULL_SRC : 0;
}

/* ---- the AEADs ---- */

static int check_aad_of_gcm(const IMB_JOB *job) {
    return job->u.GCM.aad_len_in_bytes != 0 && job->u.GCM.aad == NULL ? IMB_ERR_JOB_NULL_AAD : 0;
}

static int check_tag_of_gcm(const struct hash *hash, const IMB_JOB *job) {
    int error = check_tag_length(hash, job, true);
    if (error == 0)
        error = check_aad_of_gcm(job);
    if (error == 0 && cipher_of(job)->partner != (unsigned)job->hash_alg)
        error = IMB_ERR_CIPH_MODE;
    return error != 0 ? error : check_tag_place(job);
}

/* The first job of a text in parts has its additional data, and the last one its tag. One by a list of segments has all. */
static int check_part_of_gcm(const struct hash *hash, const IMB_JOB *job) {
    int error = cipher_of(job)->partner != (unsigned)job->hash_alg ? IMB_ERR_CIPH_MODE : 0;
    if (error == 0 && job->u.GCM.ctx == NULL)
        error = IMB_ERR_JOB_NULL_SGL_CTX;
    if (error == 0 && (job->sgl_state == IMB_SGL_COMPLETE || has_segments(job)))
        error = check_tag_length(hash, job, true);
    if (error == 0 && (job->sgl_state == IMB_SGL_COMPLETE || has_segments(job)))
        error = check_tag_place(job);
    if (error == 0 && (job->sgl_state == IMB_SGL_INIT || has_segments(job)))
        error = check_aad_of_gcm(job);
    return error == 0 && has_segments(job) ? check_segments_behind(job) : error;
}

static int check_aad_of_ccm(const IMB_JOB *job) {
    if (job->u.CCM.aad_len_in_bytes > MOST_CCM_AAD_BYTES)
        return IMB_ERR_JOB_AAD_LEN;
    return job->u.CCM.aad_len_in_bytes != 0 && job->u.CCM.aad == NULL ? IMB_ERR_JOB_NULL_AAD : 0;
}

static int check_tag_of_ccm(const struct hash *hash, const IMB_JOB *job) {
    if (job->msg_len_to_hash_in_bytes != 0 && job->src == NULL)
        return IMB_ERR_JOB_NULL_SRC;
    int error = check_aad_of_ccm(job);
    if (error == 0)
        error = check_tag_length(hash, job, true);
    if (error != 0)
        return error;
    if (cipher_of(job)->kind != CIPHER_CCM)
        return IMB_ERR_CIPH_MODE;
    if (job->msg_len_to_hash_in_bytes > MOST_LANE_BYTES)
        return IMB_ERR_JOB_AUTH_LEN;
    if (job->msg_len_to_cipher_in_bytes != job->msg_len_to_hash_in_bytes)
        return IMB_ERR_JOB_CIPH_LEN;
    if (job->cipher_start_src_offset_in_bytes != job->hash_start_src_offset_in_bytes)
        return IMB_ERR_JOB_SRC_OFFSET;
    return check_tag_place(job);
}

static int check_hash(const IMB_JOB *job, bool is_checked) {
    const struct hash *hash = hash_of(job);
    switch (hash->kind) {
    case HASH_NONE: return 0;
    case HASH_HMAC: return check_hmac(hash, job, is_checked);
    case HASH_SHA: return check_sha(hash, job, is_checked);
    case HASH_CMAC: return check_cmac(hash, job, is_checked);
    case HASH_GMAC: return check_gmac(hash, job, is_checked);
    case HASH_OF_GCM: return job->hash_alg == IMB_AUTH_GCM_SGL ? check_part_of_gcm(hash, job) : check_tag_of_gcm(hash, job);
    case HASH_OF_CCM: return check_tag_of_ccm(hash, job);
    case HASH_CUSTOM: return job->hash_func == NULL ? EFAULT : 0;
    default: return IMB_ERR_HASH_ALGO;
    }
}

int check_job(const IMB_JOB *job, bool is_checked) {
    int error = check_cipher(job, is_checked);
    return error != 0 ? error : check_hash(job, is_checked);
}
