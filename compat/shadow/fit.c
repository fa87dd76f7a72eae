/* Intel's header says what a checked job may have. Of jobs that nothing checks, and in some places of checked ones too, intel-ipsec-mb 1.3
 * writes something else than its text and tag, or nothing: docs/FROM_IPSEC_MB.md has a table. These aren't compared. */
#include "fit.h"
#include "algorithms.h"
#include "check.h"
#include "raw_form.h"
#include "unchecked.h"

/* A limit of the proved code alone. */
enum { MOST_IV_BYTES = 65535, MOST_HASH_BYTES = 65534 };

static bool is_absent(const IMB_JOB *job) {
    unsigned cipher = cipher_of(job)->kind, hash = hash_of(job)->kind;
    bool is_code = (unsigned)job->cipher_mode - 1 < IMB_CIPHER_NUM - 1 && (unsigned)job->hash_alg - 1 < IMB_AUTH_NUM - 1;
    return cipher == CIPHER_CUSTOM || hash == HASH_CUSTOM || (is_code && (cipher == CIPHER_ABSENT || hash == HASH_ABSENT));
}

static bool has_long_iv(const IMB_JOB *job) {
    bool is_gmac = hash_of(job)->kind == HASH_GMAC;
    return job->iv_len_in_bytes > MOST_IV_BYTES || (is_gmac && job->u.GMAC.iv_len_in_bytes > MOST_IV_BYTES);
}

/* CCM authenticates the plaintext, so its order follows from its direction. In the other order Intel's tag is over what lies there then. */
static bool has_other_order(const IMB_JOB *job) {
    return cipher_of(job)->kind == CIPHER_CCM && is_encryption(job) != is_hash_first(job);
}

/* An unchecked tag of HMAC or of a plain hash is written with one of two lengths, whatever is asked for. */
static bool has_other_tag(const IMB_JOB *job) {
    const struct hash *hash = hash_of(job);
    uint64_t len = job->auth_tag_output_len_in_bytes;
    return hash->truncated != 0 && len != hash->longest && len != hash->truncated;
}

static bool has_odd_length(const IMB_JOB *job) {
    bool is_hash = hash_of(job)->kind == HASH_SHA || hash_of(job)->kind == HASH_HMAC;
    bool is_cut = cipher_of(job)->kind == CIPHER_CBC && job->msg_len_to_cipher_in_bytes % 16 != 0;
    return is_cut || (is_hash && job->msg_len_to_hash_in_bytes > MOST_HASH_BYTES);
}

/* A text may be ciphered in place, or elsewhere. If the two overlap otherwise, what is read later may have been written before. */
static bool overlaps_itself(const IMB_JOB *job) {
    uint64_t len = cipher_bytes(job);
    return len != 0 && job->dst != cipher_start(job) && overlap(job->dst, len, cipher_start(job), len);
}

/* When the tag is written shows where it lies over what is hashed. */
static bool is_tag_hashed(const IMB_JOB *job) {
    bool is_aead = cipher_of(job)->partner != 0;
    uint64_t len = is_aead ? cipher_bytes(job) : hash_bytes(job);
    const uint8_t *hashed = is_aead ? cipher_start(job) : hash_start(job);
    return hash_of(job)->kind != HASH_NONE && overlap(job->auth_tag_output, job->auth_tag_output_len_in_bytes, hashed, len);
}

enum fit fit_of_job(const IMB_JOB *job, bool is_checked, int *error) {
    IMB_JOB copy;
    if (is_absent(job))
        return FIT_ABSENT;
    *error = check_job(is_checked ? job : job_as_taken(job, &copy), is_checked);
    if (*error != 0)
        return is_checked && !has_long_iv(job) ? FIT_REFUSED : FIT_UNSPECIFIED;
    if (cipher_of(job)->is_in_parts)
        return FIT_IN_PARTS;
    if (has_other_order(job) || overlaps_itself(job) || is_tag_hashed(job))
        return FIT_UNSPECIFIED;
    return !is_checked && (has_other_tag(job) || has_odd_length(job)) ? FIT_UNSPECIFIED : FIT;
}
