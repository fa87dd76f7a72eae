/* intel-ipsec-mb takes some values of a job that nothing has checked for others, of which docs/FROM_IPSEC_MB.md has a table. The same is done
 * here, if that reads no more than the least right value needs that isn't below the given one. */
#include "unchecked.h"
#include "version.h"

enum { BLOCK = 16, SHORT_IV = 12 };

/* CBC, and CTR with a length in bits, read a block whatever the length is. CTR reads a block if bit 4 of the length is set. */
static uint64_t iv_len_as_taken(const struct cipher *cipher, uint64_t len) {
    if (len > BLOCK)
        return len;
    if (cipher->kind == CIPHER_CBC || (cipher->kind == CIPHER_CTR && cipher->is_in_bits))
        return BLOCK;
    return cipher->kind == CIPHER_CTR && len != BLOCK ? SHORT_IV : len;
}

/* CBC does the whole blocks of a text. One that has none isn't taken for nothing. */
static uint64_t cipher_len_as_taken(const struct cipher *cipher, uint64_t len) {
    return cipher->kind == CIPHER_CBC && len >= BLOCK ? len / BLOCK * BLOCK : len;
}

/* If the text has no byte, nothing is ciphered. To decipher by CBC it has one. */
static bool has_no_text(const struct cipher *cipher, const IMB_JOB *job) {
    bool may_be_empty = cipher->kind == CIPHER_CTR || (cipher->kind == CIPHER_CBC && is_encryption(job));
    return may_be_empty && job->msg_len_to_cipher_in_bytes == 0;
}

static bool is_of_aes(const struct cipher *cipher) {
    return cipher->kind == CIPHER_CBC || cipher->kind == CIPHER_CTR || cipher->kind == CIPHER_GCM || cipher->kind == CIPHER_CCM;
}

const IMB_JOB *job_as_taken(const IMB_JOB *job, IMB_JOB *copy) {
    const struct cipher *cipher = cipher_of(job);
    if (!is_of_aes(cipher))
        return job;
    uint64_t key_len = key_len_as_taken(cipher, job->key_len_in_bytes), iv_len = iv_len_as_taken(cipher, job->iv_len_in_bytes);
    uint64_t len = cipher_len_as_taken(cipher, job->msg_len_to_cipher_in_bytes);
    bool is_empty = has_no_text(cipher, job);
    if (key_len == job->key_len_in_bytes && iv_len == job->iv_len_in_bytes && len == job->msg_len_to_cipher_in_bytes && !is_empty)
        return job;
    *copy = *job;
    copy->key_len_in_bytes = key_len;
    copy->iv_len_in_bytes = iv_len;
    copy->msg_len_to_cipher_in_bytes = len;
    if (is_empty)
        copy->cipher_mode = IMB_CIPHER_NULL;
    return copy;
}
