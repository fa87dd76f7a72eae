/* What is known of each cipher and each authentication of intel-ipsec-mb, in one table each, and of a job by these. Each job looks it up
 * many times: so the functions are inline. */
#ifndef COMPAT_ALGORITHMS_H
#define COMPAT_ALGORITHMS_H

#include "builds.h"
#include "imb.h"

enum cipher_kind { CIPHER_ABSENT, CIPHER_NONE, CIPHER_CBC, CIPHER_CTR, CIPHER_GCM, CIPHER_CCM, CIPHER_CUSTOM };

struct cipher {
    uint8_t kind;         /* enum cipher_kind */
    uint8_t code;         /* enum mbj_cipher */
    bool is_in_bits;      /* its length is in bits */
    bool is_in_parts;     /* a job does a part of a text */
    bool uses_encryption; /* enc_keys has the key to decrypt, too */
    uint8_t partner;      /* the one authentication that it goes with, or 0 */
};

enum hash_kind { HASH_ABSENT, HASH_NONE, HASH_HMAC, HASH_SHA, HASH_CMAC, HASH_GMAC, HASH_OF_GCM, HASH_OF_CCM, HASH_CUSTOM };

struct hash {
    uint8_t kind;      /* enum hash_kind */
    uint8_t code;      /* enum mbj_auth */
    bool is_in_bits;   /* its length is in bits */
    uint8_t hash;      /* enum mbj_hash, of a digest */
    uint8_t key;       /* the bytes of the key of CMAC or GMAC, or of one state of HMAC */
    uint8_t word;      /* the bytes of a word of that state */
    uint8_t longest;   /* the bytes of the longest tag */
    uint8_t truncated; /* those of the other tag that a checked job may have, 0 if any length does */
};

extern const struct cipher ciphers[IMB_CIPHER_NUM];
extern const struct hash hashes[IMB_AUTH_NUM];

/* What is known of a code, or of one that is none: that it is absent. */
static inline const struct cipher *cipher_of(const IMB_JOB *job) {
    return &ciphers[(unsigned)job->cipher_mode < IMB_CIPHER_NUM ? job->cipher_mode : 0];
}

static inline const struct hash *hash_of(const IMB_JOB *job) {
    return &hashes[(unsigned)job->hash_alg < IMB_AUTH_NUM ? job->hash_alg : 0];
}

static inline uint64_t bytes_of_bits(uint64_t bits) {
    return bits / 8 + (bits % 8 != 0);
}

/* The ranges of a job, in bytes: 0 without a cipher or an authentication. The last byte of a length in bits is counted as a whole one. */
static inline uint64_t cipher_bytes(const IMB_JOB *job) {
    const struct cipher *cipher = cipher_of(job);
    if (cipher->kind == CIPHER_NONE)
        return 0;
    return cipher->is_in_bits ? bytes_of_bits(job->msg_len_to_cipher_in_bits) : job->msg_len_to_cipher_in_bytes;
}

static inline uint64_t hash_bytes(const IMB_JOB *job) {
    const struct hash *hash = hash_of(job);
    if (hash->kind == HASH_NONE)
        return 0;
    return hash->is_in_bits ? bytes_of_bits(job->msg_len_to_hash_in_bits) : job->msg_len_to_hash_in_bytes;
}

/* How many bits of the last byte are in the range, or 0 if all are. */
static inline unsigned cipher_open_bits(const IMB_JOB *job) {
    return cipher_of(job)->is_in_bits ? job->msg_len_to_cipher_in_bits % 8 : 0;
}

static inline unsigned hash_open_bits(const IMB_JOB *job) {
    return hash_of(job)->is_in_bits ? job->msg_len_to_hash_in_bits % 8 : 0;
}

/* A text of GCM has fewer than 2^39 - 256 bits (SP 800-38D, 5.2.1.1). intel-ipsec-mb 1.3 takes fewer bytes than that, by its replies. */
#define MOST_GCM_BYTES ((UINT64_C(1) << 39) - 256 - 1)

/* Where the ranges begin. That of the hash counts modulo 2^64, so that it reaches another buffer than the source, too. */
static inline const uint8_t *cipher_start(const IMB_JOB *job) {
    return (const uint8_t *)((uintptr_t)job->src + job->cipher_start_src_offset_in_bytes);
}

static inline const uint8_t *hash_start(const IMB_JOB *job) {
    return (const uint8_t *)((uintptr_t)job->src + job->hash_start_src_offset_in_bytes);
}

/* Of codes that are none, if nothing has checked them, each version takes a direction in its own way, and both an order for the one with
 * the hash first. */
static inline bool is_encryption(const IMB_JOB *job) {
    return COMPAT_IS_ENCRYPTION(job->cipher_direction);
}

static inline bool is_hash_first(const IMB_JOB *job) {
    return job->chain_order != IMB_ORDER_CIPHER_HASH;
}

/* Whether a job in parts does a whole text, by a list of segments: intel-ipsec-mb takes each state for that but the three of parts. */
static inline bool has_segments(const IMB_JOB *job) {
    return job->sgl_state != IMB_SGL_INIT && job->sgl_state != IMB_SGL_UPDATE && job->sgl_state != IMB_SGL_COMPLETE;
}

/* What enc_keys or dec_keys has, whichever the cipher uses. */
static inline const void *cipher_keys(const struct cipher *cipher, const IMB_JOB *job) {
    return is_encryption(job) || cipher->uses_encryption ? job->enc_keys : job->dec_keys;
}

#endif
