/* What the tests of known answers share: bytes that are written in hexadecimal digits, and faults of jobs. */
#ifndef ANSWERS_H
#define ANSWERS_H

#include "check.h"

enum { ROOM = 256 };

/* ---- bytes ---- */

struct text {
    uint8_t at[ROOM];
    size_t len;
};

static inline uint8_t digit_value(char digit) {
    return (uint8_t)(digit <= '9' ? digit - '0' : digit - 'a' + 10);
}

/* The bytes of pairs of hexadecimal digits in lower case. */
static inline struct text bytes_of(const char *digits) {
    struct text text = {{0}, strlen(digits) / 2};
    CHECK(text.len <= ROOM);
    for (size_t i = 0; i < text.len; i++)
        text.at[i] = (uint8_t)(digit_value(digits[2 * i]) * 16 + digit_value(digits[2 * i + 1]));
    return text;
}

static inline bool is_same(const uint8_t *bytes, const struct text *text) {
    return memcmp(bytes, text->at, text->len) == 0;
}

/* A pointer to nothing, for what a job doesn't use: whoever reads there ends the program. */
static inline uint8_t *nowhere(void) {
    return (uint8_t *)1;
}

/* ---- faults ---- */

/* What is the matter with a job, and the reason for which it is refused. */
struct fault {
    void (*spoil)(MBJ_JOB *job, size_t number);
    size_t number;
    uint32_t reason;
};

static const uint8_t zeros[70000] = {0};

/* The pointer that stands there is NULL. */
static inline void take(MBJ_JOB *job, size_t at) { memset((char *)job + at, 0, sizeof(void *)); }
static inline void pair_with(MBJ_JOB *job, size_t auth) { job->hash_alg = (uint32_t)auth, job->auth_key = zeros; }
static inline void give_key(MBJ_JOB *job, size_t len) { job->key_len_in_bytes = len; }
static inline void give_auth_key(MBJ_JOB *job, size_t len) { job->auth_key_len_in_bytes = len; }
static inline void give_iv(MBJ_JOB *job, size_t len) { job->iv = zeros, job->iv_len_in_bytes = len; }
static inline void give_aad(MBJ_JOB *job, size_t len) { job->aad = zeros, job->aad_len_in_bytes = len; }
static inline void give_tag(MBJ_JOB *job, size_t len) { job->auth_tag_output_len_in_bytes = len; }
static inline void cipher_more(MBJ_JOB *job, size_t len) { job->msg_len_to_cipher_in_bytes += len; }
static inline void hash_more(MBJ_JOB *job, size_t len) { job->msg_len_to_hash_in_bytes += len; }

/* With a key, an IV and data of lengths that the cipher doesn't take either: that the two don't go together is told first. */
static inline void encipher_by(MBJ_JOB *job, size_t cipher) {
    job->cipher_mode = (uint32_t)cipher;
    job->key = job->iv = job->aad = zeros;
    job->msg_len_to_cipher_in_bytes = 0;
}

/* The job that was filled is spoiled, and refused for that. Nothing is written. */
static inline void check_fault(MBJ_MGR *m, MBJ_JOB *job, const struct fault *fault, uint8_t *dst, uint8_t *tag) {
    memset(dst, 0xee, ROOM);
    memset(tag, 0xee, MBJ_MAX_TAG_BYTES);
    fault->spoil(job, fault->number);
    CHECK(finish(m) == job && is_refused(job, fault->reason) && is_all(dst, ROOM, 0xee) && is_all(tag, MBJ_MAX_TAG_BYTES, 0xee));
}

#endif
