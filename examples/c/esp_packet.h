/* ESP packets (RFC 4303) as jobs, for a gateway: the suites, a packet as its association has it, and the job that seals or opens it. */
#ifndef ESP_PACKET_H
#define ESP_PACKET_H

#include "mbj.h"

enum { SPI = 4, SEQ = 4, HEADER = SPI + SEQ, TRAILER = 2, MAX_IV = 16, MAX_TAG = 32, MAX_PACKET = MBJ_MAX_PACKET_BYTES };

/* ---- suites ---- */

struct suite {
    const char *name;
    uint32_t cipher, auth;
    size_t salt_len, iv_len, align, tag_len; /* the length of the text is a multiple of align */
};

static const struct suite suites[] = {
    {"cbc-hmac-sha1-96", MBJ_CIPHER_CBC, MBJ_AUTH_HMAC_SHA_1, 0, 16, 16, 12},      /* RFC 3602, RFC 2404 */
    {"cbc-hmac-sha256-128", MBJ_CIPHER_CBC, MBJ_AUTH_HMAC_SHA_256, 0, 16, 16, 16}, /* RFC 4868 */
    {"cbc-hmac-sha384-192", MBJ_CIPHER_CBC, MBJ_AUTH_HMAC_SHA_384, 0, 16, 16, 24},
    {"cbc-hmac-sha512-256", MBJ_CIPHER_CBC, MBJ_AUTH_HMAC_SHA_512, 0, 16, 16, 32},
    {"cbc-cmac-96", MBJ_CIPHER_CBC, MBJ_AUTH_AES_CMAC, 0, 16, 16, 12},              /* RFC 4494 */
    {"ctr-hmac-sha256-128", MBJ_CIPHER_CNTR, MBJ_AUTH_HMAC_SHA_256, 4, 8, 4, 16},   /* RFC 3686 */
    {"null-hmac-sha256-128", MBJ_CIPHER_NULL, MBJ_AUTH_HMAC_SHA_256, 0, 0, 4, 16},  /* RFC 2410 */
    {"gcm-16", MBJ_CIPHER_GCM, MBJ_AUTH_GCM, 4, 8, 4, 16},                          /* RFC 4106 */
    {"ccm-16", MBJ_CIPHER_CCM, MBJ_AUTH_AES_CCM, 3, 8, 4, 16},                      /* RFC 4309 */
};

struct bytes {
    uint8_t *at;
    size_t len;
};

/* A security association. */
struct association {
    const struct suite *suite;
    bool is_esn;
    struct bytes key, akey;
};

/* Whether the cipher gives the tag too, under its own key. */
static bool is_combined(const struct suite *suite) {
    return suite->cipher == MBJ_CIPHER_GCM || suite->cipher == MBJ_CIPHER_CCM;
}

static bool has_keys(const struct association *sa) {
    size_t len = sa->key.len - sa->suite->salt_len, akey = sa->akey.len;
    bool is_aes_key = len == 16 || len == 24 || len == 32;
    if (is_combined(sa->suite))
        return is_aes_key && akey == 0;
    bool is_akey = sa->suite->auth == MBJ_AUTH_AES_CMAC ? akey == 16 : akey >= 1 && akey <= MBJ_MAX_HMAC_KEY_BYTES;
    return is_akey && (sa->suite->cipher == MBJ_CIPHER_NULL ? len == 0 : is_aes_key);
}

/* ---- packets ---- */

enum task { SEAL, OPEN, DROP };

/* A packet: SPI, the low half of SEQ, IV and text, which end at len, and room behind them for the high half of SEQ while it is
 * authenticated. The tag that was received and the one that is computed have buffers of their own. */
struct packet {
    const struct suite *suite;
    enum task task;
    bool is_esn;
    size_t number, len;
    uint8_t iv[MAX_IV], aad[HEADER + SEQ], seq_high[SEQ], received[MAX_TAG], tag[MAX_TAG];
    uint8_t bytes[MAX_PACKET + MAX_TAG];
};

static size_t text_at(const struct packet *p) {
    return HEADER + p->suite->iv_len;
}

static uint8_t *put(uint8_t *to, const void *from, size_t len) {
    if (len != 0)
        memcpy(to, from, len);
    return to + len;
}

static void put_number(uint8_t *to, uint64_t number, size_t len) {
    for (; len > 0; number >>= 8)
        to[--len] = (uint8_t)number;
}

/* Takes a received packet apart; false if it is none. */
static bool take_apart(struct packet *p, struct bytes wire) {
    size_t tag_len = p->suite->tag_len, high = p->is_esn ? SEQ : 0;
    if (wire.len < text_at(p) + p->suite->align + tag_len + high || wire.len - high > MAX_PACKET)
        return false;
    p->len = wire.len - tag_len - high;
    put(p->seq_high, wire.at + SPI, high);
    put(put(p->bytes, wire.at, SPI), wire.at + SPI + high, p->len - SPI);
    put(p->received, wire.at + wire.len - tag_len, tag_len);
    return (p->len - text_at(p)) % p->suite->align == 0;
}

/* Returns how many bytes the payload of a text has that ends in padding 1, 2, 3, .., its length and NEXT; SIZE_MAX if it doesn't. */
static size_t payload_len(const uint8_t *text, size_t len) {
    size_t pad = text[len - 2];
    if (pad > len - TRAILER)
        return SIZE_MAX;
    for (size_t i = 1; i <= pad; i++)
        if (text[len - TRAILER - pad + i - 1] != i)
            return SIZE_MAX;
    return len - TRAILER - pad;
}

/* ---- jobs ---- */

/* The salt, and the IV of the packet behind it. */
static size_t put_iv(struct packet *p, const uint8_t *salt) {
    uint8_t *end = put(p->iv, salt, p->suite->salt_len);
    return (size_t)(put(end, p->bytes + HEADER, p->suite->iv_len) - p->iv);
}

/* A combined mode authenticates SPI and SEQ, with its high half between them, as additional data (RFC 4106, section 5; RFC 4309,
 * section 5). */
static size_t put_aad(struct packet *p) {
    uint8_t *end = put(put(p->aad, p->bytes, SPI), p->seq_high, p->is_esn ? SEQ : 0);
    return (size_t)(put(end, p->bytes + SPI, SEQ) - p->aad);
}

/* Else all from SPI to the text's end is authenticated, and behind it the high half of SEQ (RFC 4303, section 2.2.1), which isn't sent. */
static size_t put_hashed(struct packet *p) {
    return (size_t)(put(p->bytes + p->len, p->seq_high, p->is_esn ? SEQ : 0) - p->bytes);
}

static void fill_suite(MBJ_JOB *job, const struct association *sa, struct packet *p) {
    const struct suite *suite = p->suite;
    const uint8_t *key = sa->key.at;
    uint32_t dir = p->task == SEAL ? MBJ_DIR_ENCRYPT : MBJ_DIR_DECRYPT;
    size_t key_len = sa->key.len - suite->salt_len, iv_len = put_iv(p, key + key_len), at = text_at(p), len = p->len - at;
    size_t aad_len = put_aad(p), hashed = put_hashed(p);
    uint8_t *text = p->bytes + at; /* in place */
    if (suite->cipher == MBJ_CIPHER_GCM)
        mbj_job_gcm(job, dir, key, key_len, p->iv, iv_len, p->aad, aad_len, p->bytes, hashed, at, len, text, p->tag, suite->tag_len);
    else if (suite->cipher == MBJ_CIPHER_CCM)
        mbj_job_ccm(job, dir, key, key_len, p->iv, iv_len, p->aad, aad_len, p->bytes, hashed, at, len, text, p->tag, suite->tag_len);
    else if (suite->cipher == MBJ_CIPHER_NULL)
        mbj_job_auth(job, suite->auth, sa->akey.at, sa->akey.len, p->bytes, hashed, 0, hashed, p->tag, suite->tag_len);
    else
        mbj_job_cipher_auth(job, suite->cipher, suite->auth, dir, key, key_len, p->iv, iv_len, sa->akey.at, sa->akey.len, p->bytes, hashed,
                            at, len, text, 0, hashed, p->tag, suite->tag_len);
}

/* A packet that is none goes through the manager as a job that does nothing, so that its answer comes in its turn. */
static void fill_job(MBJ_JOB *job, const struct association *sa, struct packet *p) {
    if (p->task == DROP)
        mbj_job_nothing(job);
    else
        fill_suite(job, sa, p);
    if (p->task == OPEN)
        job->expected_tag = p->received;
    job->user_data = p;
}

#endif
