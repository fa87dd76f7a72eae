/* What the tests of the header share: a check, vectors of the standards, and jobs over them. */
#ifndef CHECK_H
#define CHECK_H

#include "mbj.h"

#include <stdio.h>

/* Prints the first check that fails, and ends with status 1. */
#define CHECK(condition)                                                    \
    do {                                                                    \
        if (!(condition)) {                                                 \
            printf("%s:%d: %s\n", __FILE__, __LINE__, #condition);          \
            exit(1);                                                        \
        }                                                                   \
    } while (0)

enum { MAC_BYTES = 20, CBC_BYTES = 16, GCM_BYTES = 16 };

/* RFC 2202, section 3, test case 1: the key, the message and its tag. */
static const uint8_t mac_key[20] = {11, 11, 11, 11, 11, 11, 11, 11, 11, 11, 11, 11, 11, 11, 11, 11, 11, 11, 11, 11};
static const uint8_t mac_text[8] = {'H', 'i', ' ', 'T', 'h', 'e', 'r', 'e'};
static const uint8_t mac[MAC_BYTES] = {0xb6, 0x17, 0x31, 0x86, 0x55, 0x05, 0x72, 0x64, 0xe2, 0x8b,
                                       0xc0, 0xb6, 0xfb, 0x37, 0x8c, 0x8e, 0xf1, 0x46, 0xbe, 0x00};

/* SP 800-38A, F.2.1 (CBC-AES128.Encrypt): the key, the IV, the first block and its ciphertext. */
static const uint8_t cbc_key[16] = {0x2b, 0x7e, 0x15, 0x16, 0x28, 0xae, 0xd2, 0xa6, 0xab, 0xf7, 0x15, 0x88, 0x09, 0xcf, 0x4f, 0x3c};
static const uint8_t cbc_iv[16] = {0, 1, 2, 3, 4, 5, 6, 7, 8, 9, 10, 11, 12, 13, 14, 15};
static const uint8_t cbc_text[CBC_BYTES] = {0x6b, 0xc1, 0xbe, 0xe2, 0x2e, 0x40, 0x9f, 0x96,
                                            0xe9, 0x3d, 0x7e, 0x11, 0x73, 0x93, 0x17, 0x2a};
static const uint8_t cbc_ciphertext[CBC_BYTES] = {0x76, 0x49, 0xab, 0xac, 0x81, 0x19, 0xb2, 0x46,
                                                  0xce, 0xe9, 0x8e, 0x9b, 0x12, 0xe9, 0x19, 0x7d};

/* The Galois/counter mode of operation (McGrew and Viega), appendix B, test case 2: key, IV and text are zero. */
static const uint8_t gcm_zeros[GCM_BYTES] = {0};
static const uint8_t gcm_ciphertext[GCM_BYTES] = {0x03, 0x88, 0xda, 0xce, 0x60, 0xb6, 0xa3, 0x92,
                                                  0xf3, 0x28, 0xc2, 0xb9, 0x71, 0xb2, 0xfe, 0x78};
static const uint8_t gcm_tag[GCM_BYTES] = {0xab, 0x6e, 0x47, 0xd4, 0x2c, 0xec, 0x13, 0xbd,
                                           0xf5, 0x3a, 0x67, 0xb2, 0x12, 0x57, 0xbd, 0xdf};

/* A job that authenticates the eight bytes at the packet, with room for the tag. */
static inline void fill_mac(MBJ_JOB *job, const uint8_t *packet, size_t len, uint8_t *tag) {
    job->cipher_mode = MBJ_CIPHER_NULL;
    job->hash_alg = MBJ_AUTH_HMAC_SHA_1;
    job->auth_key = mac_key;
    job->auth_key_len_in_bytes = sizeof mac_key;
    job->packet = packet;
    job->packet_len_in_bytes = len;
    job->msg_len_to_hash_in_bytes = sizeof mac_text;
    job->auth_tag_output = tag;
    job->auth_tag_output_len_in_bytes = MAC_BYTES;
}

/* A job that enciphers a block of the packet to dst. */
static inline void fill_cbc(MBJ_JOB *job, const uint8_t *packet, size_t len, size_t off, uint8_t *dst) {
    job->cipher_mode = MBJ_CIPHER_CBC;
    job->hash_alg = MBJ_AUTH_NULL;
    job->key = cbc_key;
    job->key_len_in_bytes = sizeof cbc_key;
    job->iv = cbc_iv;
    job->iv_len_in_bytes = sizeof cbc_iv;
    job->packet = packet;
    job->packet_len_in_bytes = len;
    job->cipher_start_src_offset_in_bytes = off;
    job->msg_len_to_cipher_in_bytes = CBC_BYTES;
    job->dst = dst;
}

/* A job that enciphers a block by GCM and gives its tag. */
static inline void fill_gcm(MBJ_JOB *job, const uint8_t *packet, uint8_t *dst, uint8_t *tag) {
    job->cipher_mode = MBJ_CIPHER_GCM;
    job->hash_alg = MBJ_AUTH_GCM;
    job->key = gcm_zeros;
    job->key_len_in_bytes = 16;
    job->iv = gcm_zeros;
    job->iv_len_in_bytes = 12;
    job->packet = packet;
    job->packet_len_in_bytes = GCM_BYTES;
    job->msg_len_to_cipher_in_bytes = GCM_BYTES;
    job->dst = dst;
    job->auth_tag_output = tag;
    job->auth_tag_output_len_in_bytes = GCM_BYTES;
}

/* Makes a job of a cipher one of CCM, with the first bytes of its IV as the nonce and some additional data. */
static inline void make_ccm(MBJ_JOB *job, uint8_t *tag) {
    job->cipher_mode = MBJ_CIPHER_CCM;
    job->hash_alg = MBJ_AUTH_AES_CCM;
    job->iv_len_in_bytes = 11;
    job->aad = mac_text;
    job->aad_len_in_bytes = sizeof mac_text;
    job->auth_tag_output = tag;
    job->auth_tag_output_len_in_bytes = 16;
}

/* Submits the job that was handed out if no other one is out, and gives it back. */
static inline MBJ_JOB *finish(MBJ_MGR *m) {
    MBJ_JOB *done = mbj_submit_job(m);
    return done == NULL && mbj_get_errno(m) == MBJ_ERR_NONE ? mbj_flush_job(m) : done;
}

static inline bool is_refused(const MBJ_JOB *job, uint32_t reason) {
    return job->status == MBJ_STATUS_INVALID_ARGS && job->reason == reason;
}

static inline bool is_done(const MBJ_JOB *job) {
    return job->status == MBJ_STATUS_COMPLETED && job->reason == MBJ_REASON_NONE;
}

/* Whether all of these bytes have this value. */
static inline bool is_all(const uint8_t *bytes, size_t len, uint8_t value) {
    for (size_t i = 0; i < len; i++)
        if (bytes[i] != value)
            return false;
    return true;
}

#endif
