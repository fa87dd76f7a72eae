/* Fills jobs of mbj.h by their suites. Each call sets every field: what the suite doesn't use is as in a blank job, so that nothing of an
 * earlier job stays. user_data, user_data2 and session are set after the call. Offsets and lengths are in bytes; dst is where the first
 * ciphered byte goes, which is packet + off to cipher in place. Arguments are looked at when the job is submitted. mbj.h includes this. */
#ifndef MBJ_FILL_H
#define MBJ_FILL_H

#include "mbj.h"

#ifdef __cplusplus
extern "C" {
#endif

/* ---- sizes ---- */

/* The bytes of the whole tag of an authentication, 0 without one and for a number that is none. */
MBJ_API size_t mbj_tag_bytes(uint32_t auth) {
    static const uint8_t bytes[] = {0, 20, 28, 32, 48, 64, 16, 16, 16, 16, 16, 20, 28, 32, 48, 64, 20, 28, 32, 48, 64};
    return auth < sizeof bytes ? bytes[auth] : 0;
}

/* The bytes of a digest, and of the state behind a block; 0 for a number that is no hash. */
MBJ_API size_t mbj_digest_bytes(uint32_t hash) {
    return hash <= MBJ_HASH_SHA_512 ? mbj_tag_bytes(MBJ_AUTH_SHA_1 + hash) : 0;
}

MBJ_API size_t mbj_state_bytes(uint32_t hash) {
    static const uint8_t bytes[] = {20, 32, 32, 64, 64};
    return hash < sizeof bytes ? bytes[hash] : 0;
}

/* ---- jobs ---- */

/* A job of which no field is set, as mbj_get_next_job hands it out: it is refused until both codes are. */
MBJ_API void mbj_job_blank(MBJ_JOB *job) {
    mbj_make_blank_(job);
}

/* A job that does nothing, and comes back in its turn. */
MBJ_API void mbj_job_nothing(MBJ_JOB *job) {
    mbj_make_blank_(job);
    job->cipher_mode = MBJ_CIPHER_NULL;
    job->hash_alg = MBJ_AUTH_NULL;
}

static inline void mbj_set_cipher_(MBJ_JOB *job, uint32_t cipher, uint32_t dir, const uint8_t *key, size_t key_len, const uint8_t *iv,
                                   size_t iv_len) {
    job->cipher_mode = cipher;
    job->cipher_direction = dir;
    job->key = key;
    job->key_len_in_bytes = key_len;
    job->iv = iv;
    job->iv_len_in_bytes = iv_len;
}

static inline void mbj_set_packet_(MBJ_JOB *job, const uint8_t *packet, size_t packet_len, uint64_t off, uint64_t len, uint8_t *dst) {
    job->packet = packet;
    job->packet_len_in_bytes = packet_len;
    job->cipher_start_src_offset_in_bytes = off;
    job->msg_len_to_cipher_in_bytes = len;
    job->dst = dst;
}

static inline void mbj_set_auth_(MBJ_JOB *job, uint32_t auth, const uint8_t *key, size_t key_len, uint64_t off, uint64_t len, uint8_t *tag,
                                 size_t tag_len) {
    job->hash_alg = auth;
    job->auth_key = key;
    job->auth_key_len_in_bytes = key_len;
    job->hash_start_src_offset_in_bytes = off;
    job->msg_len_to_hash_in_bytes = len;
    job->auth_tag_output = tag;
    job->auth_tag_output_len_in_bytes = tag_len;
}

/* A cipher alone: MBJ_CIPHER_CBC or MBJ_CIPHER_CNTR, over len bytes of the packet from off on. It protects nothing from being changed. */
MBJ_API void mbj_job_cipher(MBJ_JOB *job, uint32_t cipher, uint32_t dir, const uint8_t *key, size_t key_len, const uint8_t *iv,
                            size_t iv_len, const uint8_t *packet, size_t packet_len, uint64_t off, uint64_t len, uint8_t *dst) {
    mbj_job_nothing(job);
    mbj_set_cipher_(job, cipher, dir, key, key_len, iv, iv_len);
    mbj_set_packet_(job, packet, packet_len, off, len, dst);
}

/* An authentication alone: HMAC, HMAC from states, CMAC, or a hash, which has no key. */
MBJ_API void mbj_job_auth(MBJ_JOB *job, uint32_t auth, const uint8_t *key, size_t key_len, const uint8_t *packet, size_t packet_len,
                          uint64_t off, uint64_t len, uint8_t *tag, size_t tag_len) {
    mbj_job_nothing(job);
    mbj_set_packet_(job, packet, packet_len, 0, 0, NULL);
    mbj_set_auth_(job, auth, key, key_len, off, len, tag, tag_len);
}

/* GMAC alone, which has a nonce. */
MBJ_API void mbj_job_gmac(MBJ_JOB *job, const uint8_t *key, size_t key_len, const uint8_t *nonce, size_t nonce_len, const uint8_t *packet,
                          size_t packet_len, uint64_t off, uint64_t len, uint8_t *tag, size_t tag_len) {
    mbj_job_auth(job, MBJ_AUTH_AES_GMAC, key, key_len, packet, packet_len, off, len, tag, tag_len);
    job->iv = nonce;
    job->iv_len_in_bytes = nonce_len;
}

static inline void mbj_set_aead_(MBJ_JOB *job, const uint8_t *aad, size_t aad_len, uint8_t *tag, size_t tag_len) {
    job->aad = aad;
    job->aad_len_in_bytes = aad_len;
    job->auth_tag_output = tag;
    job->auth_tag_output_len_in_bytes = tag_len;
}

/* GCM over len bytes of the packet from off on. */
MBJ_API void mbj_job_gcm(MBJ_JOB *job, uint32_t dir, const uint8_t *key, size_t key_len, const uint8_t *nonce, size_t nonce_len,
                         const uint8_t *aad, size_t aad_len, const uint8_t *packet, size_t packet_len, uint64_t off, uint64_t len,
                         uint8_t *dst, uint8_t *tag, size_t tag_len) {
    mbj_job_cipher(job, MBJ_CIPHER_GCM, dir, key, key_len, nonce, nonce_len, packet, packet_len, off, len, dst);
    mbj_set_aead_(job, aad, aad_len, tag, tag_len);
    job->hash_alg = MBJ_AUTH_GCM;
}

/* CCM over len bytes of the packet from off on. */
MBJ_API void mbj_job_ccm(MBJ_JOB *job, uint32_t dir, const uint8_t *key, size_t key_len, const uint8_t *nonce, size_t nonce_len,
                         const uint8_t *aad, size_t aad_len, const uint8_t *packet, size_t packet_len, uint64_t off, uint64_t len,
                         uint8_t *dst, uint8_t *tag, size_t tag_len) {
    mbj_job_cipher(job, MBJ_CIPHER_CCM, dir, key, key_len, nonce, nonce_len, packet, packet_len, off, len, dst);
    mbj_set_aead_(job, aad, aad_len, tag, tag_len);
    job->hash_alg = MBJ_AUTH_AES_CCM;
}

/* A cipher and an authentication over the ciphertext, as ESP has them: to encrypt the cipher comes first, and to decrypt the
 * authentication. The second range is that of the authentication. */
MBJ_API void mbj_job_cipher_auth(MBJ_JOB *job, uint32_t cipher, uint32_t auth, uint32_t dir, const uint8_t *key, size_t key_len,
                                 const uint8_t *iv, size_t iv_len, const uint8_t *auth_key, size_t auth_key_len, const uint8_t *packet,
                                 size_t packet_len, uint64_t off, uint64_t len, uint8_t *dst, uint64_t auth_off, uint64_t auth_len,
                                 uint8_t *tag, size_t tag_len) {
    mbj_job_cipher(job, cipher, dir, key, key_len, iv, iv_len, packet, packet_len, off, len, dst);
    mbj_set_auth_(job, auth, auth_key, auth_key_len, auth_off, auth_len, tag, tag_len);
    job->chain_order = dir == MBJ_DIR_ENCRYPT ? MBJ_ORDER_CIPHER_HASH : MBJ_ORDER_HASH_CIPHER;
}

/* The same for CBC with HMAC of a hash, and for CTR with it: hash is of enum mbj_hash. CBC's IV has 16 bytes. */
MBJ_API void mbj_job_cbc_hmac(MBJ_JOB *job, uint32_t hash, uint32_t dir, const uint8_t *key, size_t key_len, const uint8_t *iv,
                              const uint8_t *auth_key, size_t auth_key_len, const uint8_t *packet, size_t packet_len, uint64_t off,
                              uint64_t len, uint8_t *dst, uint64_t auth_off, uint64_t auth_len, uint8_t *tag, size_t tag_len) {
    uint32_t auth = hash <= MBJ_HASH_SHA_512 ? MBJ_AUTH_HMAC_SHA_1 + hash : (uint32_t)MBJ_AUTH_UNSET;
    mbj_job_cipher_auth(job, MBJ_CIPHER_CBC, auth, dir, key, key_len, iv, 16, auth_key, auth_key_len, packet, packet_len, off, len, dst,
                        auth_off, auth_len, tag, tag_len);
}

MBJ_API void mbj_job_ctr_hmac(MBJ_JOB *job, uint32_t hash, uint32_t dir, const uint8_t *key, size_t key_len, const uint8_t *iv,
                              size_t iv_len, const uint8_t *auth_key, size_t auth_key_len, const uint8_t *packet, size_t packet_len,
                              uint64_t off, uint64_t len, uint8_t *dst, uint64_t auth_off, uint64_t auth_len, uint8_t *tag,
                              size_t tag_len) {
    uint32_t auth = hash <= MBJ_HASH_SHA_512 ? MBJ_AUTH_HMAC_SHA_1 + hash : (uint32_t)MBJ_AUTH_UNSET;
    mbj_job_cipher_auth(job, MBJ_CIPHER_CNTR, auth, dir, key, key_len, iv, iv_len, auth_key, auth_key_len, packet, packet_len, off, len,
                        dst, auth_off, auth_len, tag, tag_len);
}

#ifdef __cplusplus
}
#endif
#endif
