/* Fill calls: each sets every field of a job that is full of other values, as a job that is filled field by field from a blank one has them;
 * vectors of the standards come out by them; sizes are those of the standards. */
#include "check.h"

static uint8_t key[32], iv[16], auth_key[64], aad[8], packet[96], dst[96], tag[64];

enum { KEY = 16, IV = 16, AUTH_KEY = 20, AAD = 8, PACKET = 96, OFF = 16, LEN = 64, AUTH_OFF = 8, AUTH_LEN = 80, TAG = 12 };

static bool has_same_bytes(const MBJ_JOB *a, const MBJ_JOB *b) {
    return a->key == b->key && a->key_len_in_bytes == b->key_len_in_bytes && a->iv == b->iv && a->iv_len_in_bytes == b->iv_len_in_bytes &&
           a->auth_key == b->auth_key && a->auth_key_len_in_bytes == b->auth_key_len_in_bytes && a->aad == b->aad &&
           a->aad_len_in_bytes == b->aad_len_in_bytes && a->packet == b->packet && a->packet_len_in_bytes == b->packet_len_in_bytes &&
           a->dst == b->dst && a->auth_tag_output == b->auth_tag_output &&
           a->auth_tag_output_len_in_bytes == b->auth_tag_output_len_in_bytes;
}

static bool is_same(const MBJ_JOB *a, const MBJ_JOB *b) {
    return a->cipher_mode == b->cipher_mode && a->cipher_direction == b->cipher_direction && a->chain_order == b->chain_order &&
           a->hash_alg == b->hash_alg && a->cipher_start_src_offset_in_bytes == b->cipher_start_src_offset_in_bytes &&
           a->msg_len_to_cipher_in_bytes == b->msg_len_to_cipher_in_bytes &&
           a->hash_start_src_offset_in_bytes == b->hash_start_src_offset_in_bytes &&
           a->msg_len_to_hash_in_bytes == b->msg_len_to_hash_in_bytes && a->user_data == b->user_data && a->user_data2 == b->user_data2 &&
           a->status == b->status && a->reason == b->reason && a->session == b->session && has_same_bytes(a, b);
}

/* A job as mbj_get_next_job hands it out, and one that is full of other values. */
static MBJ_JOB blank(void) {
    static MBJ_MGR m;
    CHECK(mbj_init_mgr(&m) == MBJ_ERR_NONE);
    MBJ_JOB job = *mbj_get_next_job(&m);
    mbj_end_mgr(&m);
    return job;
}

static MBJ_JOB full(void) {
    MBJ_JOB job;
    memset((void *)&job, 0xa5, sizeof job);
    return job;
}

/* ---- what a job has that is filled field by field ---- */

static MBJ_JOB with_packet(uint32_t cipher, uint32_t auth) {
    MBJ_JOB job = blank();
    job.cipher_mode = cipher;
    job.hash_alg = auth;
    job.packet = packet;
    job.packet_len_in_bytes = PACKET;
    return job;
}

static MBJ_JOB with_cipher(uint32_t cipher, uint32_t auth, uint32_t dir, size_t iv_len) {
    MBJ_JOB job = with_packet(cipher, auth);
    job.cipher_direction = dir;
    job.key = key;
    job.key_len_in_bytes = KEY;
    job.iv = iv;
    job.iv_len_in_bytes = iv_len;
    job.cipher_start_src_offset_in_bytes = OFF;
    job.msg_len_to_cipher_in_bytes = LEN;
    job.dst = dst;
    return job;
}

static void add_tag(MBJ_JOB *job) {
    job->auth_tag_output = tag;
    job->auth_tag_output_len_in_bytes = TAG;
}

static void add_auth(MBJ_JOB *job) {
    job->auth_key = auth_key;
    job->auth_key_len_in_bytes = AUTH_KEY;
    job->hash_start_src_offset_in_bytes = AUTH_OFF;
    job->msg_len_to_hash_in_bytes = AUTH_LEN;
    add_tag(job);
}

/* ---- the calls ---- */

static void check_blank(void) {
    MBJ_JOB want = blank(), job = full();
    mbj_job_blank(&job);
    CHECK(is_same(&job, &want));
    job = full();
    mbj_job_nothing(&job);
    want.cipher_mode = MBJ_CIPHER_NULL;
    want.hash_alg = MBJ_AUTH_NULL;
    CHECK(is_same(&job, &want));
}

static void check_alone(void) {
    MBJ_JOB job = full(), want = with_cipher(MBJ_CIPHER_CNTR, MBJ_AUTH_NULL, MBJ_DIR_DECRYPT, 12);
    mbj_job_cipher(&job, MBJ_CIPHER_CNTR, MBJ_DIR_DECRYPT, key, KEY, iv, 12, packet, PACKET, OFF, LEN, dst);
    CHECK(is_same(&job, &want));
    job = full();
    want = with_packet(MBJ_CIPHER_NULL, MBJ_AUTH_HMAC_SHA_384_STATES);
    add_auth(&want);
    mbj_job_auth(&job, MBJ_AUTH_HMAC_SHA_384_STATES, auth_key, AUTH_KEY, packet, PACKET, AUTH_OFF, AUTH_LEN, tag, TAG);
    CHECK(is_same(&job, &want));
    job = full();
    want.hash_alg = MBJ_AUTH_AES_GMAC;
    want.iv = iv;
    want.iv_len_in_bytes = 12;
    mbj_job_gmac(&job, auth_key, AUTH_KEY, iv, 12, packet, PACKET, AUTH_OFF, AUTH_LEN, tag, TAG);
    CHECK(is_same(&job, &want));
}

static void check_aeads(void) {
    for (uint32_t dir = MBJ_DIR_ENCRYPT; dir <= MBJ_DIR_DECRYPT; dir++) {
        MBJ_JOB job = full(), want = with_cipher(MBJ_CIPHER_GCM, MBJ_AUTH_GCM, dir, 12);
        want.aad = aad;
        want.aad_len_in_bytes = AAD;
        add_tag(&want);
        mbj_job_gcm(&job, dir, key, KEY, iv, 12, aad, AAD, packet, PACKET, OFF, LEN, dst, tag, TAG);
        CHECK(is_same(&job, &want));
        want.cipher_mode = MBJ_CIPHER_CCM;
        want.hash_alg = MBJ_AUTH_AES_CCM;
        job = full();
        mbj_job_ccm(&job, dir, key, KEY, iv, 12, aad, AAD, packet, PACKET, OFF, LEN, dst, tag, TAG);
        CHECK(is_same(&job, &want));
    }
}

/* To encrypt the cipher comes first, and to decrypt the authentication (RFC 4303, 3.3.2.1 and 3.4.4.1). */
static void check_chained(void) {
    for (uint32_t dir = MBJ_DIR_ENCRYPT; dir <= MBJ_DIR_DECRYPT; dir++) {
        MBJ_JOB job = full(), want = with_cipher(MBJ_CIPHER_CBC, MBJ_AUTH_AES_CMAC, dir, IV);
        want.chain_order = dir == MBJ_DIR_ENCRYPT ? MBJ_ORDER_CIPHER_HASH : MBJ_ORDER_HASH_CIPHER;
        add_auth(&want);
        mbj_job_cipher_auth(&job, MBJ_CIPHER_CBC, MBJ_AUTH_AES_CMAC, dir, key, KEY, iv, IV, auth_key, AUTH_KEY, packet, PACKET, OFF, LEN, dst,
                            AUTH_OFF, AUTH_LEN, tag, TAG);
        CHECK(is_same(&job, &want));
        job = full();
        want.hash_alg = MBJ_AUTH_HMAC_SHA_256;
        mbj_job_cbc_hmac(&job, MBJ_HASH_SHA_256, dir, key, KEY, iv, auth_key, AUTH_KEY, packet, PACKET, OFF, LEN, dst, AUTH_OFF, AUTH_LEN,
                         tag, TAG);
        CHECK(is_same(&job, &want));
        job = full();
        want.cipher_mode = MBJ_CIPHER_CNTR;
        want.iv_len_in_bytes = 12;
        mbj_job_ctr_hmac(&job, MBJ_HASH_SHA_256, dir, key, KEY, iv, 12, auth_key, AUTH_KEY, packet, PACKET, OFF, LEN, dst, AUTH_OFF,
                         AUTH_LEN, tag, TAG);
        CHECK(is_same(&job, &want));
        mbj_job_cbc_hmac(&job, 5, dir, key, KEY, iv, auth_key, AUTH_KEY, packet, PACKET, OFF, LEN, dst, AUTH_OFF, AUTH_LEN, tag, TAG);
        CHECK(job.hash_alg == MBJ_AUTH_UNSET);
    }
}

/* ---- results ---- */

static const MBJ_JOB *done(MBJ_MGR *m) {
    const MBJ_JOB *job = mbj_submit_job(m);
    return job != NULL ? job : mbj_flush_job(m);
}

static void check_vectors(void) {
    static MBJ_MGR m;
    CHECK(mbj_init_mgr(&m) == MBJ_ERR_NONE);
    mbj_job_auth(mbj_get_next_job(&m), MBJ_AUTH_HMAC_SHA_1, mac_key, sizeof mac_key, mac_text, sizeof mac_text, 0, sizeof mac_text, tag,
                 MAC_BYTES);
    CHECK(done(&m)->status == MBJ_STATUS_COMPLETED && memcmp(tag, mac, MAC_BYTES) == 0);
    mbj_job_cipher(mbj_get_next_job(&m), MBJ_CIPHER_CBC, MBJ_DIR_ENCRYPT, cbc_key, sizeof cbc_key, cbc_iv, sizeof cbc_iv, cbc_text,
                   CBC_BYTES, 0, CBC_BYTES, dst);
    CHECK(done(&m)->status == MBJ_STATUS_COMPLETED && memcmp(dst, cbc_ciphertext, CBC_BYTES) == 0);
    mbj_job_gcm(mbj_get_next_job(&m), MBJ_DIR_ENCRYPT, gcm_zeros, 16, gcm_zeros, 12, NULL, 0, gcm_zeros, GCM_BYTES, 0, GCM_BYTES, dst, tag,
                16);
    CHECK(done(&m)->status == MBJ_STATUS_COMPLETED && memcmp(dst, gcm_ciphertext, GCM_BYTES) == 0 && memcmp(tag, gcm_tag, 16) == 0);
    mbj_end_mgr(&m);
}

/* FIPS 180-4, 1; SP 800-38B, 5.5; SP 800-38D, 5.2.1.2; SP 800-38C, 5.1. */
static void check_sizes(void) {
    static const size_t digests[] = {20, 28, 32, 48, 64}, states[] = {20, 32, 32, 64, 64};
    for (uint32_t hash = MBJ_HASH_SHA_1; hash <= MBJ_HASH_SHA_512; hash++) {
        CHECK(mbj_digest_bytes(hash) == digests[hash] && mbj_state_bytes(hash) == states[hash]);
        CHECK(mbj_tag_bytes(MBJ_AUTH_HMAC_SHA_1 + hash) == digests[hash] && mbj_tag_bytes(MBJ_AUTH_SHA_1 + hash) == digests[hash]);
        CHECK(mbj_tag_bytes(MBJ_AUTH_HMAC_SHA_1_STATES + hash) == digests[hash]);
    }
    for (uint32_t auth = MBJ_AUTH_AES_CMAC; auth <= MBJ_AUTH_AES_CCM; auth++)
        CHECK(mbj_tag_bytes(auth) == 16);
    CHECK(mbj_tag_bytes(MBJ_AUTH_NULL) == 0 && mbj_tag_bytes(MBJ_AUTH_UNSET) == 0 && mbj_tag_bytes(21) == 0);
    CHECK(mbj_digest_bytes(5) == 0 && mbj_state_bytes(5) == 0);
}

int main(void) {
    check_blank();
    check_alone();
    check_aeads();
    check_chained();
    check_vectors();
    check_sizes();
    return 0;
}
