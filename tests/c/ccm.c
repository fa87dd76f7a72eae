/* Tests CCM: the answers that its standards have, which fields a job ignores, and why one is refused. */
#include "answers.h"

/* ---- answers ---- */

struct ccm_answer {
    const char *key, *nonce, *aad, *plaintext, *ciphertext, *tag;
};

static const struct ccm_answer ccm_answers[] = {
    /* RFC 3610, section 8, packet vector #1 */
    {"c0c1c2c3c4c5c6c7c8c9cacbcccdcecf", "00000003020100a0a1a2a3a4a5", "0001020304050607",
     "08090a0b0c0d0e0f101112131415161718191a1b1c1d1e", "588c979a61c663d2f066d0c2c0f989806d5f6b61dac384", "17e8d12cfdf926e0"},
    /* SP 800-38C, examples 1 to 3 */
    {"404142434445464748494a4b4c4d4e4f", "10111213141516", "0001020304050607", "20212223", "7162015b", "4dac255d"},
    {"404142434445464748494a4b4c4d4e4f", "1011121314151617", "000102030405060708090a0b0c0d0e0f", "202122232425262728292a2b2c2d2e2f",
     "d2a1f0e051ea5f62081a7792073d593d", "1fc64fbfaccd"},
    {"404142434445464748494a4b4c4d4e4f", "101112131415161718191a1b", "000102030405060708090a0b0c0d0e0f10111213",
     "202122232425262728292a2b2c2d2e2f3031323334353637", "e3b201a9f5b71a7a9b1ceaeccd97e70b6176aad9a4428aa5", "484392fbc1b09951"},
};

/* A job of CCM over all of the packet but its first byte. What CCM doesn't use is nowhere and out of range. */
static void fill_ccm(MBJ_JOB *job, const struct text *key, const struct text *nonce, const struct text *aad, const struct text *packet) {
    job->cipher_mode = MBJ_CIPHER_CCM;
    job->hash_alg = MBJ_AUTH_AES_CCM;
    job->key = key->at;
    job->key_len_in_bytes = key->len;
    job->iv = nonce->at;
    job->iv_len_in_bytes = nonce->len;
    job->aad = aad->at;
    job->aad_len_in_bytes = aad->len;
    job->packet = packet->at;
    job->packet_len_in_bytes = packet->len;
    job->cipher_start_src_offset_in_bytes = 1;
    job->msg_len_to_cipher_in_bytes = packet->len - 1;
    job->auth_key = nowhere();
    job->auth_key_len_in_bytes = 2000;
    job->hash_start_src_offset_in_bytes = job->msg_len_to_hash_in_bytes = UINT64_C(1) << 40;
}

/* Does what the answer says in this direction and order: only the range is given back, and the tag is that over the plain text. */
static void check_ccm(MBJ_MGR *m, const struct ccm_answer *answer, uint32_t direction, uint32_t order) {
    bool is_enc = direction == MBJ_DIR_ENCRYPT;
    struct text key = bytes_of(answer->key), nonce = bytes_of(answer->nonce), aad = bytes_of(answer->aad), tag = bytes_of(answer->tag);
    struct text from = bytes_of(is_enc ? answer->plaintext : answer->ciphertext);
    struct text to = bytes_of(is_enc ? answer->ciphertext : answer->plaintext), packet = {{0xaa}, from.len + 1};
    uint8_t dst[ROOM], own_tag[MBJ_MAX_TAG_BYTES];
    memcpy(packet.at + 1, from.at, from.len);
    memset(dst, 0xee, sizeof dst);
    memset(own_tag, 0xee, sizeof own_tag);
    MBJ_JOB *job = mbj_get_next_job(m);
    fill_ccm(job, &key, &nonce, &aad, &packet);
    job->cipher_direction = direction;
    job->chain_order = order;
    job->dst = dst;
    job->auth_tag_output = own_tag;
    job->auth_tag_output_len_in_bytes = tag.len;
    CHECK(finish(m) == job && is_done(job) && is_same(dst, &to) && is_same(own_tag, &tag));
    CHECK(is_all(dst + to.len, sizeof dst - to.len, 0xee) && is_all(own_tag + tag.len, sizeof own_tag - tag.len, 0xee));
    CHECK(packet.at[0] == 0xaa && memcmp(packet.at + 1, from.at, from.len) == 0);
}

static void ccm_answers_come_out(MBJ_MGR *m) {
    for (size_t i = 0; i < sizeof ccm_answers / sizeof *ccm_answers; i++)
        for (uint32_t way = 0; way < 4; way++)
            check_ccm(m, &ccm_answers[i], way % 2, way / 2);
}

/* The first answer, in place, of as many jobs as there are lanes and some more. */
static void ccm_is_sealed_in_lanes(MBJ_MGR *m) {
    enum { COUNT = 40 };
    static struct text packets[COUNT];
    static uint8_t tags[COUNT][8];
    struct text key = bytes_of(ccm_answers[0].key), nonce = bytes_of(ccm_answers[0].nonce), aad = bytes_of(ccm_answers[0].aad);
    struct text plaintext = bytes_of(ccm_answers[0].plaintext), ciphertext = bytes_of(ccm_answers[0].ciphertext);
    struct text tag = bytes_of(ccm_answers[0].tag);
    int given = 0;
    for (int i = 0; i < COUNT; i++) {
        packets[i].len = plaintext.len + 1;
        memcpy(packets[i].at + 1, plaintext.at, plaintext.len);
        MBJ_JOB *job = mbj_get_next_job(m);
        fill_ccm(job, &key, &nonce, &aad, &packets[i]);
        job->dst = packets[i].at + 1;
        job->auth_tag_output = tags[i];
        job->auth_tag_output_len_in_bytes = tag.len;
        for (MBJ_JOB *done = mbj_submit_job(m); done != NULL; done = mbj_get_completed_job(m), given++)
            CHECK(is_done(done));
    }
    CHECK(given == 32);
    for (MBJ_JOB *done; (done = mbj_flush_job(m)) != NULL; given++)
        CHECK(is_done(done));
    CHECK(given == COUNT);
    for (int i = 0; i < COUNT; i++)
        CHECK(is_same(packets[i].at + 1, &ciphertext) && is_same(tags[i], &tag));
}

/* ---- refusals ---- */

static const struct fault ccm_faults[] = {
    {take, offsetof(MBJ_JOB, key), MBJ_REASON_NULL},
    {take, offsetof(MBJ_JOB, iv), MBJ_REASON_NULL},
    {take, offsetof(MBJ_JOB, aad), MBJ_REASON_NULL},
    {take, offsetof(MBJ_JOB, packet), MBJ_REASON_NULL},
    {take, offsetof(MBJ_JOB, dst), MBJ_REASON_NULL},
    {take, offsetof(MBJ_JOB, auth_tag_output), MBJ_REASON_NULL},
    {pair_with, MBJ_AUTH_NULL, MBJ_REASON_PAIR},
    {pair_with, MBJ_AUTH_GCM, MBJ_REASON_PAIR},
    {pair_with, MBJ_AUTH_AES_GMAC, MBJ_REASON_PAIR},
    {pair_with, MBJ_AUTH_SHA_1, MBJ_REASON_PAIR},
    {encipher_by, MBJ_CIPHER_CNTR, MBJ_REASON_PAIR},
    {encipher_by, MBJ_CIPHER_GCM, MBJ_REASON_PAIR},
    {encipher_by, MBJ_CIPHER_NULL, MBJ_REASON_PAIR},
    {give_key, 15, MBJ_REASON_CIPHER_KEY},
    {give_iv, 6, MBJ_REASON_IV_LENGTH},
    {give_iv, 14, MBJ_REASON_IV_LENGTH},
    {cipher_more, 1, MBJ_REASON_CIPHER_RANGE},
    {give_aad, 65280, MBJ_REASON_AAD_LONG},
    {give_tag, 0, MBJ_REASON_TAG_LENGTH},
    {give_tag, 2, MBJ_REASON_TAG_LENGTH},
    {give_tag, 7, MBJ_REASON_TAG_LENGTH},
    {give_tag, 18, MBJ_REASON_TAG_LENGTH},
};

static void ccm_is_refused(MBJ_MGR *m) {
    struct text key = bytes_of(ccm_answers[0].key), nonce = bytes_of(ccm_answers[0].nonce), aad = bytes_of(ccm_answers[0].aad);
    struct text packet = bytes_of(ccm_answers[0].plaintext);
    uint8_t dst[ROOM], tag[MBJ_MAX_TAG_BYTES];
    for (size_t i = 0; i < sizeof ccm_faults / sizeof *ccm_faults; i++) {
        MBJ_JOB *job = mbj_get_next_job(m);
        fill_ccm(job, &key, &nonce, &aad, &packet);
        job->dst = dst;
        job->auth_tag_output = tag;
        job->auth_tag_output_len_in_bytes = 8;
        check_fault(m, job, &ccm_faults[i], dst, tag);
    }
}

/* 65,279 bytes of additional data are taken, and no text is as good as any. The tag is that of OpenSSL. */
static void ccm_takes_its_longest_aad(MBJ_MGR *m) {
    struct text key = bytes_of(ccm_answers[0].key), nonce = bytes_of(ccm_answers[0].nonce), none = {{0}, 0}, packet = {{0}, 1};
    struct text want = bytes_of("0e5f096f88586f8a9c25ff22f67a690c");
    uint8_t tag[16];
    MBJ_JOB *job = mbj_get_next_job(m);
    fill_ccm(job, &key, &nonce, &none, &packet);
    job->aad = zeros;
    job->aad_len_in_bytes = 65279;
    job->auth_tag_output = tag;
    job->auth_tag_output_len_in_bytes = sizeof tag;
    CHECK(finish(m) == job && is_done(job) && is_same(tag, &want));
}

int main(void) {
    MBJ_MGR *m = mbj_alloc_mgr();
    CHECK(m != NULL);
    ccm_answers_come_out(m);
    ccm_is_sealed_in_lanes(m);
    ccm_is_refused(m);
    ccm_takes_its_longest_aad(m);
    mbj_free_mgr(m);
    return 0;
}
