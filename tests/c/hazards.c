/* Tests what an engineer may fall into: packets that can't be written or are shared, lengths beyond 32 bits, codes that are none,
 * pointers that are NULL, overlap or lie at odd addresses, and a fork. Link with -Wl,--wrap for mbj_c_submit_job, whose rooms are looked
 * at here. */
#include "check.h"

#include <sys/wait.h>
#include <unistd.h>

#ifdef __cplusplus
extern "C" {
#endif

/* The linker puts the first in the place of the function, which is the second. */
bool __wrap_mbj_c_submit_job(struct mbj_handle *handle, const struct mbj_raw_job *job, struct mbj_raw_done *done, uint32_t *refusal);
bool __real_mbj_c_submit_job(struct mbj_handle *handle, const struct mbj_raw_job *job, struct mbj_raw_done *done, uint32_t *refusal);

static long submitted_by_one_call;

static bool is_within(const struct mbj_room *room, const uint8_t *at) {
    return (uintptr_t)at >= (uintptr_t)room->at && (uintptr_t)at - (uintptr_t)room->at < room->len;
}

/* No byte that the call reads is one that it may write. */
bool __wrap_mbj_c_submit_job(struct mbj_handle *handle, const struct mbj_raw_job *job, struct mbj_raw_done *done, uint32_t *refusal) {
    const struct mbj_bytes read[] = {job->key, job->iv, job->auth_key, job->aad, job->packet};
    for (size_t i = 0; i < sizeof read / sizeof *read; i++)
        for (size_t j = 0; j < read[i].len; j++)
            CHECK(!is_within(&done->dst, read[i].at + j) && !is_within(&done->tag, read[i].at + j));
    submitted_by_one_call++;
    return __real_mbj_c_submit_job(handle, job, done, refusal);
}

#ifdef __cplusplus
}
#endif

/* ---- packets are read and never written ---- */

/* mac_text lies in memory that can't be written. */
static void a_constant_packet_is_authenticated(MBJ_MGR *m) {
    uint8_t tag[MAC_BYTES];
    MBJ_JOB *job = mbj_get_next_job(m);
    fill_mac(job, mac_text, sizeof mac_text, tag);
    CHECK(finish(m) == job && is_done(job) && memcmp(tag, mac, sizeof mac) == 0);
}

/* Two jobs in flight share a packet, which one of them enciphers in place: the other doesn't undo that. */
static void a_shared_packet_stays_enciphered(MBJ_MGR *m) {
    uint8_t packet[CBC_BYTES], tag[MAC_BYTES], own[MAC_BYTES];
    memcpy(packet, cbc_text, sizeof packet);
    fill_mac(mbj_get_next_job(m), packet, sizeof packet, own);
    CHECK(finish(m) != NULL);
    fill_cbc(mbj_get_next_job(m), packet, sizeof packet, 0, packet);
    CHECK(mbj_submit_job(m) == NULL);
    fill_mac(mbj_get_next_job(m), packet, sizeof packet, tag);
    CHECK(mbj_submit_job(m) == NULL);
    for (MBJ_JOB *done; (done = mbj_flush_job(m)) != NULL;)
        CHECK(is_done(done));
    CHECK(memcmp(packet, cbc_ciphertext, sizeof packet) == 0 && memcmp(tag, own, sizeof tag) == 0);
}

/* Only the range that is ciphered is written, to dst. */
static void the_ciphered_range_goes_elsewhere(MBJ_MGR *m) {
    uint8_t packet[CBC_BYTES + 5], before[CBC_BYTES + 5], dst[CBC_BYTES + 2];
    memset(packet, 0xaa, sizeof packet);
    memcpy(packet + 3, cbc_text, CBC_BYTES);
    memcpy(before, packet, sizeof packet);
    memset(dst, 0xee, sizeof dst);
    MBJ_JOB *job = mbj_get_next_job(m);
    fill_cbc(job, packet, sizeof packet, 3, dst + 1);
    CHECK(finish(m) == job && is_done(job) && memcmp(packet, before, sizeof packet) == 0);
    CHECK(dst[0] == 0xee && memcmp(dst + 1, cbc_ciphertext, CBC_BYTES) == 0 && dst[CBC_BYTES + 1] == 0xee);
}

/* dst may overlap the packet in any way, and the tag may lie within dst. */
static void results_may_overlap(MBJ_MGR *m) {
    uint8_t packet[CBC_BYTES + 1];
    memcpy(packet, cbc_text, CBC_BYTES);
    MBJ_JOB *job = mbj_get_next_job(m);
    fill_cbc(job, packet, CBC_BYTES, 0, packet + 1);
    CHECK(finish(m) == job && packet[0] == cbc_text[0] && memcmp(packet + 1, cbc_ciphertext, CBC_BYTES) == 0);
    uint8_t block[GCM_BYTES] = {0};
    job = mbj_get_next_job(m);
    fill_gcm(job, block, block, block + 8);
    job->auth_tag_output_len_in_bytes = 4;
    CHECK(finish(m) == job && is_done(job) && memcmp(block, gcm_ciphertext, 8) == 0);
    CHECK(memcmp(block + 8, gcm_tag, 4) == 0 && memcmp(block + 12, gcm_ciphertext + 12, 4) == 0);
    uint8_t text[sizeof mac_text + MAC_BYTES];
    memcpy(text, mac_text, sizeof mac_text);
    job = mbj_get_next_job(m);
    fill_mac(job, text, sizeof mac_text, text + sizeof mac_text);
    CHECK(finish(m) == job && memcmp(text, mac_text, sizeof mac_text) == 0 && memcmp(text + sizeof mac_text, mac, sizeof mac) == 0);
}

/* Of two jobs in flight with the same dst the later one's bytes are left there. */
static void jobs_may_share_their_dst(MBJ_MGR *m) {
    uint8_t dst[CBC_BYTES];
    fill_cbc(mbj_get_next_job(m), mac_key, CBC_BYTES, 0, dst);
    CHECK(mbj_submit_job(m) == NULL && mbj_get_errno(m) == MBJ_ERR_NONE);
    fill_cbc(mbj_get_next_job(m), cbc_text, CBC_BYTES, 0, dst);
    CHECK(mbj_submit_job(m) == NULL && mbj_get_errno(m) == MBJ_ERR_NONE);
    for (MBJ_JOB *done; (done = mbj_flush_job(m)) != NULL;)
        CHECK(is_done(done));
    CHECK(memcmp(dst, cbc_ciphertext, CBC_BYTES) == 0);
}

/* What a job reads may be used anew once it is submitted, and its fields are not read again. */
static void what_was_read_is_used_anew(MBJ_MGR *m) {
    uint8_t bytes[3][CBC_BYTES], dst[CBC_BYTES];
    memcpy(bytes[0], cbc_text, CBC_BYTES);
    memcpy(bytes[1], cbc_key, CBC_BYTES);
    memcpy(bytes[2], cbc_iv, CBC_BYTES);
    MBJ_JOB *job = mbj_get_next_job(m);
    fill_cbc(job, bytes[0], CBC_BYTES, 0, dst);
    job->key = bytes[1];
    job->iv = bytes[2];
    CHECK(mbj_submit_job(m) == NULL && mbj_get_errno(m) == MBJ_ERR_NONE && job->status == MBJ_STATUS_BEING_PROCESSED);
    memset(bytes, 0xff, sizeof bytes);
    job->dst = NULL;
    job->packet_len_in_bytes = job->msg_len_to_cipher_in_bytes = 0;
    CHECK(mbj_flush_job(m) == job && is_done(job) && memcmp(dst, cbc_ciphertext, CBC_BYTES) == 0);
}

/* No pointer needs an alignment. */
static void odd_addresses(MBJ_MGR *m) {
    enum { ROOM = 64 };
    static uint64_t words[6][ROOM / 8];
    uint8_t *key = (uint8_t *)words[0] + 1, *iv = (uint8_t *)words[1] + 3, *packet = (uint8_t *)words[2] + 5;
    uint8_t *dst = (uint8_t *)words[3] + 7, *tag = (uint8_t *)words[4] + 1, *aad = (uint8_t *)words[5] + 1;
    memcpy(key, cbc_key, sizeof cbc_key);
    memcpy(iv, cbc_iv, sizeof cbc_iv);
    memcpy(packet, cbc_text, sizeof cbc_text);
    MBJ_JOB *job = mbj_get_next_job(m);
    fill_cbc(job, packet, CBC_BYTES, 0, dst);
    job->key = key;
    job->iv = iv;
    CHECK(finish(m) == job && memcmp(dst, cbc_ciphertext, CBC_BYTES) == 0);
    memcpy(key, mac_key, sizeof mac_key);
    memcpy(packet, mac_text, sizeof mac_text);
    job = mbj_get_next_job(m);
    fill_mac(job, packet, sizeof mac_text, tag);
    job->auth_key = key;
    CHECK(finish(m) == job && memcmp(tag, mac, sizeof mac) == 0);
    memset(key, 0, 16);
    memset(iv, 0, 16);
    memset(packet, 0, 16);
    job = mbj_get_next_job(m);
    fill_gcm(job, packet, dst, tag);
    job->key = key;
    job->iv = iv;
    job->aad = aad;
    CHECK(finish(m) == job && memcmp(dst, gcm_ciphertext, GCM_BYTES) == 0 && memcmp(tag, gcm_tag, GCM_BYTES) == 0);
}

/* ---- numbers ---- */

static void lengths_beyond_32_bits(MBJ_MGR *m) {
    uint8_t dst[CBC_BYTES], tag[MAC_BYTES];
    MBJ_JOB *job = mbj_get_next_job(m);
    fill_cbc(job, cbc_text, sizeof cbc_text, 0, dst);
    job->msg_len_to_cipher_in_bytes = (UINT64_C(1) << 32) + CBC_BYTES;
    CHECK(finish(m) == job && is_refused(job, MBJ_REASON_CIPHER_RANGE));
    job = mbj_get_next_job(m);
    fill_cbc(job, cbc_text, sizeof cbc_text, 0, dst);
    job->cipher_start_src_offset_in_bytes = UINT64_MAX - CBC_BYTES + 1;
    CHECK(finish(m) == job && is_refused(job, MBJ_REASON_CIPHER_RANGE));
    job = mbj_get_next_job(m);
    fill_mac(job, mac_text, sizeof mac_text, tag);
    job->msg_len_to_hash_in_bytes = (UINT64_C(1) << 32) + sizeof mac_text;
    CHECK(finish(m) == job && is_refused(job, MBJ_REASON_HASH_RANGE));
    job = mbj_get_next_job(m);
    fill_mac(job, mac_text, sizeof mac_text, tag);
    job->hash_start_src_offset_in_bytes = UINT64_C(1) << 32;
    CHECK(finish(m) == job && is_refused(job, MBJ_REASON_HASH_RANGE));
}

/* Lengths that no job may have are refused, and so are tags that are too long. */
static void lengths_beyond_every_limit(MBJ_MGR *m) {
    enum { LONG = 70000 };
    static const uint8_t bytes[LONG] = {0};
    uint8_t dst[CBC_BYTES], tag[64];
    memset(tag, 7, sizeof tag);
    MBJ_JOB *job = mbj_get_next_job(m);
    fill_mac(job, bytes, LONG, tag);
    CHECK(finish(m) == job && is_refused(job, MBJ_REASON_PACKET_LONG));
    job = mbj_get_next_job(m);
    fill_mac(job, mac_text, sizeof mac_text, tag);
    job->auth_key = bytes;
    job->auth_key_len_in_bytes = LONG;
    CHECK(finish(m) == job && is_refused(job, MBJ_REASON_AUTH_KEY));
    job = mbj_get_next_job(m);
    fill_cbc(job, cbc_text, sizeof cbc_text, 0, dst);
    job->key = bytes;
    job->key_len_in_bytes = LONG;
    CHECK(finish(m) == job && is_refused(job, MBJ_REASON_CIPHER_KEY));
    job = mbj_get_next_job(m);
    fill_gcm(job, gcm_zeros, dst, tag);
    job->aad = bytes;
    job->aad_len_in_bytes = LONG;
    CHECK(finish(m) == job && is_refused(job, MBJ_REASON_AAD_LONG));
    job = mbj_get_next_job(m);
    fill_mac(job, mac_text, sizeof mac_text, tag);
    job->auth_tag_output_len_in_bytes = 256 + MAC_BYTES;
    CHECK(finish(m) == job && is_refused(job, MBJ_REASON_TAG_LENGTH) && is_all(tag, sizeof tag, 7));
}

/* One past the last code, and numbers far beyond, in each of the four fields. */
static void codes_that_are_none(MBJ_MGR *m) {
    static const uint32_t last[4] = {MBJ_CIPHER_CCM, MBJ_DIR_DECRYPT, MBJ_ORDER_HASH_CIPHER, MBJ_AUTH_HMAC_SHA_512_STATES};
    for (int field = 0; field < 4; field++) {
        const uint32_t codes[3] = {last[field] + 1, 255, UINT32_MAX};
        for (int i = 0; i < 3; i++) {
            uint8_t dst[CBC_BYTES] = {0};
            MBJ_JOB *job = mbj_get_next_job(m);
            fill_cbc(job, cbc_text, sizeof cbc_text, 0, dst);
            uint32_t *const fields[4] = {&job->cipher_mode, &job->cipher_direction, &job->chain_order, &job->hash_alg};
            *fields[field] = codes[i];
            CHECK(finish(m) == job && is_refused(job, MBJ_REASON_CODE) && is_all(dst, sizeof dst, 0));
        }
    }
}

/* A job whose cipher or authentication is forgotten isn't done in clear. */
static void forgotten_codes(MBJ_MGR *m) {
    uint8_t packet[CBC_BYTES];
    memcpy(packet, cbc_text, sizeof packet);
    MBJ_JOB *job = mbj_get_next_job(m);
    CHECK(finish(m) == job && is_refused(job, MBJ_REASON_CODE));
    job = mbj_get_next_job(m);
    fill_cbc(job, packet, sizeof packet, 0, packet);
    job->cipher_mode = MBJ_CIPHER_UNSET;
    CHECK(finish(m) == job && is_refused(job, MBJ_REASON_CODE));
    job = mbj_get_next_job(m);
    fill_cbc(job, packet, sizeof packet, 0, packet);
    job->hash_alg = MBJ_AUTH_UNSET;
    CHECK(finish(m) == job && is_refused(job, MBJ_REASON_CODE) && memcmp(packet, cbc_text, sizeof packet) == 0);
}

/* ---- pointers that are NULL ---- */

/* Takes the pointer of one field away; false if there is no such field. */
static bool take_pointer(MBJ_JOB *job, int field) {
    switch (field) {
    case 0: job->packet = NULL; return true;
    case 1: job->key = NULL; return true;
    case 2: job->iv = NULL; return true;
    case 3: job->dst = NULL; return true;
    case 4: job->aad = NULL; job->aad_len_in_bytes = 1; return true;
    case 5: job->auth_tag_output = NULL; return true;
    default: return false;
    }
}

static void pointers_that_are_null(MBJ_MGR *m) {
    uint8_t dst[GCM_BYTES], tag[GCM_BYTES];
    for (int field = 0;; field++) {
        MBJ_JOB *job = mbj_get_next_job(m);
        fill_gcm(job, gcm_zeros, dst, tag);
        bool is_taken = take_pointer(job, field);
        CHECK(finish(m) == job && (is_taken ? is_refused(job, MBJ_REASON_NULL) : is_done(job)));
        if (!is_taken)
            break;
    }
    MBJ_JOB *job = mbj_get_next_job(m);
    fill_mac(job, mac_text, sizeof mac_text, tag);
    job->auth_key = NULL;
    CHECK(finish(m) == job && is_refused(job, MBJ_REASON_NULL));
    /* no bytes may be at NULL: this is the HMAC of no byte under a key of no byte */
    job = mbj_get_next_job(m);
    fill_mac(job, NULL, 0, tag);
    job->auth_key = NULL;
    job->auth_key_len_in_bytes = job->msg_len_to_hash_in_bytes = 0;
    job->auth_tag_output_len_in_bytes = 12;
    CHECK(finish(m) == job && is_done(job));
}

/* The loop that a user of intel-ipsec-mb writes: NULL says that no job is finished. A refused job comes back in its place too. */
static void no_job_is_lost_by_the_usual_loop(MBJ_MGR *m) {
    enum { COUNT = 5 };
    static char place[COUNT];
    uint8_t tags[COUNT][MAC_BYTES];
    int back = 0;
    for (int i = 0; i < COUNT; i++) {
        MBJ_JOB *job = mbj_get_next_job(m);
        fill_mac(job, mac_text, sizeof mac_text, tags[i]);
        job->user_data = &place[i];
        if (i == 1)
            job->auth_key = NULL;
        if (i == 3)
            job->hash_alg = MBJ_AUTH_UNSET;
        for (MBJ_JOB *done = mbj_submit_job(m); done != NULL; done = mbj_get_completed_job(m))
            CHECK(done->user_data == &place[back++]);
    }
    for (MBJ_JOB *done; (done = mbj_flush_job(m)) != NULL; back++) {
        CHECK(done->user_data == &place[back]);
        CHECK(back == 1 ? is_refused(done, MBJ_REASON_NULL) : back == 3 ? is_refused(done, MBJ_REASON_CODE) : is_done(done));
    }
    CHECK(back == COUNT);
}

/* In a process without threads the child has a manager of its own, with the same jobs. */
static void a_fork_copies_the_jobs(MBJ_MGR *m) {
    uint8_t tag[MAC_BYTES] = {0};
    int status = 1;
    MBJ_JOB *job = mbj_get_next_job(m);
    fill_mac(job, mac_text, sizeof mac_text, tag);
    CHECK(mbj_submit_job(m) == NULL && mbj_get_errno(m) == MBJ_ERR_NONE);
    pid_t child = fork();
    CHECK(child >= 0);
    if (child == 0)
        _exit(mbj_flush_job(m) == job && is_done(job) && memcmp(tag, mac, sizeof mac) == 0 ? 0 : 1);
    CHECK(waitpid(child, &status, 0) == child && status == 0 && is_all(tag, sizeof tag, 0));
    CHECK(mbj_flush_job(m) == job && is_done(job) && memcmp(tag, mac, sizeof mac) == 0);
}

int main(void) {
    MBJ_MGR *m = mbj_alloc_mgr();
    CHECK(m != NULL);
    a_fork_copies_the_jobs(m);
    a_constant_packet_is_authenticated(m);
    a_shared_packet_stays_enciphered(m);
    the_ciphered_range_goes_elsewhere(m);
    results_may_overlap(m);
    jobs_may_share_their_dst(m);
    what_was_read_is_used_anew(m);
    odd_addresses(m);
    lengths_beyond_32_bits(m);
    lengths_beyond_every_limit(m);
    codes_that_are_none(m);
    forgotten_codes(m);
    pointers_that_are_null(m);
    no_job_is_lost_by_the_usual_loop(m);
    CHECK(submitted_by_one_call > 0);
    mbj_free_mgr(m);
    return 0;
}
