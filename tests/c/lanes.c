/* Tests what docs/C.md says of lanes: how many there are of each kind, that jobs wait until all are in use, and which jobs share them. */
#include "check.h"

/* A kind of work, the key of one of its jobs, and how many lanes docs/C.md says that it has. */
struct lanes {
    uint32_t cipher, auth, kind, count;
    size_t key_len;
};

static const struct lanes all[] = {
    {MBJ_CIPHER_CBC, MBJ_AUTH_NULL, MBJ_KIND_CBC_128, 32, 16},
    {MBJ_CIPHER_CBC, MBJ_AUTH_NULL, MBJ_KIND_CBC_192, 32, 24},
    {MBJ_CIPHER_CBC, MBJ_AUTH_NULL, MBJ_KIND_CBC_256, 32, 32},
    {MBJ_CIPHER_NULL, MBJ_AUTH_AES_CMAC, MBJ_KIND_CMAC_128, 32, 16},
    {MBJ_CIPHER_NULL, MBJ_AUTH_AES_CMAC_256, MBJ_KIND_CMAC_256, 32, 32},
    {MBJ_CIPHER_NULL, MBJ_AUTH_HMAC_SHA_1, MBJ_KIND_HMAC_SHA_1, 16, 20},
    {MBJ_CIPHER_NULL, MBJ_AUTH_HMAC_SHA_224, MBJ_KIND_HMAC_SHA_256, 16, 28},
    {MBJ_CIPHER_NULL, MBJ_AUTH_HMAC_SHA_256, MBJ_KIND_HMAC_SHA_256, 16, 32},
    {MBJ_CIPHER_NULL, MBJ_AUTH_HMAC_SHA_384, MBJ_KIND_HMAC_SHA_512, 8, 32},
    {MBJ_CIPHER_NULL, MBJ_AUTH_HMAC_SHA_512, MBJ_KIND_HMAC_SHA_512, 8, 32},
    {MBJ_CIPHER_NULL, MBJ_AUTH_SHA_1, MBJ_KIND_HMAC_SHA_1, 16, 0},
    {MBJ_CIPHER_NULL, MBJ_AUTH_SHA_224, MBJ_KIND_HMAC_SHA_256, 16, 0},
    {MBJ_CIPHER_NULL, MBJ_AUTH_SHA_256, MBJ_KIND_HMAC_SHA_256, 16, 0},
    {MBJ_CIPHER_NULL, MBJ_AUTH_SHA_384, MBJ_KIND_HMAC_SHA_512, 8, 0},
    {MBJ_CIPHER_NULL, MBJ_AUTH_SHA_512, MBJ_KIND_HMAC_SHA_512, 8, 0},
    {MBJ_CIPHER_CCM, MBJ_AUTH_AES_CCM, MBJ_KIND_CCM_128, 32, 16},
    {MBJ_CIPHER_CCM, MBJ_AUTH_AES_CCM, MBJ_KIND_CCM_192, 32, 24},
    {MBJ_CIPHER_CCM, MBJ_AUTH_AES_CCM, MBJ_KIND_CCM_256, 32, 32},
};

/* CBC enciphers, and CCM enciphers and deciphers by turns. */
static void fill_lane(MBJ_JOB *job, const struct lanes *lanes, uint8_t *dst, uint8_t *tag) {
    static const uint8_t key[32] = {0};
    static uint32_t turn;
    if (lanes->cipher != MBJ_CIPHER_NULL) {
        fill_cbc(job, cbc_text, sizeof cbc_text, 0, dst);
        job->key = key;
        job->key_len_in_bytes = lanes->key_len;
        if (lanes->cipher == MBJ_CIPHER_CCM) {
            make_ccm(job, tag);
            job->cipher_direction = turn++ % 2;
        }
        return;
    }
    fill_mac(job, mac_text, sizeof mac_text, tag);
    job->hash_alg = lanes->auth;
    job->auth_key = key;
    job->auth_key_len_in_bytes = lanes->key_len;
    job->auth_tag_output_len_in_bytes = 16;
}

static uint32_t count_waiting(MBJ_MGR *m, uint32_t kind) {
    struct mbj_counts counts;
    CHECK(mbj_c_count(&m->handle, kind, &counts));
    return counts.waiting;
}

/* Jobs of a kind wait until there is one for each lane; then all of the same length are finished. */
static void lanes_run_once_all_are_in_use(MBJ_MGR *m) {
    uint8_t dst[CBC_BYTES], tag[MAC_BYTES];
    for (size_t k = 0; k < sizeof all / sizeof *all; k++) {
        const struct lanes *lanes = &all[k];
        uint32_t given = 0;
        for (uint32_t i = 1; i <= lanes->count; i++) {
            fill_lane(mbj_get_next_job(m), lanes, dst, tag);
            MBJ_JOB *done = mbj_submit_job(m);
            CHECK((done != NULL) == (i == lanes->count) && count_waiting(m, lanes->kind) == i % lanes->count);
            for (; done != NULL; done = mbj_get_completed_job(m), given++)
                CHECK(is_done(done));
        }
        CHECK(given == lanes->count && mbj_queue_size(m) == 0);
    }
}

/* Two jobs wait in the same lanes if their kind is the same: a hash beside the HMAC of that hash, and SHA-224 beside SHA-256. */
static void jobs_of_a_kind_share_lanes(MBJ_MGR *m) {
    uint8_t dst[CBC_BYTES], tag[MAC_BYTES];
    for (size_t i = 0; i < sizeof all / sizeof *all; i++)
        for (size_t j = 0; j < sizeof all / sizeof *all; j++) {
            fill_lane(mbj_get_next_job(m), &all[i], dst, tag);
            CHECK(mbj_submit_job(m) == NULL && mbj_get_errno(m) == MBJ_ERR_NONE);
            fill_lane(mbj_get_next_job(m), &all[j], dst, tag);
            CHECK(mbj_submit_job(m) == NULL && mbj_get_errno(m) == MBJ_ERR_NONE);
            CHECK(count_waiting(m, all[i].kind) == (all[i].kind == all[j].kind ? 2 : 1) && count_waiting(m, all[j].kind) != 0);
            while (mbj_flush_job(m) != NULL)
                ;
        }
}

/* These are done as they are submitted, with no other job out. */
static void some_jobs_wait_for_no_lanes(MBJ_MGR *m) {
    static const uint32_t pairs[][2] = {
        {MBJ_CIPHER_NULL, MBJ_AUTH_NULL}, {MBJ_CIPHER_CBC, MBJ_AUTH_NULL},     {MBJ_CIPHER_CNTR, MBJ_AUTH_NULL},
        {MBJ_CIPHER_GCM, MBJ_AUTH_GCM},   {MBJ_CIPHER_NULL, MBJ_AUTH_AES_GMAC}, {MBJ_CIPHER_NULL, MBJ_AUTH_UNSET},
    };
    uint8_t dst[CBC_BYTES], tag[MAC_BYTES];
    for (size_t i = 0; i < sizeof pairs / sizeof *pairs; i++) {
        MBJ_JOB *job = mbj_get_next_job(m);
        fill_cbc(job, cbc_text, CBC_BYTES, 0, dst);
        job->cipher_mode = pairs[i][0];
        job->cipher_direction = MBJ_DIR_DECRYPT;
        job->hash_alg = pairs[i][1];
        job->auth_key = cbc_key;
        job->auth_key_len_in_bytes = sizeof cbc_key;
        job->auth_tag_output = tag;
        job->auth_tag_output_len_in_bytes = pairs[i][1] == MBJ_AUTH_NULL ? 0 : 16;
        CHECK(mbj_submit_job(m) == job && (is_done(job) || is_refused(job, MBJ_REASON_CODE)));
    }
}

int main(void) {
    MBJ_MGR *m = mbj_alloc_mgr();
    CHECK(m != NULL);
    lanes_run_once_all_are_in_use(m);
    jobs_of_a_kind_share_lanes(m);
    some_jobs_wait_for_no_lanes(m);
    mbj_free_mgr(m);
    return 0;
}
