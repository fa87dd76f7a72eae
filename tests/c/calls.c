/* Tests what the header's calls answer, with and without memory. Link with refuse.c. */
#include "check.h"
#include "refuse.h"

static void calls_without_a_manager(void) {
    CHECK(mbj_get_next_job(NULL) == NULL && mbj_submit_job(NULL) == NULL);
    CHECK(mbj_get_completed_job(NULL) == NULL && mbj_flush_job(NULL) == NULL);
    CHECK(mbj_get_errno(NULL) == MBJ_ERR_NO_MANAGER && mbj_queue_size(NULL) == 0);
    CHECK(mbj_init_mgr(NULL) == MBJ_ERR_NULL);
    mbj_end_mgr(NULL);
    mbj_free_mgr(NULL);
}

static void jobs_that_are_not_there(MBJ_MGR *m) {
    CHECK(mbj_submit_job(m) == NULL && mbj_get_errno(m) == MBJ_ERR_NO_JOB);
    CHECK(mbj_get_completed_job(m) == NULL && mbj_get_errno(m) == MBJ_ERR_NONE);
    CHECK(mbj_flush_job(m) == NULL && mbj_get_errno(m) == MBJ_ERR_NONE);
    CHECK(mbj_queue_size(m) == 0);
}

static void a_job_that_does_nothing(MBJ_MGR *m) {
    MBJ_JOB *job = mbj_get_next_job(m);
    CHECK(job != NULL && job->packet == NULL);
    job->cipher_mode = MBJ_CIPHER_NULL;
    job->hash_alg = MBJ_AUTH_NULL;
    /* what a job doesn't use isn't looked at */
    job->key = (const uint8_t *)1;
    job->key_len_in_bytes = 16;
    job->dst = (uint8_t *)1;
    job->msg_len_to_cipher_in_bytes = 16;
    CHECK(mbj_get_next_job(m) == job && job->key_len_in_bytes == 16);
    CHECK(finish(m) == job && is_done(job));
}

static void a_job_is_submitted_again_where_memory_wanted(MBJ_MGR *m) {
    uint8_t tag[MAC_BYTES];
    MBJ_JOB *job = mbj_get_next_job(m);
    fill_mac(job, mac_text, sizeof mac_text, tag);
    mbj_trim(m);
    allocations = 0;
    refuse_at = 1;
    CHECK(mbj_submit_job(m) == NULL && mbj_get_errno(m) == MBJ_ERR_MEMORY && job->status == MBJ_STATUS_ERROR);
    refuse_at = 0;
    CHECK(mbj_queue_size(m) == 0 && mbj_get_next_job(m) == job);
    CHECK(finish(m) == job && is_done(job) && memcmp(tag, mac, sizeof mac) == 0);
}

/* Submits the job, which takes this many blocks and no more if the manager keeps none, and all of them are free once it is given back
 * and the manager trimmed. */
static void submit_for_blocks(MBJ_MGR *m, long expected) {
    mbj_trim(m);
    long before = blocks;
    allocations = 0;
    const MBJ_JOB *done = mbj_submit_job(m);
    CHECK(mbj_get_errno(m) == MBJ_ERR_NONE && (done != NULL || blocks == before + expected));
    if (done == NULL)
        done = mbj_flush_job(m);
    CHECK(done != NULL && is_done(done) && allocations == expected);
    mbj_trim(m);
    CHECK(blocks == before);
}

/* A block for each of keys, IV, additional data and packet that the job uses and that has bytes. */
static void a_job_takes_a_block_for_each_of_its_bytes(MBJ_MGR *m) {
    uint8_t dst[CBC_BYTES], tag[MAC_BYTES];
    MBJ_JOB *job = mbj_get_next_job(m);
    job->cipher_mode = MBJ_CIPHER_NULL;
    job->hash_alg = MBJ_AUTH_NULL;
    submit_for_blocks(m, 0);
    fill_mac(mbj_get_next_job(m), mac_text, sizeof mac_text, tag);
    submit_for_blocks(m, 2);
    fill_cbc(mbj_get_next_job(m), cbc_text, sizeof cbc_text, 0, dst);
    submit_for_blocks(m, 3);
    job = mbj_get_next_job(m);
    fill_mac(job, cbc_text, sizeof cbc_text, tag);
    fill_cbc(job, cbc_text, sizeof cbc_text, 0, dst);
    job->hash_alg = MBJ_AUTH_HMAC_SHA_1;
    submit_for_blocks(m, 4);
    job = mbj_get_next_job(m);
    fill_gcm(job, gcm_zeros, dst, tag);
    job->auth_key = mac_key;
    job->auth_key_len_in_bytes = sizeof mac_key;
    submit_for_blocks(m, 3);
    job = mbj_get_next_job(m);
    fill_gcm(job, gcm_zeros, dst, tag);
    job->aad = mac_text;
    job->aad_len_in_bytes = sizeof mac_text;
    submit_for_blocks(m, 4);
    job = mbj_get_next_job(m);
    fill_cbc(job, cbc_text, sizeof cbc_text, 0, dst);
    make_ccm(job, tag);
    job->auth_key = mac_key;
    job->auth_key_len_in_bytes = sizeof mac_key;
    submit_for_blocks(m, 4);
}

/* A hash uses no key, and GMAC beside its key the IV. Neither uses the cipher's key or additional data. */
static void a_job_without_a_cipher_takes_blocks_too(MBJ_MGR *m) {
    uint8_t dst[CBC_BYTES], tag[MAC_BYTES];
    static const long taken[] = {1, 3};
    static const uint32_t auths[] = {MBJ_AUTH_SHA_1, MBJ_AUTH_AES_GMAC};
    for (int i = 0; i < 2; i++) {
        MBJ_JOB *job = mbj_get_next_job(m);
        fill_gcm(job, gcm_zeros, dst, tag);
        job->cipher_mode = MBJ_CIPHER_NULL;
        job->hash_alg = auths[i];
        job->auth_key = cbc_key;
        job->auth_key_len_in_bytes = sizeof cbc_key;
        job->aad = mac_text;
        job->aad_len_in_bytes = sizeof mac_text;
        submit_for_blocks(m, taken[i]);
    }
}

/* Many jobs come back in the order of submission; if none is left, one is flushed. */
static void jobs_come_back_in_order(MBJ_MGR *m) {
    enum { COUNT = 700 };
    static uint8_t tags[COUNT][MAC_BYTES];
    static char place[COUNT];
    int next = 0, full = 0;
    for (int i = 0; i < COUNT; i++) {
        MBJ_JOB *job = mbj_get_next_job(m);
        if (job == NULL) {
            full++;
            CHECK(mbj_get_errno(m) == MBJ_ERR_FULL && mbj_queue_size(m) == MBJ_MAX_JOBS);
            MBJ_JOB *flushed = mbj_flush_job(m);
            CHECK(flushed != NULL && flushed->user_data == &place[next++]);
            job = mbj_get_next_job(m);
        }
        CHECK(job->user_data == NULL && job->cipher_mode == MBJ_CIPHER_UNSET && job->hash_alg == MBJ_AUTH_UNSET);
        fill_mac(job, mac_text, sizeof mac_text, tags[i]);
        if (i % 300 != 0)
            job->hash_alg = MBJ_AUTH_NULL, job->auth_tag_output_len_in_bytes = 0;
        job->user_data = &place[i];
        MBJ_JOB *done = mbj_submit_job(m);
        CHECK(mbj_get_errno(m) == MBJ_ERR_NONE);
        for (; done != NULL && i % 2 == 0; done = mbj_get_completed_job(m))
            CHECK(done->user_data == &place[next++]);
        if (done != NULL)
            CHECK(done->user_data == &place[next++]);
    }
    for (MBJ_JOB *done; (done = mbj_flush_job(m)) != NULL;)
        CHECK(done->user_data == &place[next++] && is_done(done));
    CHECK(next == COUNT && mbj_queue_size(m) == 0 && full >= 0);
    for (int i = 0; i < COUNT; i += 300)
        CHECK(memcmp(tags[i], mac, sizeof mac) == 0);
}

/* A raw job that enciphers a block behind one byte of the packet. */
static struct mbj_raw_job raw_cbc(const uint8_t *packet, size_t len) {
    struct mbj_raw_job raw;
    memset(&raw, 0, sizeof raw);
    raw.cipher = MBJ_CIPHER_CBC;
    raw.key.at = cbc_key;
    raw.key.len = sizeof cbc_key;
    raw.iv.at = cbc_iv;
    raw.iv.len = sizeof cbc_iv;
    raw.auth_key.at = raw.aad.at = packet;
    raw.packet.at = packet;
    raw.packet.len = len;
    raw.cipher_off = 1;
    raw.cipher_len = CBC_BYTES;
    return raw;
}

static void exports_without_a_manager(struct mbj_handle *handle, const struct mbj_raw_job *raw, struct mbj_raw_done *done) {
    struct mbj_counts counts;
    uint32_t refusal = 9;
    CHECK(!mbj_c_free(handle) && mbj_c_queue_size(handle) == 0 && !mbj_c_count(handle, 0, &counts));
    CHECK(mbj_c_fill(handle, raw) == MBJ_ERR_NO_MANAGER);
    CHECK(!mbj_c_flush(handle, done, &refusal) && refusal == MBJ_ERR_NO_MANAGER);
    refusal = 9;
    CHECK(!mbj_c_submit_job(handle, raw, done, &refusal) && refusal == MBJ_ERR_NO_MANAGER);
}

/* Room is needed for the range alone, and no call from the filling on takes memory. */
static void exports_give_the_range_back(struct mbj_handle *handle, struct mbj_raw_done *done) {
    uint32_t refusal = 9;
    allocations = 0;
    done->dst.len = CBC_BYTES - 1;
    CHECK(!mbj_c_submit(handle, done, &refusal) && refusal == MBJ_ERR_NO_ROOM && done->dst_len == 9 && done->status == 9);
    done->dst.len = CBC_BYTES;
    done->tag.len = MBJ_MAX_TAG_BYTES - 1;
    CHECK(!mbj_c_submit(handle, done, &refusal) && refusal == MBJ_ERR_NO_ROOM);
    done->tag.len = MBJ_MAX_TAG_BYTES;
    bool is_given = mbj_c_submit(handle, done, &refusal);
    CHECK(refusal == MBJ_ERR_NONE && (is_given || mbj_c_flush(handle, done, &refusal)));
    CHECK(done->dst_len == CBC_BYTES && memcmp(done->dst.at, cbc_ciphertext, CBC_BYTES) == 0);
    CHECK(done->tag_len == 0 && done->status == 0 && done->reason == MBJ_REASON_NONE);
    CHECK(!mbj_c_get_completed(handle, done, &refusal) && !mbj_c_flush(handle, done, &refusal) && mbj_c_queue_size(handle) == 0);
    CHECK(allocations == 0);
}

/* One call does what filling and submitting do. Without room for the result its job stays filled, and the next call replaces it. */
static void one_export_fills_and_submits(struct mbj_handle *handle, const struct mbj_raw_job *raw, struct mbj_raw_done *done) {
    uint32_t refusal = 9;
    struct mbj_raw_job unknown = *raw;
    unknown.order = MBJ_ORDER_HASH_CIPHER + 1;
    done->dst_len = 9;
    CHECK(!mbj_c_submit_job(handle, &unknown, done, &refusal) && refusal == MBJ_ERR_WORD);
    CHECK(!mbj_c_submit(handle, done, &refusal) && refusal == MBJ_ERR_NO_JOB);
    done->dst.len = CBC_BYTES - 1;
    CHECK(!mbj_c_submit_job(handle, raw, done, &refusal) && refusal == MBJ_ERR_NO_ROOM && mbj_c_queue_size(handle) == 0);
    CHECK(done->dst_len == 9);
    done->dst.len = CBC_BYTES;
    bool is_given = mbj_c_submit_job(handle, raw, done, &refusal);
    CHECK(refusal == MBJ_ERR_NONE && (is_given || mbj_c_flush(handle, done, &refusal)));
    CHECK(done->dst_len == CBC_BYTES && memcmp(done->dst.at, cbc_ciphertext, CBC_BYTES) == 0 && mbj_c_queue_size(handle) == 0);
}

static void exports_want_no_room_for_a_refused_job(struct mbj_handle *handle, struct mbj_raw_job *raw, struct mbj_raw_done *done) {
    uint32_t refusal = 9;
    raw->cipher_len = UINT64_C(1) << 32;
    CHECK(mbj_c_fill(handle, raw) == MBJ_ERR_NONE);
    done->dst.len = 0;
    CHECK(mbj_c_submit(handle, done, &refusal) && refusal == MBJ_ERR_NONE && done->dst_len == 0);
    CHECK(done->status == 1 && done->reason == MBJ_REASON_CIPHER_RANGE);
}

static void exports(void) {
    struct mbj_handle handle = MBJ_HANDLE_INIT;
    struct mbj_counts counts;
    uint8_t packet[CBC_BYTES + 3] = {0}, dst[CBC_BYTES], tag[MBJ_MAX_TAG_BYTES];
    memcpy(packet + 1, cbc_text, sizeof cbc_text);
    struct mbj_raw_job raw = raw_cbc(packet, sizeof packet);
    struct mbj_raw_done done = {{dst, sizeof dst}, {tag, sizeof tag}, 9, 9, 9, 9};
    uint32_t refusal = 9;
    exports_without_a_manager(&handle, &raw, &done);
    CHECK(mbj_c_new(&handle) == MBJ_ERR_NONE && mbj_c_new(&handle) == MBJ_ERR_HAS_MANAGER);
    CHECK(!mbj_c_submit(&handle, &done, &refusal) && refusal == MBJ_ERR_NO_JOB);
    raw.auth = MBJ_AUTH_HMAC_SHA_512_STATES + 1;
    CHECK(mbj_c_fill(&handle, &raw) == MBJ_ERR_WORD);
    raw.cipher = MBJ_CIPHER_CCM + 1;
    raw.auth = MBJ_AUTH_NULL;
    CHECK(mbj_c_fill(&handle, &raw) == MBJ_ERR_WORD);
    raw.cipher = MBJ_CIPHER_CBC;
    CHECK(mbj_c_fill(&handle, &raw) == MBJ_ERR_NONE);
    exports_give_the_range_back(&handle, &done);
    one_export_fills_and_submits(&handle, &raw, &done);
    exports_want_no_room_for_a_refused_job(&handle, &raw, &done);
    CHECK(mbj_c_count(&handle, MBJ_KIND_CBC_128, &counts) && counts.waiting == 0 && !mbj_c_count(&handle, MBJ_KINDS, &counts));
    CHECK(mbj_c_free(&handle) && handle.at == NULL && !mbj_c_free(&handle));
}

/* Every block that is asked for is freed, also if a manager is asked for twice, if jobs are left, and if making one fails. */
static void every_block_is_freed(void) {
    uint8_t dst[CBC_BYTES], tag[MAC_BYTES];
    long before = blocks;
    struct mbj_handle handle = MBJ_HANDLE_INIT;
    CHECK(mbj_c_new(&handle) == MBJ_ERR_NONE);
    long taken = blocks;
    CHECK(taken > before && mbj_c_new(&handle) == MBJ_ERR_HAS_MANAGER && blocks == taken);
    struct mbj_raw_job raw = raw_cbc(cbc_text, sizeof cbc_text);
    CHECK(mbj_c_fill(&handle, &raw) == MBJ_ERR_NONE && mbj_c_fill(&handle, &raw) == MBJ_ERR_NONE);
    CHECK(mbj_c_free(&handle) && blocks == before);
    for (long at = 1;; at++) {
        allocations = 0;
        refuse_at = at;
        MBJ_MGR *m = mbj_alloc_mgr();
        refuse_at = 0;
        bool is_made = m != NULL;
        if (is_made) {
            fill_mac(mbj_get_next_job(m), mac_text, sizeof mac_text, tag);
            CHECK(mbj_submit_job(m) == NULL);
            fill_cbc(mbj_get_next_job(m), cbc_text, sizeof cbc_text, 0, dst);
            make_ccm(mbj_get_next_job(m), tag);
            CHECK(mbj_submit_job(m) == NULL && mbj_queue_size(m) == 2);
            mbj_get_next_job(m);
        }
        mbj_free_mgr(m);
        CHECK(blocks == before);
        if (is_made)
            return;
    }
}

static void a_manager_in_memory_of_ones_own(void) {
    static MBJ_MGR own;
    uint8_t tag[MAC_BYTES];
    memset(&own, 0xee, sizeof own);
    CHECK(mbj_init_mgr(&own) == MBJ_ERR_NONE && mbj_get_errno(&own) == MBJ_ERR_NONE);
    MBJ_JOB *job = mbj_get_next_job(&own);
    fill_mac(job, mac_text, sizeof mac_text, tag);
    CHECK(finish(&own) == job && is_done(job) && memcmp(tag, mac, sizeof mac) == 0);
    mbj_end_mgr(&own);
    mbj_end_mgr(&own);
    CHECK(mbj_get_next_job(&own) != NULL && mbj_submit_job(&own) == NULL && mbj_get_errno(&own) == MBJ_ERR_NO_MANAGER);
    allocations = 0;
    refuse_at = 1;
    CHECK(mbj_init_mgr(&own) == MBJ_ERR_MEMORY && mbj_queue_size(&own) == 0);
    refuse_at = 0;
}

/* An earlier one, and those of other major numbers. */
static void another_version_is_refused(void) {
    static const uint32_t others[] = {MBJ_VERSION_NUM - 1, MBJ_VERSION_NUM + 65536, (MBJ_VERSION_MAJOR + 1) * 65536, UINT32_MAX};
    static MBJ_MGR own;
    CHECK(mbj_c_version() == MBJ_VERSION_NUM);
    for (size_t i = 0; i < sizeof others / sizeof *others; i++) {
        faked_version = others[i];
        CHECK(mbj_init_mgr(&own) == MBJ_ERR_VERSION && mbj_get_errno(&own) == MBJ_ERR_VERSION && mbj_alloc_mgr() == NULL);
    }
    faked_version = 0;
}

static void a_later_version_is_taken(void) {
    static const uint32_t later[] = {MBJ_VERSION_NUM, MBJ_VERSION_NUM + 1, MBJ_VERSION_NUM + 256, MBJ_VERSION_MAJOR * 65536 + 65535};
    static MBJ_MGR own;
    for (size_t i = 0; i < sizeof later / sizeof *later; i++) {
        faked_version = later[i];
        CHECK(mbj_init_mgr(&own) == MBJ_ERR_NONE);
        mbj_end_mgr(&own);
    }
    faked_version = 0;
}

static void a_lesser_processor_is_refused(void) {
    static MBJ_MGR own;
    CHECK(mbj_c_missing_feature() == NULL);
    faked_missing_feature = "avx2";
    CHECK(mbj_init_mgr(&own) == MBJ_ERR_PROCESSOR && mbj_get_errno(&own) == MBJ_ERR_PROCESSOR && mbj_alloc_mgr() == NULL);
    CHECK(mbj_get_next_job(&own) != NULL && mbj_submit_job(&own) == NULL && mbj_get_errno(&own) == MBJ_ERR_NO_MANAGER);
    mbj_end_mgr(&own);
    faked_missing_feature = NULL;
}

/* The text begins with the version, and names what the library was built for. */
static void the_version_is_told(void) {
    const char *text = mbj_version_text();
    CHECK(strncmp(text, MBJ_VERSION_STR " for x86-64-v", strlen(MBJ_VERSION_STR " for x86-64-v")) == 0 && text == mbj_c_build_text());
}

/* Each number of an error has a text of its own, and other numbers have none. */
static void numbers_have_texts(void) {
    const char *none = mbj_err_text(UINT32_MAX);
    for (uint32_t i = 0; i <= MBJ_REASON_NO_TAG + 1; i++) {
        bool is_error = i <= MBJ_ERR_NOT_SUBMITTER || (i >= MBJ_REASON_CODE && i <= MBJ_REASON_NO_TAG);
        CHECK((mbj_err_text(i) != none) == is_error);
        for (uint32_t j = 0; is_error && j < i; j++)
            CHECK(strcmp(mbj_err_text(i), mbj_err_text(j)) != 0);
    }
}

int main(void) {
    calls_without_a_manager();
    exports();
    every_block_is_freed();
    a_manager_in_memory_of_ones_own();
    another_version_is_refused();
    a_later_version_is_taken();
    a_lesser_processor_is_refused();
    the_version_is_told();
    numbers_have_texts();
    long before = blocks;
    MBJ_MGR *m = mbj_alloc_mgr();
    CHECK(m != NULL);
    jobs_that_are_not_there(m);
    a_job_that_does_nothing(m);
    a_job_is_submitted_again_where_memory_wanted(m);
    a_job_takes_a_block_for_each_of_its_bytes(m);
    a_job_without_a_cipher_takes_blocks_too(m);
    jobs_come_back_in_order(m);
    mbj_free_mgr(m);
    CHECK(blocks == before);
    return 0;
}
