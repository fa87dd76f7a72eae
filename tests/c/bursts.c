/* Tests bursts, which do what several single calls do, and may be mixed with them. Link with refuse.c. */
#include "check.h"
#include "refuse.h"

enum { TOTAL = 1500, KINDS = 5 };

/* What a job writes. */
struct result {
    uint8_t dst[CBC_BYTES], tag[MAC_BYTES];
};

static struct result results[TOTAL];

/* Job i: by turns a tag, a block, a key that is refused, a code that is none, and nothing to do. */
static void fill_kind(MBJ_JOB *job, uint32_t i) {
    struct result *r = &results[i];
    CHECK(job->user_data == NULL && job->cipher_mode == MBJ_CIPHER_UNSET);
    memset(r, 0xee, sizeof *r);
    if (i % KINDS == 0)
        fill_mac(job, mac_text, sizeof mac_text, r->tag);
    else
        fill_cbc(job, cbc_text, sizeof cbc_text, 0, r->dst);
    if (i % KINDS == 2)
        job->key_len_in_bytes = 15;
    if (i % KINDS == 3)
        job->chain_order = 2;
    if (i % KINDS == 4)
        job->cipher_mode = MBJ_CIPHER_NULL;
    job->user_data = r;
}

/* Each job has its own answer, and what it writes stands in its own place. */
static void check_answer(const MBJ_JOB *job, uint32_t i) {
    const struct result *r = &results[i];
    CHECK(job->user_data == r);
    CHECK(i % KINDS == 2 ? is_refused(job, MBJ_REASON_CIPHER_KEY) : i % KINDS == 3 ? is_refused(job, MBJ_REASON_CODE) : is_done(job));
    CHECK(i % KINDS == 0 ? memcmp(r->tag, mac, sizeof mac) == 0 : is_all(r->tag, sizeof r->tag, 0xee));
    CHECK(i % KINDS == 1 ? memcmp(r->dst, cbc_ciphertext, sizeof cbc_ciphertext) == 0 : is_all(r->dst, sizeof r->dst, 0xee));
}

/* How many jobs are given back by now. */
static uint32_t given;

static void take(uint32_t count, MBJ_JOB *const *done) {
    for (uint32_t i = 0; i < count; i++)
        check_answer(done[i], given++);
}

/* Every second time the first job goes by a single call. */
static void submit(MBJ_MGR *m, uint32_t count, MBJ_JOB **jobs, bool is_mixed) {
    if (is_mixed) {
        MBJ_JOB *done = mbj_submit_job(m);
        take(done == NULL ? 0 : 1, &done);
        count--;
        jobs++;
    }
    take(mbj_submit_burst(m, count, jobs, jobs), jobs);
    CHECK(mbj_get_errno(m) == MBJ_ERR_NONE);
}

static void jobs_come_back_in_order(MBJ_MGR *m, uint32_t size) {
    MBJ_JOB *jobs[MBJ_MAX_JOBS], *done[MBJ_MAX_JOBS];
    uint32_t next = given = 0;
    while (next < TOTAL) {
        uint32_t left = TOTAL - next, count = mbj_get_next_burst(m, size < left ? size : left, jobs);
        if (count == 0) {
            CHECK(mbj_get_errno(m) == MBJ_ERR_FULL && mbj_queue_size(m) == MBJ_MAX_JOBS);
            CHECK(mbj_flush_burst(m, 1, done) == 1);
            take(1, done);
            continue;
        }
        for (uint32_t i = 0; i < count; i++)
            fill_kind(jobs[i], next + i);
        submit(m, count, jobs, next % 2 == 1);
        next += count;
        CHECK(mbj_queue_size(m) == next - given);
        if (next % 3 == 0)
            take(mbj_get_completed_burst(m, size, done), done);
    }
    for (uint32_t count; (count = mbj_flush_burst(m, size, done)) != 0;)
        take(count, done);
    CHECK(given == TOTAL && mbj_queue_size(m) == 0 && mbj_get_errno(m) == MBJ_ERR_NONE);
}

/* As many jobs are handed out as there are places, and those that are handed out stay as they are until they are submitted. */
static void jobs_are_handed_out_once(MBJ_MGR *m) {
    static MBJ_JOB *jobs[MBJ_MAX_JOBS + 1], *again[MBJ_MAX_JOBS + 1];
    CHECK(mbj_get_next_burst(m, 3, jobs) == 3 && mbj_get_next_job(m) == jobs[0]);
    jobs[2]->key_len_in_bytes = 7;
    CHECK(mbj_get_next_burst(m, MBJ_MAX_JOBS + 1, again) == MBJ_MAX_JOBS && mbj_get_errno(m) == MBJ_ERR_NONE);
    CHECK(again[0] == jobs[0] && again[2] == jobs[2] && again[2]->key_len_in_bytes == 7);
    CHECK(mbj_get_next_burst(m, 0, again) == 0 && mbj_get_errno(m) == MBJ_ERR_NONE);
}

/* A burst whose jobs weren't handed out, or not in this order, isn't submitted. */
static void other_jobs_are_not_submitted(MBJ_MGR *m) {
    MBJ_JOB *jobs[3] = {NULL, NULL, NULL}, *done[3], other, *swapped[2];
    CHECK(mbj_submit_burst(m, 1, jobs, done) == 0 && mbj_get_errno(m) == MBJ_ERR_NO_JOB);
    CHECK(mbj_get_next_burst(m, 2, jobs) == 2);
    jobs[2] = &other;
    CHECK(mbj_submit_burst(m, 3, jobs, done) == 0 && mbj_get_errno(m) == MBJ_ERR_NO_JOB);
    swapped[0] = jobs[1];
    swapped[1] = jobs[0];
    CHECK(mbj_submit_burst(m, 2, swapped, done) == 0 && mbj_get_errno(m) == MBJ_ERR_NO_JOB && mbj_queue_size(m) == 0);
    CHECK(mbj_submit_burst(m, 0, swapped, done) == 0 && mbj_get_errno(m) == MBJ_ERR_NONE);
}

static void bursts_without_a_manager(void) {
    static MBJ_MGR own;
    MBJ_JOB *jobs[2], *done[2];
    CHECK(mbj_get_next_burst(NULL, 2, jobs) == 0 && mbj_flush_burst(NULL, 2, done) == 0 && mbj_get_completed_burst(NULL, 2, done) == 0);
    CHECK(mbj_submit_burst(NULL, 0, done, done) == 0);
    allocations = 0;
    refuse_at = 1;
    CHECK(mbj_init_mgr(&own) == MBJ_ERR_MEMORY);
    refuse_at = 0;
    CHECK(mbj_get_next_burst(&own, 2, jobs) == 2 && mbj_submit_burst(&own, 2, jobs, done) == 0);
    CHECK(mbj_get_errno(&own) == MBJ_ERR_NO_MANAGER && jobs[1]->status == MBJ_STATUS_ERROR && mbj_flush_burst(&own, 2, done) == 0);
}

/* If memory runs out in the middle of a burst, the jobs before are submitted; the rest stay handed out, and are submitted then. */
static bool a_burst_goes_on_where_memory_wanted(MBJ_MGR *m, long at) {
    enum { SIZE = 40 };
    MBJ_JOB *jobs[SIZE], *done[SIZE];
    given = 0;
    CHECK(mbj_get_next_burst(m, SIZE, jobs) == SIZE);
    for (uint32_t i = 0; i < SIZE; i++)
        fill_kind(jobs[i], i);
    mbj_trim(m);
    allocations = 0;
    refuse_at = at;
    take(mbj_submit_burst(m, SIZE, jobs, done), done);
    refuse_at = 0;
    uint32_t submitted = given + mbj_queue_size(m);
    bool is_refused_once = mbj_get_errno(m) == MBJ_ERR_MEMORY;
    CHECK(is_refused_once ? submitted < SIZE : mbj_get_errno(m) == MBJ_ERR_NONE && submitted == SIZE);
    for (uint32_t i = submitted; i < SIZE; i++)
        CHECK(jobs[i]->status == MBJ_STATUS_ERROR);
    take(mbj_submit_burst(m, SIZE - submitted, jobs + submitted, done), done);
    CHECK(mbj_get_errno(m) == MBJ_ERR_NONE && given + mbj_queue_size(m) == SIZE);
    take(mbj_flush_burst(m, SIZE, done), done);
    CHECK(given == SIZE);
    return is_refused_once;
}

static void each_allocation_of_a_burst_may_be_refused(MBJ_MGR *m) {
    long at = 1;
    while (a_burst_goes_on_where_memory_wanted(m, at))
        at++;
    CHECK(at > 40);
}

/* ---- the exports ---- */

/* A raw job that enciphers the block. */
static struct mbj_raw_job raw_cbc(void) {
    struct mbj_raw_job raw;
    memset(&raw, 0, sizeof raw);
    raw.cipher = MBJ_CIPHER_CBC;
    raw.key.at = cbc_key;
    raw.key.len = sizeof cbc_key;
    raw.iv.at = cbc_iv;
    raw.iv.len = sizeof cbc_iv;
    raw.auth_key.at = raw.aad.at = raw.packet.at = cbc_text;
    raw.packet.len = raw.cipher_len = CBC_BYTES;
    return raw;
}

/* Jobs behind one that is refused are filled. As many are looked at as have a place for their answer. */
static void each_job_has_its_own_answer(struct mbj_handle *handle) {
    struct mbj_raw_job raws[4] = {raw_cbc(), raw_cbc(), raw_cbc(), raw_cbc()};
    uint32_t refusals[4] = {9, 9, 9, 9};
    raws[1].dir = 2;
    CHECK(mbj_c_fill_burst(handle, raws, 4, refusals, 3) == 2);
    CHECK(refusals[0] == MBJ_ERR_NONE && refusals[1] == MBJ_ERR_WORD && refusals[2] == MBJ_ERR_NONE && refusals[3] == 9);
    CHECK(mbj_c_fill_burst(handle, raws, 0, refusals, 3) == 0 && refusals[0] == MBJ_ERR_NONE);
}

/* Two jobs are filled; the third call has none to submit. The third room stays as it was. */
static void each_result_goes_to_the_room_of_its_place(struct mbj_handle *handle) {
    uint8_t dst[3][CBC_BYTES + 1], tags[3][MBJ_MAX_TAG_BYTES];
    struct mbj_raw_done rooms[3];
    struct mbj_raw_burst told = {9, 9, 9};
    memset(dst, 0xee, sizeof dst);
    memset(tags, 0xee, sizeof tags);
    for (int i = 0; i < 3; i++) {
        struct mbj_raw_done room = {{dst[i], CBC_BYTES}, {tags[i], MBJ_MAX_TAG_BYTES}, 9, 9, 9, 9};
        rooms[i] = room;
    }
    mbj_c_submit_burst(handle, rooms, 3, &told);
    CHECK(told.made == 2 && told.given <= 2 && told.refusal == MBJ_ERR_NO_JOB);
    size_t submitted = told.given;
    mbj_c_flush_burst(handle, rooms + submitted, 3 - submitted, &told);
    CHECK(told.made == 3 - submitted && submitted + told.given == 2 && told.refusal == MBJ_ERR_NONE);
    for (int i = 0; i < 2; i++)
        CHECK(rooms[i].dst_len == CBC_BYTES && memcmp(dst[i], cbc_ciphertext, CBC_BYTES) == 0 && dst[i][CBC_BYTES] == 0xee);
    CHECK(rooms[2].dst_len == 9 && rooms[2].status == 9 && is_all(dst[2], sizeof dst[2], 0xee) && is_all(tags[2], sizeof tags[2], 0xee));
}

/* A cell is left for each job until all are in use. */
static void a_burst_fills_the_cells_that_are_left(struct mbj_handle *handle) {
    static struct mbj_raw_job raws[MBJ_MAX_JOBS + 2];
    static uint32_t refusals[MBJ_MAX_JOBS + 2];
    for (size_t i = 0; i < MBJ_MAX_JOBS + 2; i++)
        raws[i] = raw_cbc();
    raws[3].auth = MBJ_AUTH_UNSET;
    CHECK(mbj_c_fill_burst(handle, raws, MBJ_MAX_JOBS + 2, refusals, MBJ_MAX_JOBS + 2) == MBJ_MAX_JOBS);
    CHECK(refusals[3] == MBJ_ERR_WORD && refusals[MBJ_MAX_JOBS] == MBJ_ERR_NONE && refusals[MBJ_MAX_JOBS + 1] == MBJ_ERR_FULL);
}

/* A call is refused if the room of the next result is too short, and nothing is written then. */
static void short_rooms_are_refused(struct mbj_handle *handle) {
    uint8_t dst[CBC_BYTES], tag[MBJ_MAX_TAG_BYTES];
    memset(dst, 0xee, sizeof dst);
    struct mbj_raw_done room = {{dst, CBC_BYTES - 1}, {tag, sizeof tag}, 9, 9, 9, 9};
    struct mbj_raw_burst told = {9, 9, 9};
    mbj_c_submit_burst(handle, &room, 1, &told);
    CHECK(told.made == 0 && told.given == 0 && told.refusal == MBJ_ERR_NO_ROOM && is_all(dst, sizeof dst, 0xee) && room.status == 9);
    CHECK(mbj_c_queue_size(handle) == 0);
}

static void exports(void) {
    struct mbj_handle handle = MBJ_HANDLE_INIT;
    struct mbj_raw_job raw = raw_cbc();
    uint32_t refusal = 9;
    struct mbj_raw_burst told = {9, 9, 9};
    struct mbj_raw_done room;
    CHECK(mbj_c_fill_burst(&handle, &raw, 1, &refusal, 1) == 0 && refusal == MBJ_ERR_NO_MANAGER);
    mbj_c_get_completed_burst(&handle, &room, 0, &told);
    CHECK(told.made == 0 && told.given == 0 && told.refusal == MBJ_ERR_NONE);
    CHECK(mbj_c_new(&handle) == MBJ_ERR_NONE);
    each_job_has_its_own_answer(&handle);
    each_result_goes_to_the_room_of_its_place(&handle);
    a_burst_fills_the_cells_that_are_left(&handle);
    short_rooms_are_refused(&handle);
    CHECK(mbj_c_free(&handle));
}

int main(void) {
    static const uint32_t sizes[] = {1, 7, 32, 33, 100, MBJ_MAX_JOBS};
    bursts_without_a_manager();
    long before = blocks;
    exports();
    CHECK(blocks == before);
    for (size_t i = 0; i < sizeof sizes / sizeof *sizes; i++) {
        MBJ_MGR *m = mbj_alloc_mgr();
        CHECK(m != NULL);
        jobs_come_back_in_order(m, sizes[i]);
        jobs_come_back_in_order(m, sizes[i]);
        each_allocation_of_a_burst_may_be_refused(m);
        other_jobs_are_not_submitted(m);
        jobs_are_handed_out_once(m);
        mbj_free_mgr(m);
        CHECK(blocks == before);
    }
    return 0;
}
