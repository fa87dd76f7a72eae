/* Tests the bursts of a seat, which do what several of its single calls do, and may be mixed with them. Link with refuse.c. */
#include "check.h"
#include "mbj_seat.h"
#include "refuse.h"

enum { TOTAL = 1500, KINDS = 4 };

/* A front with one submitter and one worker, whose turns this thread makes. */
struct pair {
    MBJ_SEAT seat;
    struct mbj_seat worker;
};

static void make_pair(struct pair *pair) {
    struct mbj_seat places[2] = {MBJ_SEAT_INIT, MBJ_SEAT_INIT};
    CHECK(mbj_front_new(1, 1, NULL, places, 2) == MBJ_ERR_NONE);
    mbj_take_seat(&pair->seat, &places[0]);
    pair->worker = places[1];
}

static void free_pair(struct pair *pair) {
    mbj_leave_seat(&pair->seat);
    CHECK(mbj_c_seat_free(&pair->worker));
}

/* The worker does all jobs that are posted. */
static void work(struct pair *pair) {
    while (mbj_c_turn(&pair->worker) != 0 || mbj_c_settle(&pair->worker)) {
    }
}

/* ---- jobs ---- */

/* What a job writes. */
struct result {
    uint8_t dst[CBC_BYTES], tag[MAC_BYTES];
};

static struct result results[TOTAL];

/* Job i: by turns a tag, a block, a key that is refused, and nothing to do. */
static void fill_kind(MBJ_JOB *job, uint32_t i) {
    struct result *r = &results[i];
    CHECK(job->user_data == NULL && job->cipher_mode == MBJ_CIPHER_UNSET);
    memset(r, 0xee, sizeof *r);
    if (i % KINDS == 0)
        fill_mac(job, mac_text, sizeof mac_text, r->tag);
    else
        fill_cbc(job, cbc_text, sizeof cbc_text, 0, r->dst);
    if (i % KINDS == 2)
        job->key_len_in_bytes = 15;
    if (i % KINDS == 3)
        job->cipher_mode = MBJ_CIPHER_NULL;
    job->user_data = r;
}

/* How many jobs are given back by now. */
static uint32_t given;

/* Each job has its own answer, and what it writes stands in its own place. */
static void take(uint32_t count, MBJ_JOB *const *done) {
    for (uint32_t i = 0; i < count; i++, given++) {
        const struct result *r = &results[given];
        CHECK(done[i]->user_data == r);
        CHECK(given % KINDS == 2 ? is_refused(done[i], MBJ_REASON_CIPHER_KEY) : is_done(done[i]));
        CHECK(given % KINDS == 0 ? memcmp(r->tag, mac, sizeof mac) == 0 : is_all(r->tag, sizeof r->tag, 0xee));
        CHECK(given % KINDS == 1 ? memcmp(r->dst, cbc_ciphertext, sizeof cbc_ciphertext) == 0 : is_all(r->dst, sizeof r->dst, 0xee));
    }
}

/* Every second time the first job goes by a single call. */
static void post(MBJ_SEAT *s, uint32_t count, MBJ_JOB **jobs, bool is_mixed) {
    if (is_mixed) {
        CHECK(mbj_post_job(s) == MBJ_ERR_NONE);
        count--;
        jobs++;
    }
    CHECK(mbj_post_burst(s, count, jobs) == count && mbj_seat_errno(s) == MBJ_ERR_NONE);
}

static void jobs_come_back_in_order(struct pair *pair, uint32_t size) {
    MBJ_SEAT *s = &pair->seat;
    MBJ_JOB *jobs[MBJ_MAX_JOBS], *done[MBJ_MAX_JOBS], *one;
    uint32_t next = given = 0;
    while (next < TOTAL) {
        uint32_t left = TOTAL - next, count = mbj_seat_get_next_burst(s, size < left ? size : left, jobs);
        for (uint32_t i = 0; i < count; i++)
            fill_kind(jobs[i], next + i);
        if (count != 0)
            post(s, count, jobs, next % 2 == 1);
        next += count;
        CHECK(mbj_c_out(&s->seat) == next - given);
        if (count == 0 || next % 3 == 0)
            work(pair);
        take(mbj_collect_burst(s, size, done), done);
        CHECK(mbj_seat_errno(s) == MBJ_ERR_NONE);
        if (next % 5 == 0 && (one = mbj_collect_job(s)) != NULL)
            take(1, &one);
    }
    work(pair);
    for (uint32_t count; (count = mbj_collect_burst(s, size, done)) != 0;)
        take(count, done);
    CHECK(given == TOTAL && mbj_c_out(&s->seat) == 0);
}

/* As many jobs are handed out as there are places, and those that are handed out stay as they are until they are posted. */
static void jobs_are_handed_out_once(MBJ_SEAT *s) {
    static MBJ_JOB *jobs[MBJ_MAX_JOBS + 1], *again[MBJ_MAX_JOBS + 1];
    CHECK(mbj_seat_get_next_burst(s, 3, jobs) == 3 && mbj_seat_get_next_job(s) == jobs[0]);
    jobs[2]->key_len_in_bytes = 7;
    CHECK(mbj_seat_get_next_burst(s, MBJ_MAX_JOBS + 1, again) == MBJ_MAX_JOBS && mbj_seat_errno(s) == MBJ_ERR_NONE);
    CHECK(again[0] == jobs[0] && again[2] == jobs[2] && again[2]->key_len_in_bytes == 7);
    CHECK(mbj_seat_get_next_burst(s, 0, again) == 0 && mbj_seat_errno(s) == MBJ_ERR_NONE);
}

/* A burst whose jobs weren't handed out, or not in this order, isn't posted. */
static void other_jobs_are_not_posted(MBJ_SEAT *s) {
    MBJ_JOB *jobs[3] = {NULL, NULL, NULL}, other, *swapped[2];
    CHECK(mbj_post_burst(s, 1, jobs) == 0 && mbj_seat_errno(s) == MBJ_ERR_NO_JOB);
    CHECK(mbj_seat_get_next_burst(s, 2, jobs) == 2);
    jobs[2] = &other;
    CHECK(mbj_post_burst(s, 3, jobs) == 0 && mbj_seat_errno(s) == MBJ_ERR_NO_JOB);
    swapped[0] = jobs[1];
    swapped[1] = jobs[0];
    CHECK(mbj_post_burst(s, 2, swapped) == 0 && mbj_seat_errno(s) == MBJ_ERR_NO_JOB && mbj_c_out(&s->seat) == 0);
    CHECK(mbj_post_burst(s, 0, swapped) == 0 && mbj_seat_errno(s) == MBJ_ERR_NONE);
}

/* If memory runs out in the middle of a burst, the jobs before are posted; the rest stay handed out, and are posted then. */
static bool a_burst_goes_on_where_memory_wanted(struct pair *pair, long at) {
    enum { SIZE = 40 };
    MBJ_SEAT *s = &pair->seat;
    MBJ_JOB *jobs[SIZE], *done[SIZE];
    given = 0;
    CHECK(mbj_seat_get_next_burst(s, SIZE, jobs) == SIZE);
    for (uint32_t i = 0; i < SIZE; i++)
        fill_kind(jobs[i], i);
    allocations = 0;
    refuse_at = at;
    uint32_t posted = mbj_post_burst(s, SIZE, jobs);
    refuse_at = 0;
    bool is_refused_once = mbj_seat_errno(s) == MBJ_ERR_MEMORY;
    CHECK(is_refused_once ? posted < SIZE : mbj_seat_errno(s) == MBJ_ERR_NONE && posted == SIZE);
    CHECK(mbj_c_out(&s->seat) == posted);
    for (uint32_t i = posted; i < SIZE; i++)
        CHECK(jobs[i]->status == MBJ_STATUS_ERROR);
    CHECK(mbj_post_burst(s, SIZE - posted, jobs + posted) == SIZE - posted && mbj_seat_errno(s) == MBJ_ERR_NONE);
    work(pair);
    take(mbj_collect_burst(s, SIZE, done), done);
    CHECK(given == SIZE && mbj_c_out(&s->seat) == 0);
    return is_refused_once;
}

static void each_allocation_of_a_burst_may_be_refused(struct pair *pair) {
    long at = 1;
    while (a_burst_goes_on_where_memory_wanted(pair, at))
        at++;
    CHECK(at > 40);
}

/* ---- the exports ---- */

/* A raw job that enciphers the block. */
static struct mbj_raw_job raw_cbc(void) {
    struct mbj_raw_job raw;
    memset(&raw, 0, sizeof raw);
    raw.cipher = MBJ_CIPHER_CBC;
    raw.key.at = cbc_key;
    raw.key.len = sizeof cbc_key;
    raw.iv.at = cbc_iv;
    raw.iv.len = sizeof cbc_iv;
    raw.auth_key.at = raw.aad.at = raw.packet.at = cbc_text;
    raw.packet.len = raw.cipher_len = CBC_BYTES;
    raw.session = MBJ_NO_SESSION;
    return raw;
}

/* Jobs behind one that is refused are posted. As many are looked at as have a place for their answer. */
static void each_job_has_its_own_answer(struct mbj_seat *seat) {
    struct mbj_raw_job raws[4] = {raw_cbc(), raw_cbc(), raw_cbc(), raw_cbc()};
    uint32_t refusals[4] = {9, 9, 9, 9};
    raws[1].dir = 2;
    CHECK(mbj_c_post_burst(seat, raws, 4, refusals, 3) == 2 && mbj_c_out(seat) == 2);
    CHECK(refusals[0] == MBJ_ERR_NONE && refusals[1] == MBJ_ERR_WORD && refusals[2] == MBJ_ERR_NONE && refusals[3] == 9);
    CHECK(mbj_c_post_burst(seat, raws, 0, refusals, 3) == 0 && refusals[0] == MBJ_ERR_NONE && mbj_c_out(seat) == 2);
}

/* Two jobs are out, and both are done. The third room stays as it was. */
static void each_result_goes_to_the_room_of_its_place(struct mbj_seat *seat) {
    uint8_t dst[3][CBC_BYTES + 1], tags[3][MBJ_MAX_TAG_BYTES];
    struct mbj_raw_done rooms[3];
    struct mbj_raw_burst told = {9, 9, 9};
    memset(dst, 0xee, sizeof dst);
    memset(tags, 0xee, sizeof tags);
    for (int i = 0; i < 3; i++) {
        struct mbj_raw_done room = {{dst[i], CBC_BYTES}, {tags[i], MBJ_MAX_TAG_BYTES}, 9, 9, 9, 9};
        rooms[i] = room;
    }
    mbj_c_collect_burst(seat, rooms, 3, &told);
    CHECK(told.made == 3 && told.given == 2 && told.refusal == MBJ_ERR_NONE && mbj_c_out(seat) == 0);
    for (int i = 0; i < 2; i++)
        CHECK(rooms[i].dst_len == CBC_BYTES && memcmp(dst[i], cbc_ciphertext, CBC_BYTES) == 0 && dst[i][CBC_BYTES] == 0xee);
    CHECK(rooms[2].dst_len == 9 && rooms[2].status == 9 && is_all(dst[2], sizeof dst[2], 0xee) && is_all(tags[2], sizeof tags[2], 0xee));
}

/* If the job that comes next has no room, each call is refused, whatever room there is behind; nothing is written, and it stays out. */
static void a_short_room_is_used_by_no_other_job(struct mbj_seat *seat) {
    uint8_t dst[2][CBC_BYTES], tags[2][MBJ_MAX_TAG_BYTES];
    struct mbj_raw_done rooms[2] = {{{dst[0], CBC_BYTES - 1}, {tags[0], MBJ_MAX_TAG_BYTES}, 9, 9, 9, 9},
                                    {{dst[1], CBC_BYTES}, {tags[1], MBJ_MAX_TAG_BYTES}, 9, 9, 9, 9}};
    struct mbj_raw_burst told = {9, 9, 9};
    memset(dst, 0xee, sizeof dst);
    mbj_c_collect_burst(seat, rooms, 2, &told);
    CHECK(told.made == 0 && told.given == 0 && told.refusal == MBJ_ERR_NO_ROOM && mbj_c_out(seat) == 2);
    CHECK(is_all(dst[0], sizeof dst, 0xee) && rooms[0].status == 9 && rooms[1].status == 9);
}

/* Jobs are posted as long as there are cells. */
static void a_burst_posts_as_many_as_may_be_out(struct mbj_seat *seat) {
    static struct mbj_raw_job raws[MBJ_MAX_JOBS + 2];
    static uint32_t refusals[MBJ_MAX_JOBS + 2];
    for (size_t i = 0; i < MBJ_MAX_JOBS + 2; i++)
        raws[i] = raw_cbc();
    raws[3].auth = MBJ_AUTH_UNSET;
    CHECK(mbj_c_post_burst(seat, raws, MBJ_MAX_JOBS + 2, refusals, MBJ_MAX_JOBS + 2) == MBJ_MAX_JOBS);
    CHECK(refusals[3] == MBJ_ERR_WORD && refusals[MBJ_MAX_JOBS] == MBJ_ERR_NONE && refusals[MBJ_MAX_JOBS + 1] == MBJ_ERR_FULL);
    CHECK(mbj_c_out(seat) == MBJ_MAX_JOBS);
}

/* Each call of a burst is refused as the single one. */
static void are_refused(struct mbj_seat *seat, uint32_t refusal) {
    struct mbj_raw_job raws[2] = {raw_cbc(), raw_cbc()};
    uint32_t refusals[2] = {9, 9};
    uint8_t dst[CBC_BYTES], tag[MBJ_MAX_TAG_BYTES];
    struct mbj_raw_done room = {{dst, sizeof dst}, {tag, sizeof tag}, 9, 9, 9, 9};
    struct mbj_raw_burst told = {9, 9, 9};
    CHECK(mbj_c_post_burst(seat, raws, 2, refusals, 2) == 0 && refusals[0] == refusal && refusals[1] == refusal);
    mbj_c_collect_burst(seat, &room, 1, &told);
    CHECK(told.made == 0 && told.given == 0 && told.refusal == refusal && room.status == 9);
    mbj_c_collect_burst(seat, &room, 0, &told);
    CHECK(told.made == 0 && told.given == 0 && told.refusal == MBJ_ERR_NONE);
}

static void exports(struct pair *pair) {
    struct mbj_seat none = MBJ_SEAT_INIT, *seat = &pair->seat.seat;
    are_refused(&none, MBJ_ERR_NO_SEAT);
    are_refused(&pair->worker, MBJ_ERR_NOT_SUBMITTER);
    each_job_has_its_own_answer(seat);
    work(pair);
    a_short_room_is_used_by_no_other_job(seat);
    each_result_goes_to_the_room_of_its_place(seat);
    a_burst_posts_as_many_as_may_be_out(seat);
}

int main(void) {
    static const uint32_t sizes[] = {1, 7, 32, 33, 100, MBJ_MAX_JOBS};
    static struct pair pair;
    long before = blocks;
    make_pair(&pair);
    exports(&pair);
    free_pair(&pair);
    CHECK(blocks == before);
    for (size_t i = 0; i < sizeof sizes / sizeof *sizes; i++) {
        make_pair(&pair);
        jobs_come_back_in_order(&pair, sizes[i]);
        jobs_come_back_in_order(&pair, sizes[i]);
        each_allocation_of_a_burst_may_be_refused(&pair);
        other_jobs_are_not_posted(&pair.seat);
        jobs_are_handed_out_once(&pair.seat);
        free_pair(&pair);
        CHECK(blocks == before);
    }
    return 0;
}
