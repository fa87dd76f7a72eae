/* Tests what managers keep: how much, what trimming frees, that results stay the same, and that nothing of a job is left in it. Link with
 * refuse.c. */
#include "check.h"
#include "refuse.h"

enum { SMALL_BYTES = 256, KEPT_BYTES = 2048 };

/* Each way to make a manager, and how long a block it keeps at most. */
static const struct {
    mbj_err (*init)(MBJ_MGR *m);
    size_t most;
} makings[] = {{mbj_init_mgr, SMALL_BYTES}, {mbj_init_mgr_keeping, KEPT_BYTES}};

enum { MAKINGS = sizeof makings / sizeof *makings };

static uint8_t packet[KEPT_BYTES + 1];

/* Submits an HMAC over this many bytes of the packet, and finishes it. Returns how many blocks that took. */
static long run_mac(MBJ_MGR *m, size_t len) {
    uint8_t tag[MAC_BYTES];
    MBJ_JOB *job = mbj_get_next_job(m);
    CHECK(job != NULL);
    fill_mac(job, packet, len, tag);
    allocations = 0;
    CHECK(finish(m) == job && is_done(job));
    return allocations;
}

/* The second job of a cell takes no block, and a shorter one neither. */
static void a_cell_is_used_again(int making) {
    MBJ_MGR m;
    CHECK(makings[making].init(&m) == MBJ_ERR_NONE && mbj_held_bytes(&m) == 0);
    CHECK(run_mac(&m, 64) == 2 && mbj_held_bytes(&m) == 64 + sizeof mac_key);
    while (run_mac(&m, 64) != 0)
        CHECK(mbj_held_bytes(&m) <= 513 * (64 + sizeof mac_key));
    size_t held = mbj_held_bytes(&m);
    CHECK(run_mac(&m, 8) == 0 && mbj_held_bytes(&m) == held);
    long before = blocks;
    mbj_trim(&m);
    CHECK(mbj_held_bytes(&m) == 0 && blocks < before && run_mac(&m, 64) == 2);
    mbj_end_mgr(&m);
}

/* The longest packet stays, a longer one doesn't; the key of the HMAC does. */
static void a_long_packet_is_freed(int making) {
    MBJ_MGR m;
    size_t most = makings[making].most;
    CHECK(makings[making].init(&m) == MBJ_ERR_NONE);
    CHECK(run_mac(&m, most + 1) == 2 && mbj_held_bytes(&m) == sizeof mac_key);
    mbj_trim(&m);
    CHECK(run_mac(&m, most) == 2 && mbj_held_bytes(&m) == most + sizeof mac_key);
    mbj_end_mgr(&m);
}

/* RFC 2202, 3: the tag is the same in memory that another job left. */
static void results_stay_the_same(int making) {
    MBJ_MGR m;
    CHECK(makings[making].init(&m) == MBJ_ERR_NONE);
    for (int turn = 0; turn < 5; turn++) {
        uint8_t tag[MAC_BYTES];
        run_mac(&m, 1500);
        MBJ_JOB *job = mbj_get_next_job(&m);
        fill_mac(job, mac_text, sizeof mac_text, tag);
        CHECK(finish(&m) == job && is_done(job) && memcmp(tag, mac, sizeof mac) == 0);
    }
    mbj_end_mgr(&m);
}

/* A submission without memory is refused, leaves nothing behind, and is done the next time. */
static void a_job_without_memory_is_refused(int making) {
    MBJ_MGR m;
    CHECK(makings[making].init(&m) == MBJ_ERR_NONE);
    for (long at = 1; at <= 2; at++) {
        uint8_t tag[MAC_BYTES];
        MBJ_JOB *job = mbj_get_next_job(&m);
        fill_mac(job, mac_text, sizeof mac_text, tag);
        mbj_trim(&m);
        allocations = 0;
        refuse_at = at;
        CHECK(mbj_submit_job(&m) == NULL && mbj_get_errno(&m) == MBJ_ERR_MEMORY && mbj_queue_size(&m) == 0);
        refuse_at = 0;
        CHECK(mbj_get_next_job(&m) == job && finish(&m) == job && is_done(job) && memcmp(tag, mac, sizeof mac) == 0);
    }
    mbj_end_mgr(&m);
}

static void no_manager_holds_nothing(void) {
    CHECK(mbj_init_mgr_keeping(NULL) == MBJ_ERR_NULL && mbj_held_bytes(NULL) == 0);
    mbj_trim(NULL);
}

int main(void) {
    long before = blocks;
    no_manager_holds_nothing();
    for (int making = 0; making < MAKINGS; making++) {
        a_cell_is_used_again(making);
        a_long_packet_is_freed(making);
        results_stay_the_same(making);
        a_job_without_memory_is_refused(making);
    }
    CHECK(blocks == before);
    return 0;
}
