/* Tests include/mbj_heap_pool.c: blocks and pools by themselves, and managers whose memory comes from pools. Link with that file and with
 * refuse.c, which counts what is asked of malloc. Built with ThreadSanitizer, it sees that pools share nothing. */
#include "check.h"
#include "mbj_heap.h"
#include "mbj_heap_pool.h"
#include "refuse.h"

#include <pthread.h>

enum { LONG = 1 << 20, SHORT = 1 << 14 };

static uint64_t memory[4][LONG / 8];

static bool is_unused(const struct mbj_pool *pool) {
    struct mbj_pool_counts counts = mbj_pool_count(pool);
    return counts.bytes == 0 && counts.blocks == 0 && counts.overflow_blocks == 0;
}

/* ---- blocks ---- */

/* A block that is filled with its own value, to be looked at when it is freed. */
struct filled {
    uint8_t *at;
    size_t len;
    uint8_t value;
};

static bool fill_new(struct filled *filled, size_t len, uint8_t value) {
    struct mbj_block block = rattle_alloc(len, 16);
    CHECK(block.at != NULL && block.is_there <= 1);
    if (!block.is_there)
        return false;
    CHECK((uintptr_t)block.at % 16 == 0);
    filled->at = (uint8_t *)block.at;
    filled->len = len;
    filled->value = value;
    memset(filled->at, value, len);
    return true;
}

static void free_filled(struct filled *filled) {
    CHECK(is_all(filled->at, filled->len, filled->value));
    rattle_dealloc(filled->at);
    filled->at = NULL;
}

static bool grow(struct filled *filled, size_t len) {
    size_t kept = len < filled->len ? len : filled->len;
    struct mbj_block block = rattle_realloc(filled->at, kept, len, 16);
    CHECK(block.at != NULL);
    if (!block.is_there)
        return false;
    CHECK((uintptr_t)block.at % 16 == 0 && is_all((uint8_t *)block.at, kept, filled->value));
    filled->at = (uint8_t *)block.at;
    filled->len = len;
    memset(filled->at, filled->value, len);
    return true;
}

static void no_pool_is_named(void) {
    struct filled filled;
    CHECK(mbj_pool_name(NULL) == NULL && !fill_new(&filled, 1, 1));
}

static void too_little_memory(void) {
    CHECK(mbj_pool_make(NULL, LONG, true) == NULL && mbj_pool_make(memory[0], 0, true) == NULL);
    CHECK(mbj_pool_make(memory[0], 500, false) == NULL && mbj_pool_make(memory[0], 700, false) != NULL);
}

/* All of len bytes at an address are used: blocks of the least length fill them, but for the pool itself and less than a block. The memory
 * ends there, so that ASan sees an access beyond it. */
static void fill_pool(size_t skipped, size_t len) {
    static struct filled all[SHORT / 64];
    uint8_t *own = (uint8_t *)malloc(skipped + len);
    CHECK(own != NULL);
    struct mbj_pool *pool = mbj_pool_make(own + skipped, len, false);
    size_t count = 0;
    CHECK(pool != NULL && mbj_pool_name(pool) == NULL);
    while (fill_new(&all[count], 48, (uint8_t)count))
        count++;
    CHECK(count * 64 <= len && count * 64 + 640 + 64 > len && mbj_pool_count(pool).bytes == count * 64);
    while (count > 0)
        free_filled(&all[--count]);
    CHECK(is_unused(pool) && mbj_pool_name(NULL) == pool);
    free(own);
}

static void all_of_the_memory_is_used(void) {
    for (size_t skipped = 0; skipped < 80; skipped += 7)
        for (size_t len = 1000; len < SHORT; len = len * 3 / 2)
            fill_pool(skipped, len);
}

/* Once all is free a block of half the memory is there again. */
static void halves_are_joined(struct mbj_pool *pool) {
    struct filled half;
    CHECK(is_unused(pool) && fill_new(&half, LONG / 2 - MBJ_HEAP_LINE, 9));
    CHECK(mbj_pool_count(pool).bytes == LONG / 2 && mbj_pool_count(pool).most_bytes >= LONG / 2);
    free_filled(&half);
}

static void long_blocks_begin_at_a_line(struct mbj_pool *pool) {
    static const size_t lens[] = {MBJ_HEAP_LONG, 5000, 7680, 8192 - MBJ_HEAP_LINE, 8192, 16385};
    for (size_t i = 0; i < sizeof lens / sizeof *lens; i++) {
        struct filled one, other;
        CHECK(fill_new(&one, lens[i], 1) && fill_new(&other, lens[i], 2));
        CHECK((uintptr_t)one.at % MBJ_HEAP_LINE == 0 && (uintptr_t)other.at % MBJ_HEAP_LINE == 0);
        free_filled(&one);
        free_filled(&other);
    }
    CHECK(is_unused(pool));
}

static void a_block_grows(struct mbj_pool *pool) {
    struct filled filled, other;
    CHECK(fill_new(&filled, 0, 5) && grow(&filled, 48) && mbj_pool_count(pool).bytes == 64);
    CHECK(grow(&filled, 49) && mbj_pool_count(pool).bytes == 128 && grow(&filled, 3000) && grow(&filled, 10));
    CHECK(fill_new(&other, 100, 6) && !grow(&other, LONG) && !grow(&other, SIZE_MAX));
    free_filled(&other);
    free_filled(&filled);
}

static void too_long_a_block_is_refused(struct mbj_pool *pool) {
    struct filled filled;
    CHECK(!fill_new(&filled, LONG, 1) && !fill_new(&filled, SIZE_MAX / 2, 1) && is_unused(pool));
}

static uint32_t draw(uint32_t below) {
    static uint32_t state = 1;
    state = state * 1664525 + 1013904223;
    return (uint32_t)(((uint64_t)state * below) >> 32);
}

/* Blocks that are asked for, grown and freed as it is drawn keep their bytes. Returns how often there was none. */
static long drawn_calls(void) {
    enum { BLOCKS = 400, CALLS = 200000 };
    static struct filled drawn[BLOCKS];
    long missing = 0;
    for (int i = 0; i < CALLS; i++) {
        struct filled *filled = &drawn[draw(BLOCKS)];
        size_t len = draw(8) == 0 ? draw(40000) : draw(2000);
        if (filled->at == NULL)
            missing += !fill_new(filled, len, (uint8_t)draw(256));
        else if (draw(3) == 0)
            missing += !grow(filled, len);
        else
            free_filled(filled);
    }
    for (int i = 0; i < BLOCKS; i++)
        if (drawn[i].at != NULL)
            free_filled(&drawn[i]);
    return missing;
}

/* What doesn't fit comes from malloc and returns there. */
static void overflow(void) {
    struct mbj_pool *pool = mbj_pool_make(memory[0], SHORT, true);
    struct filled fits, long_one, longer;
    long before = blocks;
    mbj_pool_name(pool);
    CHECK(fill_new(&fits, 100, 1) && blocks == before && fill_new(&long_one, SHORT, 2) && blocks == before + 1);
    CHECK(fill_new(&longer, 2 * SHORT, 3) && grow(&longer, 3 * SHORT) && grow(&longer, 30) && grow(&fits, SHORT));
    CHECK(mbj_pool_count(pool).overflow_blocks == 2 && mbj_pool_count(pool).most_overflow_blocks == 3);
    refuse_at = allocations + 1;
    CHECK(!grow(&fits, 2 * SHORT) && !grow(&fits, SIZE_MAX));
    refuse_at = 0;
    free_filled(&fits);
    free_filled(&long_one);
    free_filled(&longer);
    CHECK(is_unused(pool) && blocks == before && drawn_calls() == 0 && is_unused(pool) && blocks == before);
    CHECK(mbj_pool_count(pool).most_overflow_blocks > 3);
    mbj_pool_name(NULL);
}

/* What was in a block isn't in its pool once it is given back, or has moved; what the pool notes of the block is. */
static void blocks_are_wiped(void) {
    const size_t lens[] = {1, 17, 48, 49, 1500, 4000, 5000};
    memset(memory[0], 0, sizeof memory[0]);
    struct mbj_pool *pool = mbj_pool_make(memory[0], LONG, true);
    struct filled filled;
    mbj_pool_wipe(pool);
    mbj_pool_name(pool);
    for (size_t i = 0; i < sizeof lens / sizeof *lens; i++) {
        CHECK(fill_new(&filled, lens[i], 0xa7) && grow(&filled, 4 * lens[i]));
        free_filled(&filled);
    }
    CHECK(fill_new(&filled, 2 * LONG, 0xa7) && grow(&filled, 3 * LONG));
    free_filled(&filled);
    for (size_t i = 0; i < sizeof memory[0] / sizeof *memory[0]; i++)
        CHECK(memory[0][i] != UINT64_C(0xa7a7a7a7a7a7a7a7));
    CHECK(is_unused(pool));
    mbj_pool_name(NULL);
}

/* A block goes back to its own pool, whichever is named. */
static void blocks_know_their_pools(void) {
    struct mbj_pool *first = mbj_pool_make(memory[0], LONG, false), *second = mbj_pool_make(memory[1], LONG, false);
    struct filled one, other;
    CHECK(mbj_pool_name(first) == NULL && fill_new(&one, 10, 1) && mbj_pool_name(second) == first && fill_new(&other, 10, 2));
    CHECK(grow(&one, 1000) && mbj_pool_count(first).bytes == 1024 && mbj_pool_count(second).bytes == 64);
    free_filled(&one);
    CHECK(is_unused(first) && mbj_pool_name(NULL) == second);
    free_filled(&other);
    CHECK(is_unused(second));
}

static void blocks_of_a_pool(void) {
    struct mbj_pool *pool = mbj_pool_make(memory[0], LONG, false);
    mbj_pool_name(pool);
    too_long_a_block_is_refused(pool);
    a_block_grows(pool);
    long_blocks_begin_at_a_line(pool);
    halves_are_joined(pool);
    CHECK(drawn_calls() > 0);
    halves_are_joined(pool);
    mbj_pool_name(NULL);
}

/* ---- managers ---- */

/* A manager, its pool, and results. */
struct gateway {
    struct mbj_pool *pool;
    MBJ_MGR m;
    uint8_t tag[MAC_BYTES], dst[CBC_BYTES];
};

static struct gateway gateways[2];

static void check_results(struct gateway *g) {
    CHECK(memcmp(g->tag, mac, sizeof mac) == 0 && memcmp(g->dst, cbc_ciphertext, CBC_BYTES) == 0);
    memset(g->tag, 0, sizeof g->tag);
    memset(g->dst, 0, sizeof g->dst);
}

/* Two jobs stay in the manager. */
static void leave_jobs(struct gateway *g) {
    fill_mac(mbj_get_next_job(&g->m), mac_text, sizeof mac_text, g->tag);
    CHECK(mbj_submit_job(&g->m) == NULL && mbj_get_errno(&g->m) == MBJ_ERR_NONE);
    fill_cbc(mbj_get_next_job(&g->m), cbc_text, sizeof cbc_text, 0, g->dst);
    CHECK(mbj_submit_job(&g->m) == NULL && mbj_get_errno(&g->m) == MBJ_ERR_NONE);
}

static void finish_jobs(struct gateway *g) {
    CHECK(mbj_queue_size(&g->m) == 2);
    for (const MBJ_JOB *done; (done = mbj_flush_job(&g->m)) != NULL;)
        CHECK(is_done(done));
    check_results(g);
}

/* Jobs of both kinds, as many as a manager takes and more. */
static void many_jobs(struct gateway *g) {
    for (int i = 0; i < 3 * MBJ_MAX_JOBS; i++) {
        if (mbj_queue_size(&g->m) == MBJ_MAX_JOBS)
            CHECK(is_done(mbj_flush_job(&g->m)));
        if (i % 100 == 0)
            fill_cbc(mbj_get_next_job(&g->m), cbc_text, sizeof cbc_text, 0, g->dst);
        else
            fill_mac(mbj_get_next_job(&g->m), mac_text, sizeof mac_text, g->tag);
        for (const MBJ_JOB *done = mbj_submit_job(&g->m); done != NULL; done = mbj_get_completed_job(&g->m))
            CHECK(is_done(done));
        CHECK(mbj_get_errno(&g->m) == MBJ_ERR_NONE);
    }
    for (const MBJ_JOB *done; (done = mbj_flush_job(&g->m)) != NULL;)
        CHECK(is_done(done));
    check_results(g);
}

static void start_gateway(struct gateway *g, int number) {
    g->pool = mbj_pool_make(memory[number], LONG, false);
    mbj_pool_name(g->pool);
    CHECK(mbj_init_mgr(&g->m) == MBJ_ERR_NONE);
}

static void end_gateway(struct gateway *g) {
    mbj_end_mgr(&g->m);
    CHECK(is_unused(g->pool));
    mbj_pool_name(NULL);
}

/* From the making of a manager to its end nothing is asked of malloc. */
static void a_manager_needs_no_malloc(void) {
    struct gateway *g = &gateways[0];
    allocations = 0;
    start_gateway(g, 0);
    many_jobs(g);
    leave_jobs(g);
    printf("a manager and its jobs: %zu bytes of the pool\n", mbj_pool_count(g->pool).most_bytes);
    end_gateway(g);
    CHECK(allocations == 0);
}

/* If the pool is used up, jobs aren't submitted, and are again once others were given back and what the manager keeps is freed. */
static void a_pool_is_used_up(void) {
    struct gateway *g = &gateways[0];
    struct mbj_block rest[4096];
    size_t count = 0;
    start_gateway(g, 0);
    leave_jobs(g);
    for (size_t len = LONG; len != 0; len /= 2)
        while ((rest[count] = rattle_alloc(len, 1)).is_there)
            CHECK(++count < 4096);
    MBJ_JOB *job = mbj_get_next_job(&g->m);
    fill_mac(job, mac_text, sizeof mac_text, g->tag);
    CHECK(mbj_submit_job(&g->m) == NULL && mbj_get_errno(&g->m) == MBJ_ERR_MEMORY && job->status == MBJ_STATUS_ERROR);
    finish_jobs(g);
    mbj_trim(&g->m);
    CHECK(finish(&g->m) == job && is_done(job) && memcmp(g->tag, mac, sizeof mac) == 0);
    while (count > 0)
        rattle_dealloc(rest[--count].at);
    end_gateway(g);
}

/* Frees what the other thread's jobs took, names the pool and goes on. */
static void *take_over(void *at) {
    struct gateway *g = (struct gateway *)at;
    finish_jobs(g);
    mbj_pool_name(g->pool);
    many_jobs(g);
    leave_jobs(g);
    return NULL;
}

static void a_manager_is_handed_over(void) {
    struct gateway *g = &gateways[0];
    pthread_t thread;
    start_gateway(g, 0);
    leave_jobs(g);
    CHECK(pthread_create(&thread, NULL, take_over, g) == 0 && pthread_join(thread, NULL) == 0);
    finish_jobs(g);
    end_gateway(g);
}

static void *run_gateway(void *at) {
    struct gateway *g = (struct gateway *)at;
    start_gateway(g, (int)(g - gateways));
    for (int i = 0; i < 20; i++)
        many_jobs(g);
    end_gateway(g);
    return NULL;
}

static void two_gateways_run_at_once(void) {
    pthread_t threads[2];
    for (int i = 0; i < 2; i++)
        CHECK(pthread_create(&threads[i], NULL, run_gateway, &gateways[i]) == 0);
    for (int i = 0; i < 2; i++)
        CHECK(pthread_join(threads[i], NULL) == 0);
}

int main(void) {
    no_pool_is_named();
    too_little_memory();
    all_of_the_memory_is_used();
    blocks_of_a_pool();
    blocks_know_their_pools();
    overflow();
    blocks_are_wiped();
    a_manager_needs_no_malloc();
    a_pool_is_used_up();
    a_manager_is_handed_over();
    two_gateways_run_at_once();
    return 0;
}
