/* Tests the heaps that a manager is made with: malloc, malloc with wiping, a pool, and functions of the program's own. Each counts what it
 * gives and what comes back. Link with refuse.c, which counts what is asked of malloc. */
#include "check.h"
#include "mbj_heap.h"
#include "mbj_heap_pool.h"
#include "refuse.h"

enum { JOBS = 200, PACKET = 1500, POOL = 1 << 22 };

/* ---- a heap of the program's own ---- */

struct counter {
    long taken, freed, bytes, refuse_at;
    bool has_long;
};

static bool refuses(struct counter *counter) {
    return counter->refuse_at != 0 && counter->taken + 1 >= counter->refuse_at;
}

static void *count_alloc(void *opaque, size_t len) {
    struct counter *counter = (struct counter *)opaque;
    if (refuses(counter))
        return NULL;
    void *at = __real_malloc(len);
    CHECK(at != NULL && len != 0);
    memset(at, 0xaa, len);
    counter->taken++;
    counter->bytes += (long)len;
    counter->has_long |= len >= MBJ_HEAP_LONG;
    return at;
}

static void *count_realloc(void *opaque, void *old, size_t old_len, size_t len) {
    struct counter *counter = (struct counter *)opaque;
    if (refuses(counter))
        return NULL;
    void *at = __real_realloc(old, len);
    CHECK(at != NULL);
    counter->bytes += (long)len - (long)old_len;
    return at;
}

static void count_free(void *opaque, void *at, size_t len) {
    struct counter *counter = (struct counter *)opaque;
    counter->freed++;
    counter->bytes -= (long)len;
    memset(at, 0x55, len);
    __real_free(at);
}

static struct counter counters[2];

static const struct mbj_heap own[] = {
    {count_alloc, count_realloc, count_free, &counters[0]},
    {count_alloc, NULL, count_free, &counters[1]},
};

static bool is_balanced(const struct counter *counter) {
    return counter->taken == counter->freed && counter->bytes == 0;
}

/* ---- what managers do with a heap ---- */

static void use(MBJ_MGR *m) {
    static uint8_t packet[PACKET];
    uint8_t tag[MAC_BYTES], dst[CBC_BYTES];
    memcpy(packet, mac_text, sizeof mac_text);
    for (int i = 0; i < JOBS; i++) {
        fill_mac(mbj_get_next_job(m), packet, sizeof packet, tag);
        const MBJ_JOB *done = finish(m);
        CHECK(done != NULL && is_done(done) && memcmp(tag, mac, sizeof mac) == 0);
        fill_cbc(mbj_get_next_job(m), cbc_text, sizeof cbc_text, 0, dst);
        done = finish(m);
        CHECK(done != NULL && is_done(done) && memcmp(dst, cbc_ciphertext, sizeof dst) == 0);
    }
}

static void begin(MBJ_MGR *m, const struct mbj_heap *heap, uint32_t keeping) {
    struct mbj_options options = {heap, keeping};
    CHECK(mbj_init_mgr_with(m, &options) == MBJ_ERR_NONE);
}

/* What is taken from a heap comes back to it, and nothing is asked of malloc. */
static void a_managers_blocks_come_from_its_heap(uint32_t keeping) {
    static MBJ_MGR m;
    uint8_t tag[MAC_BYTES];
    for (int i = 0; i < 2; i++) {
        long before = blocks, asked = allocations;
        begin(&m, &own[i], keeping);
        CHECK(counters[i].taken > counters[i].freed && counters[i].has_long);
        use(&m);
        CHECK(blocks == before && allocations == asked);
        mbj_trim(&m);
        fill_mac(mbj_get_next_job(&m), mac_text, sizeof mac_text, tag);
        CHECK(mbj_submit_job(&m) == NULL && mbj_get_errno(&m) == MBJ_ERR_NONE);
        mbj_end_mgr(&m);
        CHECK(is_balanced(&counters[i]) && blocks == before && allocations == asked);
    }
}

static void heaps_of_the_library(uint32_t keeping) {
    static MBJ_MGR m;
    static uint64_t memory[POOL / 8];
    struct mbj_pool *pool = mbj_pool_make(memory, sizeof memory, false);
    const struct mbj_heap *heaps[] = {NULL, mbj_heap_malloc(), mbj_heap_wiping(), mbj_pool_heap(pool)};
    long before = blocks;
    for (size_t i = 0; i < 4; i++) {
        long asked = allocations;
        begin(&m, heaps[i], keeping);
        use(&m);
        CHECK((blocks == before && allocations == asked) == (i == 3) && (mbj_pool_count(pool).blocks == 0) == (i != 3));
        mbj_end_mgr(&m);
        CHECK(blocks == before && mbj_pool_count(pool).blocks == 0);
    }
}

/* Two managers with two heaps, whose calls are mixed, and a thread that names a third. */
static void two_heaps(void) {
    static MBJ_MGR m[2];
    struct counter named = {0, 0, 0, 0, false};
    const struct mbj_heap third = {count_alloc, NULL, count_free, &named};
    CHECK(mbj_c_name_heap(&third) == NULL);
    begin(&m[0], &own[0], MBJ_KEEPS_SHORT);
    begin(&m[1], &own[1], MBJ_KEEPS_LONG);
    for (int i = 0; i < 10; i++) {
        long taken = counters[1].taken;
        use(&m[0]);
        CHECK(counters[1].taken == taken);
        taken = counters[0].taken;
        use(&m[1]);
        CHECK(counters[0].taken == taken && named.taken == 0);
    }
    mbj_end_mgr(&m[1]);
    CHECK(is_balanced(&counters[1]) && !is_balanced(&counters[0]));
    mbj_end_mgr(&m[0]);
    CHECK(is_balanced(&counters[0]) && named.taken == 0);
    struct mbj_keys keys = MBJ_KEYS_INIT;
    struct mbj_bytes raw = {cbc_key, sizeof cbc_key};
    CHECK(mbj_keys_new(&keys, &raw, 1) == MBJ_ERR_NONE && named.taken > 0 && mbj_c_name_heap(NULL) == &third);
    CHECK(mbj_keys_free(&keys) && is_balanced(&named));
}

/* A set of keys that managers with two heaps share: each block goes back to its own, whichever ends last. */
static void a_set_is_shared(int last) {
    static MBJ_MGR m[2];
    long before = blocks;
    struct mbj_keys keys = MBJ_KEYS_INIT;
    struct mbj_bytes raw = {cbc_key, sizeof cbc_key};
    CHECK(mbj_keys_new(&keys, &raw, 1) == MBJ_ERR_NONE);
    for (int i = 0; i < 2; i++) {
        begin(&m[i], &own[i], MBJ_KEEPS_SHORT);
        CHECK(mbj_use_keys(&m[i], &keys) == MBJ_ERR_NONE);
    }
    CHECK(mbj_keys_free(&keys));
    for (int i = 0; i < 2; i++)
        use(&m[i]);
    mbj_end_mgr(&m[1 - last]);
    use(&m[last]);
    mbj_end_mgr(&m[last]);
    CHECK(is_balanced(&counters[0]) && is_balanced(&counters[1]) && blocks == before);
}

/* If a heap refuses a block, so does the call, and nothing is lost. */
static void a_heap_refuses(void) {
    static MBJ_MGR m;
    struct mbj_options options = {&own[0], MBJ_KEEPS_SHORT};
    mbj_err err = MBJ_ERR_MEMORY;
    for (long at = 1; err == MBJ_ERR_MEMORY; at++) {
        counters[0].refuse_at = counters[0].taken + at;
        err = mbj_init_mgr_with(&m, &options);
        CHECK(err == MBJ_ERR_NONE || is_balanced(&counters[0]));
    }
    counters[0].refuse_at = counters[0].taken + 1;
    uint8_t tag[MAC_BYTES];
    MBJ_JOB *job = mbj_get_next_job(&m);
    fill_mac(job, mac_text, sizeof mac_text, tag);
    CHECK(err == MBJ_ERR_NONE && mbj_submit_job(&m) == NULL && mbj_get_errno(&m) == MBJ_ERR_MEMORY);
    counters[0].refuse_at = 0;
    CHECK(finish(&m) == job && is_done(job) && memcmp(tag, mac, sizeof mac) == 0);
    mbj_end_mgr(&m);
    CHECK(is_balanced(&counters[0]));
}

static void options_are_looked_at(void) {
    static MBJ_MGR m;
    struct mbj_options options = {NULL, MBJ_KEEPS_NONE + 1};
    CHECK(mbj_init_mgr_with(NULL, &options) == MBJ_ERR_NULL && mbj_init_mgr_with(&m, &options) == MBJ_ERR_WORD);
    CHECK(mbj_get_next_job(&m) != NULL && mbj_submit_job(&m) == NULL && mbj_get_errno(&m) == MBJ_ERR_NO_MANAGER);
    CHECK(mbj_c_has_heaps());
}

int main(void) {
    for (uint32_t keeping = MBJ_KEEPS_SHORT; keeping <= MBJ_KEEPS_NONE; keeping++) {
        a_managers_blocks_come_from_its_heap(keeping);
        heaps_of_the_library(keeping);
    }
    two_heaps();
    a_set_is_shared(0);
    a_set_is_shared(1);
    a_heap_refuses();
    options_are_looked_at();
    return 0;
}
