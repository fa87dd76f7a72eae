#include "selftest.h"
#include "builds.h"

#include "mbj_heap_pool.h"

/* The heap is a pool here. This one needs to hold little: what doesn't fit is taken from the process's heap. */
enum { POOL_BYTES = 1 << 16 };

static bool has_passed_at_load;

static bool passes_in(MBJ_MGR *m, void *memory) {
    struct mbj_pool *pool = mbj_pool_make(memory, POOL_BYTES, true), *before = mbj_pool_name(pool);
    bool passes = pool != NULL && proved.mbj_selftest(m) == NULL;
    (void)mbj_pool_name(before);
    return passes;
}

bool passes_selftest(void) {
    MBJ_MGR *m = malloc(sizeof *m);
    void *memory = malloc(POOL_BYTES);
    bool passes = has_build() && m != NULL && memory != NULL && passes_in(m, memory);
    free(memory);
    free(m);
    return passes;
}

/* After the build was chosen. */
__attribute__((constructor(COMPAT_SECOND))) static void do_at_load(void) {
    has_passed_at_load = passes_selftest();
}

bool has_passed_selftest(void) {
    return has_passed_at_load;
}

uint64_t selftest_features(bool has_passed) {
    return IMB_FEATURE_SELF_TEST | (has_passed ? IMB_FEATURE_SELF_TEST_PASS : 0);
}
