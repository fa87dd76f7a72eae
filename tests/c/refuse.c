/* Counts allocations and blocks, and refuses one allocation: that with the number in MBJ_REFUSE or in refuse_at, from 1 on. Link with
 * -Wl,--wrap for the names. */
#include "refuse.h"

#include <stdlib.h>

long refuse_at, allocations, blocks;

uint32_t faked_version;
const char *faked_missing_feature;

static int is_refused(void) {
    static int is_read;
    if (!is_read) {
        const char *number = getenv("MBJ_REFUSE");
        is_read = 1;
        if (number != NULL)
            refuse_at = strtol(number, NULL, 10);
    }
    return ++allocations == refuse_at;
}

static void *counted(void *at) {
    blocks += at != NULL;
    return at;
}

void *__wrap_malloc(size_t len) {
    return is_refused() ? NULL : counted(__real_malloc(len));
}

void *__wrap_aligned_alloc(size_t alignment, size_t len) {
    return is_refused() ? NULL : counted(__real_aligned_alloc(alignment, len));
}

void *__wrap_calloc(size_t count, size_t len) {
    return is_refused() ? NULL : counted(__real_calloc(count, len));
}

void *__wrap_realloc(void *old, size_t len) {
    if (is_refused())
        return NULL;
    return old == NULL ? counted(__real_realloc(old, len)) : __real_realloc(old, len);
}

void __wrap_free(void *at) {
    blocks -= at != NULL;
    __real_free(at);
}

uint32_t __wrap_mbj_c_version(void) {
    return faked_version != 0 ? faked_version : __real_mbj_c_version();
}

const char *__wrap_mbj_c_missing_feature(void) {
    return faked_missing_feature != NULL ? faked_missing_feature : __real_mbj_c_missing_feature();
}
