/* A program with a heap of its own, which defines the three functions of include/mbj_heap.c itself: the archive is linked without that
 * member, and no heap can be chosen. Blocks come from an array, and are never used again. */
#include "check.h"
#include "mbj_heap.h"

#include <stddef.h>

enum { ROOM = 1 << 24, GRAIN = 16 };

static union {
    max_align_t aligned;
    unsigned char bytes[ROOM];
} heap;

static size_t used;
static long blocks;

struct mbj_block rattle_alloc(size_t len, size_t align) {
    size_t rounded = (len + GRAIN) / GRAIN * GRAIN;
    struct mbj_block block = {align <= GRAIN && rounded <= ROOM - used, heap.bytes + used};
    if (block.is_there) {
        used += rounded;
        blocks++;
    }
    return block;
}

struct mbj_block rattle_realloc(void *old, size_t kept, size_t len, size_t align) {
    struct mbj_block block = rattle_alloc(len, align);
    if (block.is_there) {
        memcpy(block.at, old, kept);
        rattle_dealloc(old);
    }
    return block;
}

void rattle_dealloc(void *at) {
    CHECK((unsigned char *)at >= heap.bytes && (unsigned char *)at < heap.bytes + used);
    blocks--;
}

int main(void) {
    static MBJ_MGR manager;
    uint8_t tag[MAC_BYTES];
    struct mbj_options options = {mbj_c_name_heap(NULL), MBJ_KEEPS_SHORT};
    const struct mbj_heap other = {NULL, NULL, NULL, NULL};
    CHECK(!mbj_c_has_heaps() && mbj_init_mgr_with(&manager, &options) == MBJ_ERR_NONE && blocks > 0);
    mbj_end_mgr(&manager);
    options.heap = &other;
    CHECK(mbj_init_mgr_with(&manager, &options) == MBJ_ERR_HEAP && blocks == 0);
    CHECK(mbj_init_mgr(&manager) == MBJ_ERR_NONE && blocks > 0);
    MBJ_JOB *job = mbj_get_next_job(&manager);
    fill_mac(job, mac_text, sizeof mac_text, tag);
    CHECK(finish(&manager) == job && is_done(job) && memcmp(tag, mac, sizeof mac) == 0);
    mbj_end_mgr(&manager);
    CHECK(blocks == 0);
    return 0;
}
