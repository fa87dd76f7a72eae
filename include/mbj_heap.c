/* What the proved code asks for memory, over the heap that the thread names. In front of each block stands which heap it came from, so that
 * it goes back there from every thread. A block is aligned to 16, and a long one to a cache line. */
#include "mbj_heap.h"
#include "mbj_heap_choice.h"

#include <stdlib.h>
#include <string.h>

struct head {
    const struct mbj_heap *heap;
    void *front;       /* what the heap gave, whole bytes */
    size_t whole, len; /* len bytes stand behind the head */
};

const char mbj_heap_asks_ = 1;

/* ---- malloc ---- */

static void *take_malloc(void *opaque, size_t len) {
    (void)opaque;
    return malloc(len);
}

static void *grow_malloc(void *opaque, void *old, size_t old_len, size_t len) {
    (void)opaque;
    (void)old_len;
    return realloc(old, len);
}

static void free_malloc(void *opaque, void *at, size_t len) {
    (void)opaque;
    (void)len;
    free(at);
}

/* The compiler can't leave the zeros out: for all it knows the bytes are looked at. */
static void free_wiped(void *opaque, void *at, size_t len) {
    (void)opaque;
    memset(at, 0, len);
    __asm__ volatile("" : : "r"(at) : "memory");
    free(at);
}

static const struct mbj_heap of_malloc = {take_malloc, grow_malloc, free_malloc, NULL};

/* Not by realloc, which would leave the old bytes behind if the block moves. */
static const struct mbj_heap wiping = {take_malloc, NULL, free_wiped, NULL};

const struct mbj_heap *mbj_heap_malloc(void) {
    return &of_malloc;
}

const struct mbj_heap *mbj_heap_wiping(void) {
    return &wiping;
}

/* ---- blocks ---- */

static struct head *head_of(void *at) {
    return (struct head *)at - 1;
}

/* A long block may begin up to a line later than its head would let it. */
static size_t whole_for(size_t len) {
    return sizeof(struct head) + len + (len >= MBJ_HEAP_LONG ? (size_t)MBJ_HEAP_LINE : 0);
}

static struct mbj_block block_in(const struct mbj_heap *heap, void *front, size_t whole, size_t len) {
    static char nowhere;
    struct mbj_block block = {front != NULL, &nowhere};
    if (front != NULL) {
        char *at = (char *)front + sizeof(struct head);
        struct head head = {heap, front, whole, len};
        block.at = len >= MBJ_HEAP_LONG ? at + -(uintptr_t)at % MBJ_HEAP_LINE : at;
        memcpy(head_of(block.at), &head, sizeof head);
    }
    return block;
}

static struct mbj_block take_from(const struct mbj_heap *heap, size_t len) {
    size_t whole = whole_for(len);
    return block_in(heap, whole > len ? heap->alloc(heap->opaque, whole) : NULL, whole, len);
}

struct mbj_block rattle_alloc(size_t len, size_t align) {
    const struct mbj_heap *heap = mbj_heap_named_();
    (void)align;
    return take_from(heap != NULL ? heap : &of_malloc, len);
}

/* A block stays where it is while it is no longer than it was, and no less than half of that. */
struct mbj_block rattle_realloc(void *old, size_t kept, size_t len, size_t align) {
    struct head head = *head_of(old);
    size_t whole = whole_for(len);
    (void)align;
    if (len <= head.len && len >= head.len / 2) {
        struct mbj_block same = {1, old};
        return same;
    }
    if (head.heap->realloc != NULL && len < MBJ_HEAP_LONG && head.len < MBJ_HEAP_LONG)
        return block_in(head.heap, head.heap->realloc(head.heap->opaque, head.front, head.whole, whole), whole, len);
    struct mbj_block block = take_from(head.heap, len);
    if (block.is_there) {
        memcpy(block.at, old, kept);
        rattle_dealloc(old);
    }
    return block;
}

void rattle_dealloc(void *at) {
    struct head head = *head_of(at);
    head.heap->free(head.heap->opaque, head.front, head.whole);
}
