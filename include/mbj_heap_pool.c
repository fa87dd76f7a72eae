/* The pools of mbj_heap_pool.h: a buddy allocator. It is in both libraries, with MBJ_POOLS_ALONE; compiled into a program without that, it
 * takes the place of mbj_heap.c, and pools are all that the program's managers take memory from. A block's length is a power of two, and it
 * begins at a multiple of that, counted from the first block. A free block is halved until its length is the one that is needed, and
 * is joined with its other half once both are free. Short blocks that are given back lie ready for the next ones of their length, since
 * jobs have much the same lengths, and are joined only when no block is left that is long enough. */
#include "mbj_heap_pool.h"
#include "mbj_heap.h"
#include "mbj_raw.h"

#include <stdlib.h>
#include <string.h>

#ifdef __cplusplus
#define MBJ_THREAD_LOCAL thread_local
#else
#define MBJ_THREAD_LOCAL _Thread_local
#endif

/* The least block has 2^6 bytes, a cache line. The longest that lies ready has 2^12, with room for a packet of 1,500 bytes. */
enum { LEAST_ORDER = 6, LONGEST_READY_ORDER = 12, ORDERS = 48 };

enum state { IS_FREE, IS_USED, IS_READY, IS_OVERFLOW };

/* The length of a block of malloc is counted in these, and such a block has at most 2^32 - 1. */
#define UNIT sizeof(struct head)

/* It stands at the front of each block, and once more before the bytes that were asked for. It has 16 bytes, so these are aligned to 16. */
struct head {
    struct mbj_pool *pool;
    uint32_t order; /* the block has 2^order bytes, with its head; one of malloc has so many units behind its head */
    uint32_t state;
};

/* A block that is free or ready is in a list of its order. */
struct free_block {
    struct head head;
    struct free_block *next, **link; /* link is what points to a free one */
};

struct mbj_pool {
    unsigned char *first;
    size_t len;
    bool has_overflow, wipes;
    struct mbj_heap heap;
    struct mbj_pool_counts counts;
    uint64_t orders; /* bit i is set if the list of order i isn't empty */
    struct free_block *lists[ORDERS];
    struct free_block *ready[LONGEST_READY_ORDER - LEAST_ORDER + 1]; /* from the least order on */
};

/* ---- lists ---- */

static size_t length_of(uint32_t order) {
    return (size_t)1 << order;
}

static void put_in(struct mbj_pool *pool, size_t off, uint32_t order) {
    struct free_block *block = (struct free_block *)(void *)(pool->first + off), **list = &pool->lists[order];
    block->head.pool = pool;
    block->head.order = order;
    block->head.state = IS_FREE;
    block->next = *list;
    block->link = list;
    if (*list != NULL)
        (*list)->link = &block->next;
    *list = block;
    pool->orders |= (uint64_t)1 << order;
}

static void take_out(struct mbj_pool *pool, struct free_block *block) {
    uint32_t order = block->head.order;
    *block->link = block->next;
    if (block->next != NULL)
        block->next->link = block->link;
    if (pool->lists[order] == NULL)
        pool->orders &= ~((uint64_t)1 << order);
}

/* ---- blocks of a pool ---- */

/* How many bytes of a block stand before those that were asked for. The head of a long block fills a cache line. */
static size_t head_room(size_t len) {
    return len >= MBJ_HEAP_LONG ? (size_t)MBJ_HEAP_LINE : sizeof(struct head);
}

/* The order of the least block that has room for this many bytes and its head; ORDERS if no order has. */
static uint32_t order_for(size_t len) {
    uint32_t order = LEAST_ORDER;
    while (order < ORDERS && length_of(order) - head_room(len) < len)
        order++;
    return order;
}

/* How far behind the block's front the bytes begin, beside its head. Blocks begin at multiples of a power of two, and bytes that all began
 * there would share few sets of a cache: so blocks beside each other have theirs at different lines, as far as there is room. */
static size_t shift_of(size_t off, uint32_t order, size_t len) {
    size_t lines = (length_of(order) - head_room(len) - len) >> LEAST_ORDER;
    size_t shift = lines == 0 ? 0 : (off >> order) % (lines + 1) << LEAST_ORDER;
    return shift + head_room(len) - sizeof(struct head);
}

static struct head *put_head(struct head *front, size_t shift) {
    struct head *head = (struct head *)(void *)((unsigned char *)front + shift);
    *head = *front;
    return head;
}

static size_t offset_of(const struct mbj_pool *pool, const void *block) {
    return (size_t)((const unsigned char *)block - pool->first);
}

/* The other half of what the block was halved from, if that is free as a whole; else NULL. */
static struct free_block *free_buddy(const struct mbj_pool *pool, size_t off, uint32_t order) {
    size_t other = off ^ length_of(order);
    if (length_of(order) > pool->len || other > pool->len - length_of(order))
        return NULL;
    struct free_block *block = (struct free_block *)(void *)(pool->first + other);
    return block->head.state == IS_FREE && block->head.order == order ? block : NULL;
}

static void join(struct mbj_pool *pool, size_t off, uint32_t order) {
    struct free_block *buddy;
    while ((buddy = free_buddy(pool, off, order)) != NULL) {
        take_out(pool, buddy);
        off &= ~length_of(order++);
    }
    put_in(pool, off, order);
}

/* ---- blocks that lie ready ---- */

static void put_ready(struct mbj_pool *pool, struct free_block *block, uint32_t order) {
    struct free_block **ready = &pool->ready[order - LEAST_ORDER];
    block->head.state = IS_READY;
    block->next = *ready;
    *ready = block;
}

static struct free_block *take_ready(struct mbj_pool *pool, uint32_t order) {
    if (order > LONGEST_READY_ORDER)
        return NULL;
    struct free_block **ready = &pool->ready[order - LEAST_ORDER], *block = *ready;
    if (block != NULL)
        *ready = block->next;
    return block;
}

static void join_ready(struct mbj_pool *pool) {
    for (uint32_t order = LEAST_ORDER; order <= LONGEST_READY_ORDER; order++)
        for (struct free_block *block; (block = take_ready(pool, order)) != NULL;)
            join(pool, offset_of(pool, block), order);
}

/* ---- taking and giving ---- */

/* A block of an order, halved from the least one that is free; NULL if none is. */
static struct free_block *take_halved(struct mbj_pool *pool, uint32_t order) {
    uint64_t large_enough = order < ORDERS ? pool->orders >> order << order : 0;
    if (large_enough == 0)
        return NULL;
    uint32_t found = (uint32_t)__builtin_ctzll(large_enough);
    struct free_block *block = pool->lists[found];
    take_out(pool, block);
    while (found > order) {
        found--;
        put_in(pool, offset_of(pool, block) + length_of(found), found);
    }
    return block;
}

static struct free_block *take_order(struct mbj_pool *pool, uint32_t order) {
    struct free_block *block = take_ready(pool, order);
    if (block == NULL)
        block = take_halved(pool, order);
    if (block != NULL || order >= ORDERS)
        return block;
    join_ready(pool);
    return take_halved(pool, order);
}

/* A block for this many bytes; NULL if none is left. */
static struct head *take(struct mbj_pool *pool, size_t len) {
    uint32_t order = order_for(len);
    struct free_block *block = take_order(pool, order);
    if (block == NULL)
        return NULL;
    block->head.pool = pool;
    block->head.order = order;
    block->head.state = IS_USED;
    pool->counts.blocks++;
    pool->counts.bytes += length_of(order);
    if (pool->counts.bytes > pool->counts.most_bytes)
        pool->counts.most_bytes = pool->counts.bytes;
    return put_head(&block->head, shift_of(offset_of(pool, block), order, len));
}

static void give(struct mbj_pool *pool, struct head *head) {
    uint32_t order = head->order;
    size_t off = offset_of(pool, head) >> order << order;
    pool->counts.blocks--;
    pool->counts.bytes -= length_of(order);
    if (order <= LONGEST_READY_ORDER)
        put_ready(pool, (struct free_block *)(void *)(pool->first + off), order);
    else
        join(pool, off, order);
}

/* ---- blocks of malloc ---- */

static struct head *take_overflow(struct mbj_pool *pool, size_t len) {
    size_t units = len / UNIT + (len % UNIT != 0);
    struct head *head = units <= UINT32_MAX ? (struct head *)malloc(sizeof *head + units * UNIT) : NULL;
    if (head == NULL)
        return NULL;
    head->pool = pool;
    head->order = (uint32_t)units;
    head->state = IS_OVERFLOW;
    if (++pool->counts.overflow_blocks > pool->counts.most_overflow_blocks)
        pool->counts.most_overflow_blocks = pool->counts.overflow_blocks;
    return head;
}

/* ---- the heap ---- */

static struct head *head_of(void *at) {
    return (struct head *)at - 1;
}

static struct mbj_block block_behind(struct head *head) {
    static char nowhere;
    struct mbj_block block = {head != NULL, &nowhere};
    if (head != NULL)
        block.at = head + 1;
    return block;
}

static struct mbj_block take_from(struct mbj_pool *pool, size_t len) {
    struct head *head = pool == NULL ? NULL : take(pool, len);
    if (head == NULL && pool != NULL && pool->has_overflow)
        head = take_overflow(pool, len);
    return block_behind(head);
}

/* How many bytes there are behind the head of a block of its pool. */
static size_t room_behind(const struct head *head) {
    size_t off = offset_of(head->pool, head + 1), len = length_of(head->order);
    return len - off % len;
}

/* The compiler can't leave this out: for all it knows the bytes are looked at. */
static void wipe(void *at, size_t len) {
    memset(at, 0, len);
    __asm__ volatile("" : : "r"(at) : "memory");
}

static void give_back(void *at) {
    struct head *head = head_of(at);
    if (head->pool->wipes)
        wipe(at, head->state == IS_OVERFLOW ? head->order * UNIT : room_behind(head));
    if (head->state == IS_OVERFLOW) {
        head->pool->counts.overflow_blocks--;
        free(head);
    } else {
        give(head->pool, head);
    }
}

static struct mbj_block moved(void *old, size_t kept, size_t len) {
    struct head *head = head_of(old);
    if (head->state == IS_USED && len <= room_behind(head))
        return block_behind(head);
    struct mbj_block block = take_from(head->pool, len);
    if (block.is_there) {
        memcpy(block.at, old, kept);
        give_back(old);
    }
    return block;
}

static void *found(struct mbj_block block) {
    return block.is_there ? block.at : NULL;
}

static void *alloc_from(void *pool, size_t len) {
    return found(take_from((struct mbj_pool *)pool, len));
}

static void *realloc_from(void *pool, void *old, size_t old_len, size_t len) {
    (void)pool;
    return found(moved(old, old_len < len ? old_len : len, len));
}

static void free_to(void *pool, void *at, size_t len) {
    (void)pool;
    (void)len;
    give_back(at);
}

#ifdef MBJ_POOLS_ALONE
static struct mbj_pool *name(struct mbj_pool *pool) {
    const struct mbj_heap *before = mbj_c_name_heap(pool != NULL ? &pool->heap : NULL);
    return before != NULL && before->alloc == alloc_from ? (struct mbj_pool *)before->opaque : NULL;
}
#else
static MBJ_THREAD_LOCAL struct mbj_pool *named;

static struct mbj_pool *name(struct mbj_pool *pool) {
    struct mbj_pool *before = named;
    named = pool;
    return before;
}

struct mbj_block rattle_alloc(size_t len, size_t align) {
    (void)align;
    return take_from(named, len);
}

struct mbj_block rattle_realloc(void *old, size_t kept, size_t len, size_t align) {
    (void)align;
    return moved(old, kept, len);
}

void rattle_dealloc(void *at) {
    give_back(at);
}
#endif

/* ---- pools ---- */

/* The pool stands in front, and behind it the blocks, from the next multiple of the least block's length on: each as long as it can be. */
struct mbj_pool *mbj_pool_make(void *at, size_t len, bool has_overflow) {
    size_t least = length_of(LEAST_ORDER);
    size_t front = (size_t)(-(uintptr_t)at % least), own = (sizeof(struct mbj_pool) + least - 1) / least * least;
    if (at == NULL || len < front + own + least)
        return NULL;
    struct mbj_pool *pool = (struct mbj_pool *)(void *)((unsigned char *)at + front);
    memset(pool, 0, sizeof *pool);
    pool->first = (unsigned char *)pool + own;
    pool->len = (len - front - own) / least * least;
    pool->has_overflow = has_overflow;
    pool->heap.alloc = alloc_from;
    pool->heap.realloc = realloc_from;
    pool->heap.free = free_to;
    pool->heap.opaque = pool;
    for (size_t off = 0; off < pool->len;) {
        uint32_t order = LEAST_ORDER;
        while (order + 1 < ORDERS && off % length_of(order + 1) == 0 && length_of(order + 1) <= pool->len - off)
            order++;
        put_in(pool, off, order);
        off += length_of(order);
    }
    return pool;
}

void mbj_pool_wipe(struct mbj_pool *pool) {
    pool->wipes = true;
}

const struct mbj_heap *mbj_pool_heap(struct mbj_pool *pool) {
    return &pool->heap;
}

struct mbj_pool *mbj_pool_name(struct mbj_pool *pool) {
    return name(pool);
}

struct mbj_pool_counts mbj_pool_count(const struct mbj_pool *pool) {
    return pool->counts;
}
