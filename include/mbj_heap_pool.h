/* Pools of memory that the program has, as a gateway has huge pages, for managers to take theirs from. Making a pool and all that is done
 * with it take no other memory, unless the pool is made with overflow. The steps of a call grow with the logarithm of the pool's length at
 * most, but for an allocation that finds no block: it first joins all short blocks that lie ready, however many they are.
 *
 * A manager that is made with mbj_pool_heap allocates from that pool; for the calls that have none, as mbj_keys_new, a thread names the
 * pool that they allocate from. Each block knows its pool, so it goes back there from every thread. A pool is used by one thread at a time,
 * and is handed over in the same order as its manager is: so a manager has a pool of its own, or shares one with managers of the same
 * thread, and a thread that a manager is handed to names that manager's pool. The thread that frees a shared set of keys last may give
 * blocks back to pools of other threads, so none of these pools may be in use then. */
#ifndef MBJ_HEAP_POOL_H
#define MBJ_HEAP_POOL_H

#include <stdbool.h>
#include <stddef.h>

#ifdef __cplusplus
extern "C" {
#endif

struct mbj_heap;
struct mbj_pool;

/* Makes a pool of these bytes, which are its own until no block is left in it and no thread names it; there is nothing to free then. NULL
 * if they are too few: less than 640 go for the pool itself. With overflow, what doesn't fit is taken from malloc, and returns there. */
struct mbj_pool *mbj_pool_make(void *at, size_t len, bool has_overflow);

/* From here on each block of the pool, and of malloc, is filled with zeros as it is given back: copies of keys and packets don't outlive
 * their blocks. That takes the time of writing as many bytes. */
void mbj_pool_wipe(struct mbj_pool *pool);

/* The pool as a heap, for mbj_init_mgr_with. */
const struct mbj_heap *mbj_pool_heap(struct mbj_pool *pool);

/* Names the pool that this thread's next calls allocate from if their manager has no heap, and returns the one that was named before,
 * NULL if none was. If a thread names none, or NULL, malloc is asked; but in a program that mbj_heap_pool.c is compiled into, every
 * block is refused. A block that grows stays with its own pool. */
struct mbj_pool *mbj_pool_name(struct mbj_pool *pool);

/* How much of a pool is in use now, and the most that ever was: to see how long it has to be. A block is counted with all that it takes,
 * which is what was asked for and 16 bytes, or 64 if that was MBJ_HEAP_LONG or more, rounded up to a power of two from 64 on. What
 * malloc gave isn't counted among these bytes. */
struct mbj_pool_counts {
    size_t bytes, most_bytes, blocks, overflow_blocks, most_overflow_blocks;
};

struct mbj_pool_counts mbj_pool_count(const struct mbj_pool *pool);

#ifdef __cplusplus
}
#endif
#endif
