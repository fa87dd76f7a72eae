/* Heaps. A program chooses one as it makes a manager, by mbj_init_mgr_with: malloc, malloc with wiping, a pool (mbj_heap_pool.h), or
 * functions of its own. Behind that are the three functions that the proved code asks for memory: those of mbj_heap.c, a member of the
 * archive by itself, put in front of each block which heap it came from, and free it there. A program that defines the three itself is
 * linked without that member, and then chooses none: mbj_c_has_heaps is false. Two files do so, to be compiled into a program:
 * mbj_heap_pool.c and mbj_heap_wiping.c. In the shared library the three are hidden.
 *
 * That a heap does what is said here is trusted: every proof about the library stands on it.
 *
 * The library asks in the thread that called it, and only within a call: mbj_c_new, mbj_c_new_keeping, mbj_c_new_keeping_none, mbj_c_fill,
 * mbj_c_fill_burst, mbj_c_submit_job, mbj_keys_new, mbj_keys_share, mbj_c_use_keys, mbj_c_front_new, mbj_c_post, mbj_c_post_burst and the
 * calls on CCM take blocks; these and every other call on a manager, on keys or on a seat may free some, but for mbj_c_queue_size,
 * mbj_c_count, mbj_c_held_bytes, mbj_c_hand and mbj_c_out. So two threads, each with a manager of its own, ask at the same time; and a
 * block may be freed in another thread than the one that it was asked for in, if a manager was handed over, in the order that docs/C.md
 * says, or if it is part of a front, or of a set of keys that threads share, which the last of them frees. A heap's functions don't call
 * the library, and they return: no exception and no longjmp leaves them. */
#ifndef MBJ_HEAP_H
#define MBJ_HEAP_H

#include <stddef.h>
#include <stdint.h>

#ifdef __cplusplus
extern "C" {
#endif

/* ---- heaps that are chosen ---- */

/* A heap. alloc returns len bytes at a multiple of 16, or NULL; len isn't 0. realloc makes the block at old, of old_len bytes, one of len
 * bytes, which may be elsewhere and begins with what was there, or returns NULL and leaves it; if it is NULL itself, blocks are
 * copied. free frees a block of len bytes, once. opaque is given to all three. The struct and what it needs stay valid until its last block
 * is freed: a set of keys that several managers use may hold blocks of each of their heaps, until it is freed. */
struct mbj_heap {
    void *(*alloc)(void *opaque, size_t len);
    void *(*realloc)(void *opaque, void *old, size_t old_len, size_t len);
    void (*free)(void *opaque, void *at, size_t len);
    void *opaque;
};

/* malloc, which is asked if nothing is chosen; and malloc, with each block filled with zeros before it is freed: copies of keys and
 * packets, and what is computed from them, don't outlive their blocks. Nothing is said of registers and the stack, nor of blocks that are
 * still in use, as those of a manager until it is freed. */
const struct mbj_heap *mbj_heap_malloc(void);
const struct mbj_heap *mbj_heap_wiping(void);

/* ---- what the proved code asks for ---- */

/* A block that was asked for: whether there is one, 1 or 0, and where. at is never NULL, not even if there is none. */
struct mbj_block {
    uint64_t is_there;
    void *at;
};

/* A manager's lanes keep vectors in long blocks, and one that crosses a cache line takes longer to load. So a heap does well to begin
 * blocks from MBJ_HEAP_LONG bytes on at a multiple of MBJ_HEAP_LINE; it need not. A packet of 1,500 bytes isn't in a long block. */
enum { MBJ_HEAP_LONG = 4096, MBJ_HEAP_LINE = 64 };

/* A new block of len bytes or more, at a multiple of align, which is 1, 2, 4, 8 or 16. len is below 2^63, and may be 0: the block has an
 * address of its own then too. Its bytes may be anything. Nothing else uses them until it is freed. If there is none, the call that
 * asked returns that memory ran out, and changes nothing. */
struct mbj_block rattle_alloc(size_t len, size_t align);

/* Makes the block at old one of len bytes or more, which may be elsewhere. Its first kept bytes are as they were; kept is at most len, and
 * at most what the block was asked for. align is that of the old block. If there is none, the old block is as it was. */
struct mbj_block rattle_realloc(void *old, size_t kept, size_t len, size_t align);

/* Frees a block that one of the two returned. It is freed once, and at isn't NULL. */
void rattle_dealloc(void *at);

#ifdef __cplusplus
}
#endif
#endif
