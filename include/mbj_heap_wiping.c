/* A heap over malloc that fills each block with zeros before it is freed: copies of keys and packets, and what is computed from them, don't
 * outlive their blocks. To be compiled into a program in place of mbj_heap.c. Nothing is said of registers and the stack, nor of blocks that
 * are still in use, as those of a manager until it is freed. */
#include "mbj_heap.h"

#include <stdlib.h>
#include <string.h>

/* In front of each block stands its length. The head has 16 bytes, so that the block is aligned as malloc aligns. */
enum { HEAD = 16 };

static struct mbj_block mbj_block_behind(void *head) {
    static char nowhere;
    struct mbj_block block = {head != NULL, head != NULL ? (char *)head + HEAD : &nowhere};
    return block;
}

/* The compiler can't leave this out: for all it knows the bytes are looked at. */
static void mbj_wipe(void *at, size_t len) {
    memset(at, 0, len);
    __asm__ volatile("" : : "r"(at) : "memory");
}

struct mbj_block rattle_alloc(size_t len, size_t align) {
    (void)align;
    void *head = len <= SIZE_MAX - HEAD ? malloc(HEAD + len) : NULL;
    if (head != NULL)
        memcpy(head, &len, sizeof len);
    return mbj_block_behind(head);
}

/* Not by realloc, which would leave the old bytes behind if the block moves. */
struct mbj_block rattle_realloc(void *old, size_t kept, size_t len, size_t align) {
    struct mbj_block block = rattle_alloc(len, align);
    if (block.is_there) {
        memcpy(block.at, old, kept);
        rattle_dealloc(old);
    }
    return block;
}

void rattle_dealloc(void *at) {
    char *head = (char *)at - HEAD;
    size_t len;
    memcpy(&len, head, sizeof len);
    mbj_wipe(head, HEAD + len);
    free(head);
}
