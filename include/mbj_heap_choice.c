/* Which heap a thread names. It is an object by itself, so that a program with a heap of its own is linked without mbj_heap.c. */
#include "mbj_heap_choice.h"
#include "mbj_raw.h"

#ifdef __cplusplus
#define MBJ_THREAD_LOCAL thread_local
#else
#define MBJ_THREAD_LOCAL _Thread_local
#endif

/* It is at a fixed place of each thread, also in a shared library. */
static MBJ_THREAD_LOCAL const struct mbj_heap *named __attribute__((tls_model("initial-exec")));

#pragma weak mbj_heap_asks_

const struct mbj_heap *mbj_heap_named_(void) {
    return named;
}

const struct mbj_heap *mbj_c_name_heap(const struct mbj_heap *heap) {
    const struct mbj_heap *before = named;
    named = heap;
    return before;
}

bool mbj_c_has_heaps(void) {
    return &mbj_heap_asks_ != NULL;
}
