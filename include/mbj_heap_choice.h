/* What mbj_heap.c and mbj_heap_choice.c have between them. No program includes it. */
#ifndef MBJ_HEAP_CHOICE_H
#define MBJ_HEAP_CHOICE_H

#include "mbj_heap.h"

#define MBJ_HIDDEN __attribute__((visibility("hidden")))

#ifdef __cplusplus
extern "C" {
#endif

/* The heap that this thread names, or NULL. */
MBJ_HIDDEN const struct mbj_heap *mbj_heap_named_(void);

/* It is in the program where mbj_heap.c is: not where the program has a heap of its own. */
MBJ_HIDDEN extern const char mbj_heap_asks_;

#ifdef __cplusplus
}
#endif
#endif
