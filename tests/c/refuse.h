/* What refuse.c counts and refuses. */
#ifndef REFUSE_H
#define REFUSE_H

#include <stddef.h>
#include <stdint.h>

#ifdef __cplusplus
extern "C" {
#endif

/* The number of the allocation that is refused, how many there were, and how many blocks are taken and not freed. */
extern long refuse_at, allocations, blocks;

/* What the archive's version is said to be, or 0 for what it is. */
extern uint32_t faked_version;

/* What the processor is said to lack, or NULL for what it does. */
extern const char *faked_missing_feature;

/* The linker puts the first of each pair in the place of the function, which is the second. */
void *__wrap_malloc(size_t len);
void *__real_malloc(size_t len);
void *__wrap_aligned_alloc(size_t alignment, size_t len);
void *__real_aligned_alloc(size_t alignment, size_t len);
void *__wrap_calloc(size_t count, size_t len);
void *__real_calloc(size_t count, size_t len);
void *__wrap_realloc(void *old, size_t len);
void *__real_realloc(void *old, size_t len);
void __wrap_free(void *at);
void __real_free(void *at);
uint32_t __wrap_mbj_c_version(void);
uint32_t __real_mbj_c_version(void);
const char *__wrap_mbj_c_missing_feature(void);
const char *__real_mbj_c_missing_feature(void);

#ifdef __cplusplus
}
#endif
#endif
