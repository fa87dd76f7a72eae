/* The bodies of what mbj.h declares: here those of managers. A user has no need to read them. */
#ifndef MBJ_INLINE_H
#define MBJ_INLINE_H

#ifndef MBJ_H
#error "include mbj.h"
#endif

#include "mbj_raw.h"

#ifdef __cplusplus
extern "C" {
#endif

/* A struct of the job interface is part of each program. */
MBJ_ASSERT_(sizeof(MBJ_JOB) == 192 && offsetof(MBJ_JOB, key) == 16 && offsetof(MBJ_JOB, packet) == 80 && offsetof(MBJ_JOB, dst) == 96);
MBJ_ASSERT_(offsetof(MBJ_JOB, auth_tag_output) == 136 && offsetof(MBJ_JOB, user_data) == 152 && offsetof(MBJ_JOB, status) == 168);
MBJ_ASSERT_(offsetof(MBJ_JOB, session) == 176 && offsetof(MBJ_JOB, expected_tag) == 184);
MBJ_ASSERT_(sizeof(struct mbj_slot) == 104 && offsetof(struct mbj_slot, reason) == 32 && offsetof(struct mbj_slot, expected) == 37);
MBJ_ASSERT_(offsetof(MBJ_MGR, slots) == 32 && sizeof(MBJ_MGR) == 32 + MBJ_MAX_JOBS * (104 + sizeof(MBJ_JOB)));

/* Whether there is a manager. If none was ever made no proved export is called: the processor may be one that they don't run on. */
static inline bool mbj_is_made_(const MBJ_MGR *m) {
    return m != NULL && m->handle.at != NULL;
}

static inline bool mbj_goes_with_(uint32_t version) {
    return version / 65536 == MBJ_VERSION_MAJOR && version >= MBJ_VERSION_NUM;
}

/* Makes a manager, having asked the processor before any proved export is called. */
static inline uint32_t mbj_make_(struct mbj_handle *handle, uint32_t keeping) {
    if (mbj_c_missing_feature() != NULL)
        return MBJ_ERR_PROCESSOR;
    if (!mbj_goes_with_(mbj_c_version()))
        return MBJ_ERR_VERSION;
    if (keeping == MBJ_KEEPS_NONE)
        return mbj_c_new_keeping_none(handle);
    return keeping == MBJ_KEEPS_LONG ? mbj_c_new_keeping(handle) : mbj_c_new(handle);
}

/* Names the manager's heap for the calls of this thread, and the one that was named before again. Only calls that take memory need that,
 * since blocks know where they go back to. */
static inline const struct mbj_heap *mbj_enter_(const struct mbj_heap *heap) {
    return heap != NULL ? mbj_c_name_heap(heap) : NULL;
}

static inline void mbj_leave_(const struct mbj_heap *heap, const struct mbj_heap *before) {
    if (heap != NULL)
        mbj_c_name_heap(before);
}

MBJ_API mbj_err mbj_init_mgr_with(MBJ_MGR *m, const struct mbj_options *options) {
    uint32_t keeping = options != NULL ? options->keeping : (uint32_t)MBJ_KEEPS_SHORT;
    if (m == NULL)
        return MBJ_ERR_NULL;
    m->handle.at = NULL;
    m->heap = options != NULL ? options->heap : NULL;
    m->first = m->next = 0;
    m->lent = 0;
    m->error = keeping > MBJ_KEEPS_NONE ? MBJ_ERR_WORD : m->heap != NULL && !mbj_c_has_heaps() ? MBJ_ERR_HEAP : MBJ_ERR_NONE;
    if (m->error == MBJ_ERR_NONE) {
        const struct mbj_heap *before = mbj_enter_(m->heap);
        m->error = mbj_make_(&m->handle, keeping);
        mbj_leave_(m->heap, before);
    }
    return (mbj_err)m->error;
}

MBJ_API mbj_err mbj_init_mgr(MBJ_MGR *m) {
    return mbj_init_mgr_with(m, NULL);
}

MBJ_API mbj_err mbj_init_mgr_keeping(MBJ_MGR *m) {
    struct mbj_options options = {NULL, MBJ_KEEPS_LONG};
    return mbj_init_mgr_with(m, &options);
}

MBJ_API void mbj_end_mgr(MBJ_MGR *m) {
    if (mbj_is_made_(m))
        mbj_c_free(&m->handle);
}

MBJ_API MBJ_MGR *mbj_alloc_mgr(void) {
    MBJ_MGR *m = (MBJ_MGR *)malloc(sizeof *m);
    if (m != NULL && mbj_init_mgr(m) != MBJ_ERR_NONE) {
        free(m);
        m = NULL;
    }
    return m;
}

MBJ_API void mbj_free_mgr(MBJ_MGR *m) {
    mbj_end_mgr(m);
    free(m);
}

MBJ_API mbj_err mbj_get_errno(const MBJ_MGR *m) {
    return m == NULL ? MBJ_ERR_NO_MANAGER : (mbj_err)m->error;
}

MBJ_API mbj_err mbj_use_keys(MBJ_MGR *m, struct mbj_keys *keys) {
    if (m == NULL || keys == NULL)
        return m == NULL ? MBJ_ERR_NO_MANAGER : MBJ_ERR_NO_KEYS;
    const struct mbj_heap *before = mbj_enter_(m->heap);
    m->error = mbj_is_made_(m) ? mbj_c_use_keys(&m->handle, keys) : MBJ_ERR_NO_MANAGER;
    mbj_leave_(m->heap, before);
    return (mbj_err)m->error;
}

MBJ_API size_t mbj_held_bytes(MBJ_MGR *m) {
    return mbj_is_made_(m) ? mbj_c_held_bytes(&m->handle) : 0;
}

MBJ_API void mbj_trim(MBJ_MGR *m) {
    if (mbj_is_made_(m))
        mbj_c_trim(&m->handle);
}

MBJ_API uint32_t mbj_queue_size(MBJ_MGR *m) {
    return mbj_is_made_(m) ? mbj_c_queue_size(&m->handle) : 0;
}

#ifdef __cplusplus
}
#endif

#include "mbj_inline_jobs.h"
#include "mbj_inline_bursts.h"
#include "mbj_inline_texts.h"
#endif
