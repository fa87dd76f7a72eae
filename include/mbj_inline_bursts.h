/* The bodies of the bursts of mbj.h, which mbj_inline.h includes. */
#ifndef MBJ_INLINE_BURSTS_H
#define MBJ_INLINE_BURSTS_H

#ifndef MBJ_H
#error "include mbj.h"
#endif

#ifdef __cplusplus
extern "C" {
#endif

/* How many jobs go to the library at once; a longer burst is done in parts. */
#define MBJ_PART_ 32

static inline uint32_t mbj_part_of_(uint32_t n) {
    return n < MBJ_PART_ ? n : MBJ_PART_;
}

/* Room for the results of a part. */
struct mbj_rooms_ {
    struct mbj_raw_done done[MBJ_PART_];
    uint8_t tags[MBJ_PART_][MBJ_MAX_TAG_BYTES];
};

static inline void mbj_make_rooms_(struct mbj_rooms_ *rooms, const MBJ_MGR *m, uint32_t n) {
    for (uint32_t i = 0; i < n; i++)
        mbj_make_room_(&rooms->done[i], rooms->tags[i], m, i);
}

/* The jobs whose results were given, in order. */
static inline uint32_t mbj_give_each_back_(MBJ_MGR *m, const struct mbj_rooms_ *rooms, const struct mbj_raw_burst *burst, MBJ_JOB **done) {
    for (size_t i = 0; i < burst->given; i++)
        done[i] = mbj_give_back_(m, &rooms->done[i]);
    return (uint32_t)burst->given;
}

/* Fills the first n jobs that are handed out, n not being 0, and returns how many there are before one that lacked memory. */
static inline uint32_t mbj_fill_part_(MBJ_MGR *m, uint32_t n) {
    struct mbj_raw_job raws[MBJ_PART_];
    uint32_t refusals[MBJ_PART_], filled = 0, count = 0;
    do
        mbj_raw_place_(&raws[count], m, (m->next + count) % MBJ_MAX_JOBS);
    while (++count < n);
    const struct mbj_heap *before = mbj_enter_(m->heap);
    mbj_c_fill_burst(&m->handle, raws, n, refusals, n);
    mbj_leave_(m->heap, before);
    while (filled < n && refusals[filled] == MBJ_ERR_NONE)
        filled++;
    m->error = filled < n ? refusals[filled] : (uint32_t)MBJ_ERR_NONE;
    return filled;
}

/* Submits the first n jobs that are handed out, which are filled. */
static inline uint32_t mbj_submit_part_(MBJ_MGR *m, uint32_t n, MBJ_JOB **done) {
    struct mbj_rooms_ rooms;
    struct mbj_raw_burst burst = {0, 0, MBJ_ERR_NONE};
    mbj_make_rooms_(&rooms, m, n);
    mbj_c_submit_burst(&m->handle, rooms.done, n, &burst);
    if (burst.refusal != MBJ_ERR_NONE)
        m->error = burst.refusal;
    mbj_mark_submitted_(m, (uint32_t)burst.made);
    return mbj_give_each_back_(m, &rooms, &burst, done);
}

/* Whether these are the first jobs that are handed out, in their order. */
static inline bool mbj_are_lent_(MBJ_MGR *m, uint32_t n, MBJ_JOB *const *jobs) {
    for (uint32_t i = 0; i < n && n <= m->lent; i++)
        if (jobs[i] != &m->jobs[(m->next + i) % MBJ_MAX_JOBS])
            return false;
    return n <= m->lent;
}

MBJ_API uint32_t mbj_submit_burst(MBJ_MGR *m, uint32_t n, MBJ_JOB *const *jobs, MBJ_JOB **done) {
    uint32_t given = 0;
    if (m == NULL)
        return 0;
    if (!mbj_are_lent_(m, n, jobs)) {
        m->error = MBJ_ERR_NO_JOB;
        return 0;
    }
    uint32_t end = m->next + n;
    m->error = mbj_is_made_(m) ? MBJ_ERR_NONE : MBJ_ERR_NO_MANAGER;
    while (m->next != end && m->error == MBJ_ERR_NONE) {
        uint32_t filled = mbj_fill_part_(m, mbj_part_of_(end - m->next));
        given += mbj_submit_part_(m, filled, done + given);
    }
    for (uint32_t next = m->next; next != end; next++)
        m->jobs[next % MBJ_MAX_JOBS].status = MBJ_STATUS_ERROR;
    return given;
}

/* One of the exports that give the results of a burst. */
typedef void (*mbj_giving_)(struct mbj_handle *, struct mbj_raw_done *, size_t, struct mbj_raw_burst *);

static inline uint32_t mbj_give_burst_(MBJ_MGR *m, uint32_t n, mbj_giving_ call, MBJ_JOB **done) {
    uint32_t given = 0, asked = 0;
    if (m == NULL)
        return 0;
    m->error = MBJ_ERR_NONE;
    while (given == asked && given < n && m->next != m->first) {
        uint32_t owed = m->next - m->first, part = mbj_part_of_(n - given < owed ? n - given : owed);
        struct mbj_rooms_ rooms;
        struct mbj_raw_burst burst = {0, 0, MBJ_ERR_NONE};
        mbj_make_rooms_(&rooms, m, part);
        call(&m->handle, rooms.done, part, &burst);
        m->error = burst.refusal;
        asked += part;
        given += mbj_give_each_back_(m, &rooms, &burst, done + given);
    }
    return given;
}

MBJ_API uint32_t mbj_get_completed_burst(MBJ_MGR *m, uint32_t n, MBJ_JOB **done) {
    return mbj_give_burst_(m, n, mbj_c_get_completed_burst, done);
}

MBJ_API uint32_t mbj_flush_burst(MBJ_MGR *m, uint32_t n, MBJ_JOB **done) {
    return mbj_give_burst_(m, n, mbj_c_flush_burst, done);
}

#ifdef __cplusplus
}
#endif
#endif
