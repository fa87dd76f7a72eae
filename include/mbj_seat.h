/* A front that threads share: submitters post jobs and take their results back in the order of their posts, and every thread's turns do
 * jobs of all. So a thread with much work is helped by those with little. docs/C.md says when that is better than a manager for each
 * thread, and what a program promises. The exports at the head are proved; what is below them is inline C over them, and tested.
 *
 *     struct mbj_seat places[2] = {MBJ_SEAT_INIT, MBJ_SEAT_INIT};
 *     if (mbj_front_new(1, 1, NULL, places, 2) != MBJ_ERR_NONE)
 *         return;
 *
 *     a submitter's thread                                        a worker's thread
 *     mbj_take_seat(seat, &places[0]);                            mbj_serve(&places[1], &stop, NULL, NULL);
 *     job = mbj_seat_get_next_job(seat);                          mbj_c_seat_free(&places[1]);
 *     mbj_job_gcm(job, ..);
 *     if (mbj_post_job(seat) != MBJ_ERR_NONE) ..
 *     while ((job = mbj_drain(seat)) != NULL) ..
 *     mbj_leave_seat(seat);
 */
#include "mbj.h"

#ifndef MBJ_SEAT_H
#define MBJ_SEAT_H

#ifdef __cplusplus
extern "C" {
#endif

#define MBJ_MAX_SUBMITTERS 16
#define MBJ_MAX_WORKERS 16

/* A seat of a front, or none: MBJ_SEAT_INIT at first, and then written by these calls alone. It may be moved, and never copied. One thread
 * at a time uses it; different seats of a front are used at the same time. There is no handle of the front, which lives as long as one of
 * its seats. */
struct mbj_seat {
    void *at;
};

#define MBJ_SEAT_INIT {NULL}

/* ---- the exports. No pointer is NULL. None of them waits for another thread ---- */

/* Makes a front, and puts the seats of its parties into the first places, submitters first. All memory of the front and of its parties'
 * managers is taken here. If keys has a set, all parties share it. Returns MBJ_ERR_NONE, MBJ_ERR_SEAT_COUNT if there are not 1 to
 * MBJ_MAX_SUBMITTERS submitters and at most MBJ_MAX_WORKERS workers, MBJ_ERR_NO_ROOM if there are fewer places than parties,
 * MBJ_ERR_HAS_SEAT if one of these places has a seat already, or MBJ_ERR_MEMORY. */
MBJ_CHECKED MBJ_NONNULL
mbj_err mbj_c_front_new(uint32_t submitters, uint32_t workers, struct mbj_keys *keys, struct mbj_seat *places, size_t places_len);

/* Copies a job and posts it, for whichever party claims it. Returns MBJ_ERR_NONE, MBJ_ERR_NO_SEAT, MBJ_ERR_NOT_SUBMITTER if the seat is a
 * worker's, MBJ_ERR_FULL if MBJ_MAX_JOBS of its jobs are out, MBJ_ERR_WORD or MBJ_ERR_MEMORY. */
MBJ_CHECKED MBJ_NONNULL
mbj_err mbj_c_post(struct mbj_seat *seat, const struct mbj_raw_job *job);

/* Gives the result of the seat's earliest job that is out, if that is finished: true if it is, and the result is written whole; else
 * false, and only refusal is written: MBJ_ERR_NONE, MBJ_ERR_NO_SEAT, MBJ_ERR_NOT_SUBMITTER or MBJ_ERR_NO_ROOM. There must be room for the
 * result that comes next, also while it isn't finished. */
MBJ_NONNULL
bool mbj_c_collect(struct mbj_seat *seat, struct mbj_raw_done *done, uint32_t *refusal);

/* Bursts: what several single calls do, one after another, by one call. No array is at NULL, even if it has no element.
 *
 * Posts jobs, each as mbj_c_post does. Returns how many are posted, and writes to each job's place in refusals what mbj_c_post returns. A
 * job that is refused is left out, and the jobs behind it are posted. Only the first refusals_len jobs are looked at if jobs_len is
 * more. */
MBJ_NONNULL
size_t mbj_c_post_burst(struct mbj_seat *seat, const struct mbj_raw_job *jobs, size_t jobs_len, uint32_t *refusals, size_t refusals_len);

/* Makes mbj_c_collect as many times as there are rooms. The results that are given go to the rooms in order, and the rooms behind them stay
 * as they were. Each call needs room for the result that comes next, as a single one does. No two rooms of a burst overlap. */
MBJ_NONNULL
void mbj_c_collect_burst(struct mbj_seat *seat, struct mbj_raw_done *rooms, size_t rooms_len, struct mbj_raw_burst *burst);

/* Claims up to 32 jobs of any submitter, runs lanes that are full, and hands results that are finished to their submitters. Returns how many
 * jobs it claimed: 0 if there is no seat. */
MBJ_NONNULL
uint32_t mbj_c_turn(struct mbj_seat *seat);

/* Finishes the first job in the seat's hand, which holds the jobs that it claimed and hasn't finished. False if there is none, or no
 * seat. */
MBJ_NONNULL
bool mbj_c_settle(struct mbj_seat *seat);

/* How many jobs are in the hand, and how many of the seat's own jobs are out: posted, and their results not collected. */
MBJ_NONNULL
uint32_t mbj_c_hand(struct mbj_seat *seat);
MBJ_NONNULL
uint32_t mbj_c_out(struct mbj_seat *seat);

/* Finishes all jobs in the hand, and frees the seat; false if there is none. Results of its own jobs that are out are lost. */
MBJ_NONNULL
bool mbj_c_seat_free(struct mbj_seat *seat);

MBJ_ASSERT_(sizeof(struct mbj_seat) == 8);

/* ---- jobs of a submitter's seat ---- */

/* A submitter's seat and its jobs: those from first on, below next, are out. */
typedef struct mbj_submitter {
    struct mbj_seat seat;
    uint32_t first, next, error;
    uint32_t lent;           /* how many jobs from next on are handed out */
    void (*pause)(void *);   /* what mbj_drain does if it finds nothing to do; NULL for a pause of the processor */
    void *pause_with;        /* and what it is called with */
    struct mbj_slot slots[MBJ_MAX_JOBS];
    MBJ_JOB jobs[MBJ_MAX_JOBS];
} MBJ_SEAT;

/* Makes a front as mbj_c_front_new does, once the processor and the library's version are found to be the right ones: else it returns
 * MBJ_ERR_PROCESSOR or MBJ_ERR_VERSION. keys may be NULL. No heap is named then, or one that any thread may give blocks back to. */
MBJ_CHECKED MBJ_API mbj_err mbj_front_new(uint32_t submitters, uint32_t workers, struct mbj_keys *keys, struct mbj_seat *places,
                                                size_t places_len) {
    struct mbj_keys none = MBJ_KEYS_INIT;
    if (mbj_c_missing_feature() != NULL)
        return MBJ_ERR_PROCESSOR;
    if (!mbj_goes_with_(mbj_c_version()))
        return MBJ_ERR_VERSION;
    return mbj_c_front_new(submitters, workers, keys != NULL ? keys : &none, places, places_len);
}

/* Moves a submitter's seat into the caller's memory, which then stays where it is until mbj_leave_seat. The place has no seat then. */
MBJ_API void mbj_take_seat(MBJ_SEAT *s, struct mbj_seat *place) {
    s->seat = *place;
    place->at = NULL;
    s->first = s->next = 0;
    s->error = MBJ_ERR_NONE;
    s->lent = 0;
    s->pause = NULL;
    s->pause_with = NULL;
}

/* Finishes the jobs in the hand, and frees the seat. Its own jobs that are out are lost: drain first. */
MBJ_API void mbj_leave_seat(MBJ_SEAT *s) {
    if (s->seat.at != NULL)
        mbj_c_seat_free(&s->seat);
}

/* Why the last call returned no job: MBJ_ERR_NONE if there was none to give, or the refusal. */
MBJ_API mbj_err mbj_seat_errno(const MBJ_SEAT *s) {
    return (mbj_err)s->error;
}

/* Hands out up to n jobs: those that were handed out and aren't posted yet, as they are, and then blank ones. Returns how many: fewer if
 * fewer are left, and 0 with MBJ_ERR_FULL if MBJ_MAX_JOBS jobs are out: collect one first. */
MBJ_API uint32_t mbj_seat_get_next_burst(MBJ_SEAT *s, uint32_t n, MBJ_JOB **jobs) {
    uint32_t left = MBJ_MAX_JOBS - (s->next - s->first), count = n < left ? n : left;
    s->error = left == 0 ? MBJ_ERR_FULL : MBJ_ERR_NONE;
    for (uint32_t i = 0; i < count; i++) {
        jobs[i] = &s->jobs[(s->next + i) % MBJ_MAX_JOBS];
        if (i >= s->lent)
            mbj_make_blank_(jobs[i]);
    }
    if (count > s->lent)
        s->lent = count;
    return count;
}

/* Hands out the next job, a blank one, or the one that was handed out and isn't posted yet. NULL with MBJ_ERR_FULL if MBJ_MAX_JOBS jobs
 * are out. */
MBJ_API MBJ_JOB *mbj_seat_get_next_job(MBJ_SEAT *s) {
    MBJ_JOB *job = NULL;
    return mbj_seat_get_next_burst(s, 1, &job) == 0 ? NULL : job;
}

/* Posts the first job that was handed out. Its bytes are copied: all that it reads may be used anew then. Returns MBJ_ERR_NONE, MBJ_ERR_NO_JOB
 * if none was handed out, MBJ_ERR_NO_SEAT, MBJ_ERR_NOT_SUBMITTER or MBJ_ERR_MEMORY, after which the job may be posted again. */
MBJ_CHECKED MBJ_API mbj_err mbj_post_job(MBJ_SEAT *s) {
    uint32_t place = s->next % MBJ_MAX_JOBS;
    MBJ_JOB *job = &s->jobs[place];
    struct mbj_raw_job raw;
    uint32_t reason;
    if (s->lent == 0 || s->seat.at == NULL) {
        s->error = s->lent != 0 ? MBJ_ERR_NO_SEAT : MBJ_ERR_NO_JOB;
        return (mbj_err)s->error;
    }
    reason = mbj_own_reason_(job);
    if (reason == MBJ_REASON_NONE)
        mbj_to_raw_(&raw, job);
    else
        mbj_raw_refused_(&raw);
    mbj_keep_slot_(&s->slots[place], job, reason);
    s->error = mbj_c_post(&s->seat, &raw);
    if (s->error != MBJ_ERR_NONE) {
        job->status = MBJ_STATUS_ERROR;
        return (mbj_err)s->error;
    }
    job->status = MBJ_STATUS_BEING_PROCESSED;
    s->next++;
    s->lent--;
    return MBJ_ERR_NONE;
}

/* Whether these are the first jobs that are handed out, in their order. */
static inline bool mbj_seat_lent_(MBJ_SEAT *s, uint32_t n, MBJ_JOB *const *jobs) {
    for (uint32_t i = 0; i < n && n <= s->lent; i++)
        if (jobs[i] != &s->jobs[(s->next + i) % MBJ_MAX_JOBS])
            return false;
    return n <= s->lent;
}

/* Posts n jobs as mbj_post_job does, one after another: the first ones that were handed out, in their order. Returns how many are posted:
 * fewer than n if one lacks memory, for no job may overtake one that is posted again. It and those behind it have MBJ_STATUS_ERROR then,
 * and stay handed out. With MBJ_ERR_NO_JOB, if the jobs aren't those that were handed out, none is posted. */
MBJ_CHECKED MBJ_API uint32_t mbj_post_burst(MBJ_SEAT *s, uint32_t n, MBJ_JOB *const *jobs) {
    uint32_t posted = 0;
    if (!mbj_seat_lent_(s, n, jobs)) {
        s->error = MBJ_ERR_NO_JOB;
        return 0;
    }
    s->error = MBJ_ERR_NONE;
    while (posted < n && mbj_post_job(s) == MBJ_ERR_NONE)
        posted++;
    for (uint32_t i = posted; i < n; i++)
        jobs[i]->status = MBJ_STATUS_ERROR;
    return posted;
}

/* The earliest job, whose result is in its room. */
static inline MBJ_JOB *mbj_seat_give_(MBJ_SEAT *s, const struct mbj_raw_done *done) {
    uint32_t place = s->first++ % MBJ_MAX_JOBS;
    mbj_end_job_(&s->jobs[place], &s->slots[place], done);
    return &s->jobs[place];
}

/* Gives the seat's earliest job back if it is finished, as mbj_get_completed_job does for a manager; NULL if it isn't, or none is
 * out. It does no other job meanwhile. */
MBJ_API MBJ_JOB *mbj_collect_job(MBJ_SEAT *s) {
    struct mbj_raw_done done;
    uint8_t tag[MBJ_MAX_TAG_BYTES];
    s->error = MBJ_ERR_NONE;
    if (s->next == s->first)
        return NULL;
    mbj_room_of_(&done, tag, &s->slots[s->first % MBJ_MAX_JOBS]);
    return mbj_c_collect(&s->seat, &done, &s->error) ? mbj_seat_give_(s, &done) : NULL;
}

/* Gives up to n of the seat's jobs back, the earliest ones, as long as they are finished, and returns how many. Two jobs that come back by
 * one burst must write to places that don't overlap. */
MBJ_API uint32_t mbj_collect_burst(MBJ_SEAT *s, uint32_t n, MBJ_JOB **done) {
    uint32_t given = 0, asked = 0;
    s->error = MBJ_ERR_NONE;
    while (given == asked && given < n && s->next != s->first) {
        uint32_t out = s->next - s->first, part = mbj_part_of_(n - given < out ? n - given : out);
        struct mbj_rooms_ rooms;
        struct mbj_raw_burst burst = {0, 0, MBJ_ERR_NONE};
        for (uint32_t i = 0; i < part; i++)
            mbj_room_of_(&rooms.done[i], rooms.tags[i], &s->slots[(s->first + i) % MBJ_MAX_JOBS]);
        mbj_c_collect_burst(&s->seat, rooms.done, part, &burst);
        s->error = burst.refusal;
        asked += part;
        for (size_t i = 0; i < burst.given; i++)
            done[given++] = mbj_seat_give_(s, &rooms.done[i]);
    }
    return given;
}

/* A pause of the processor, if there is no other. */
static inline void mbj_pause_(void (*pause)(void *), void *with) {
    if (pause != NULL)
        pause(with);
    else
        __builtin_ia32_pause();
}

/* Gives the seat's earliest job back once it is finished, and does jobs of any seat meanwhile. It waits for other threads, and pauses if
 * it finds nothing to do. If none is out it returns NULL, and has finished all jobs in its hand: no other submitter waits for them. */
MBJ_API MBJ_JOB *mbj_drain(MBJ_SEAT *s) {
    MBJ_JOB *job = mbj_collect_job(s);
    while (job == NULL && s->next != s->first && s->error == MBJ_ERR_NONE) {
        if (mbj_c_turn(&s->seat) == 0 && !mbj_c_settle(&s->seat))
            mbj_pause_(s->pause, s->pause_with);
        job = mbj_collect_job(s);
    }
    while (job == NULL && mbj_c_settle(&s->seat))
        ;
    return job;
}

/* Does jobs of all submitters until *stop is true and a turn finds none; then it finishes those in the hand, and returns. pause may be
 * NULL. The seat stays. *stop is written by __atomic_store_n or as a C11 or C++11 atomic bool. */
MBJ_API void mbj_serve(struct mbj_seat *seat, const bool *stop, void (*pause)(void *), void *with) {
    bool is_last = false;
    while (!is_last) {
        bool is_stopped = __atomic_load_n(stop, __ATOMIC_ACQUIRE);
        if (mbj_c_turn(seat) == 0 && !mbj_c_settle(seat)) {
            is_last = is_stopped;
            mbj_pause_(pause, with);
        }
    }
}

#ifdef __cplusplus
}
#endif
#endif
