/* What the library exports of managers and jobs, for programs in other languages, and for mbj_inline.h. It is proved but for two functions
 * that tell of the build and two that choose a heap. No pointer is NULL. Codes, errors and bytes are those of mbj.h, which is included
 * first and includes this. */
#include "mbj.h"

#ifndef MBJ_RAW_H
#define MBJ_RAW_H

#ifdef __cplusplus
extern "C" {
#endif

/* The kinds of work that is done in lanes. HMAC-SHA-224 goes with SHA-256, and SHA-384 with SHA-512. A hash without a key goes with the
 * HMAC of that hash. */
enum mbj_kind {
    MBJ_KIND_CBC_128,
    MBJ_KIND_CBC_192,
    MBJ_KIND_CBC_256,
    MBJ_KIND_CMAC_128,
    MBJ_KIND_CMAC_256,
    MBJ_KIND_HMAC_SHA_1,
    MBJ_KIND_HMAC_SHA_256,
    MBJ_KIND_HMAC_SHA_512,
    MBJ_KIND_CCM_128,
    MBJ_KIND_CCM_192,
    MBJ_KIND_CCM_256,
    MBJ_KINDS
};

/* A job: cipher, dir, order and auth are numbers of the enums above. What the cipher and the authentication don't use is ignored. Ranges
 * are in bytes. */
struct mbj_raw_job {
    uint32_t cipher, dir, order, auth;
    struct mbj_bytes key, iv, auth_key, aad, packet;
    uint64_t cipher_off, cipher_len, hash_off, hash_len;
    uint8_t tag_len;
    uint32_t session; /* beside the key, which decides: a session of the set that the manager uses, or MBJ_NO_SESSION */
};

/* Where a result goes: room for the bytes that were ciphered, and 64 bytes of room for its tag. The rest is written with it: the lengths
 * of both, status 0 for a job that was done and 1 for one that was refused, and its reason, MBJ_REASON_NONE to MBJ_REASON_TAG_LENGTH. No
 * bytes are given back of a job without a cipher, or of one that was refused. */
struct mbj_raw_done {
    struct mbj_room dst, tag;
    size_t dst_len;
    uint32_t tag_len, status, reason;
};

/* What is counted of the lanes of a kind: the rounds and the blocks of its full runs, the runs of all kinds within flushes, each
 * modulo 2^64; and how many of its jobs wait. */
struct mbj_counts {
    uint64_t rounds, blocks, flush_runs;
    uint32_t waiting;
};

/* What is returned of a burst of calls that may give results back: how many of the calls weren't refused, how many results were given, and
 * MBJ_ERR_NONE or the refusal of the last call. */
struct mbj_raw_burst {
    size_t made, given;
    uint32_t refusal;
};

/* The name of a feature that the library was built for and this processor lacks, or NULL if it has them all. Only then may the proved
 * exports be called: the job interface asks before it makes a manager, and a program that calls them itself asks too. This function and the
 * next one aren't proved. */
const char *mbj_c_missing_feature(void);

/* The library's version, the processors that it was built for, and the line of the toolchain that proved it, as text. */
const char *mbj_c_build_text(void);

/* The version of the library, to be compared with MBJ_VERSION_NUM. A later library works with this header too, as long as the major number,
 * the bits above the lower 16, is the same. */
uint32_t mbj_c_version(void);

/* Makes a manager, and returns MBJ_ERR_NONE, MBJ_ERR_HAS_MANAGER or MBJ_ERR_MEMORY. */
MBJ_CHECKED MBJ_NONNULL
mbj_err mbj_c_new(struct mbj_handle *handle);

/* The same, and its cells keep more of the memory of a job's bytes once the job is given back: at most 2,048 bytes each, not 256, for key,
 * IV, authentication key, additional data and packet. Longer memory is freed. */
MBJ_CHECKED MBJ_NONNULL
mbj_err mbj_c_new_keeping(struct mbj_handle *handle);

/* The same, and its cells keep no memory. */
MBJ_CHECKED MBJ_NONNULL
mbj_err mbj_c_new_keeping_none(struct mbj_handle *handle);

/* How many bytes the cells keep that have no job; 0 if there is no manager. */
MBJ_NONNULL
size_t mbj_c_held_bytes(struct mbj_handle *handle);

/* Frees what those cells keep. */
MBJ_NONNULL
void mbj_c_trim(struct mbj_handle *handle);

/* Frees the manager with its jobs; false if there is none. */
MBJ_NONNULL
bool mbj_c_free(struct mbj_handle *handle);

/* How many jobs are submitted and not given back; 0 if there is no manager. */
MBJ_NONNULL
uint32_t mbj_c_queue_size(struct mbj_handle *handle);

/* Tells the counts of a kind; false if there is no manager or no such kind, and nothing is written then. */
MBJ_NONNULL
bool mbj_c_count(struct mbj_handle *handle, uint32_t kind, struct mbj_counts *counts);

/* Copies a job into the next cell, in place of one that was filled and not submitted, and returns MBJ_ERR_NONE, MBJ_ERR_NO_MANAGER,
 * MBJ_ERR_FULL, MBJ_ERR_WORD or MBJ_ERR_MEMORY. Of the calls on a manager only this one, its burst, mbj_c_submit_job, mbj_c_new,
 * mbj_c_new_keeping, mbj_c_new_keeping_none and mbj_c_use_keys take memory. */
MBJ_CHECKED MBJ_NONNULL
mbj_err mbj_c_fill(struct mbj_handle *handle, const struct mbj_raw_job *job);

/* The three calls that may give the earliest job's result: true if one is given, which is written whole; else false, and only
 * refusal is written: MBJ_ERR_NONE, MBJ_ERR_NO_MANAGER, MBJ_ERR_NO_ROOM or, from mbj_c_submit, MBJ_ERR_NO_JOB. There must be room
 * for the result that comes next, also while it isn't finished. */
MBJ_NONNULL
bool mbj_c_submit(struct mbj_handle *handle, struct mbj_raw_done *done, uint32_t *refusal);
MBJ_NONNULL
bool mbj_c_get_completed(struct mbj_handle *handle, struct mbj_raw_done *done, uint32_t *refusal);
MBJ_NONNULL
bool mbj_c_flush(struct mbj_handle *handle, struct mbj_raw_done *done, uint32_t *refusal);

/* Makes mbj_c_fill with the job, and, if that isn't refused, mbj_c_submit: it returns and writes what that does, and else false and the
 * refusal of mbj_c_fill. After MBJ_ERR_NO_ROOM the job is filled and not submitted. No byte that done has room for may be one that the job
 * points to; if they meet, make the two calls. */
MBJ_NONNULL
bool mbj_c_submit_job(struct mbj_handle *handle, const struct mbj_raw_job *job, struct mbj_raw_done *done, uint32_t *refusal);

/* Bursts: what several single calls do, one after another, by one call. No array is at NULL, even if it has no element.
 *
 * Copies jobs into the next cells, one behind another, the first one in place of a job that was filled and not submitted. Returns how many
 * are filled, and writes to each job's place in refusals what mbj_c_fill returns, MBJ_ERR_FULL if no cell is left behind those that the
 * burst filled. A job that is refused takes no cell, and the jobs behind it are filled. Only the first refusals_len jobs are looked at
 * if jobs_len is more. This call takes memory as mbj_c_fill does. */
MBJ_NONNULL
uint32_t mbj_c_fill_burst(struct mbj_handle *into, const struct mbj_raw_job *jobs, size_t jobs_len, uint32_t *refusals, size_t refusals_len);

/* Makes the single call of the name as many times as there are rooms. The results that are given go to the rooms in order, and the rooms
 * behind them stay as they were. Each call needs room for the result that comes next, as a single one does. No two rooms of a burst
 * overlap. */
MBJ_NONNULL
void mbj_c_submit_burst(struct mbj_handle *handle, struct mbj_raw_done *rooms, size_t rooms_len, struct mbj_raw_burst *burst);
MBJ_NONNULL
void mbj_c_get_completed_burst(struct mbj_handle *handle, struct mbj_raw_done *rooms, size_t rooms_len, struct mbj_raw_burst *burst);
MBJ_NONNULL
void mbj_c_flush_burst(struct mbj_handle *handle, struct mbj_raw_done *rooms, size_t rooms_len, struct mbj_raw_burst *burst);

/* Has the manager use the set from now on, in place of the one that it used. A key that no manager of the set has expanded is expanded now,
 * so this call takes memory, and a submission takes none for it. Returns MBJ_ERR_NONE, MBJ_ERR_NO_MANAGER, MBJ_ERR_NO_KEYS or
 * MBJ_ERR_MEMORY. */
MBJ_CHECKED MBJ_NONNULL
mbj_err mbj_c_use_keys(struct mbj_handle *handle, struct mbj_keys *keys);

/* 1 if both have the same bytes, 0 if they differ, as tags of two lengths do. All bytes are looked at if the lengths are equal,
 * and no branch depends on one. */
MBJ_CHECKED
uint32_t mbj_c_is_same_tag(struct mbj_bytes one, struct mbj_bytes other);

/* Fills the room with zeros. */
void mbj_c_wipe(struct mbj_room room);

/* Names the heap that this thread's next calls take memory from, NULL for malloc, and returns the one that was named before. A block goes
 * back to the heap that it came from, whatever is named. If the program was linked with a heap of its own, nothing is asked of heaps
 * that are named: mbj_c_has_heaps is false then. These two functions aren't proved. */
const struct mbj_heap *mbj_c_name_heap(const struct mbj_heap *heap);
bool mbj_c_has_heaps(void);

/* The library was built for this layout. */
MBJ_ASSERT_(sizeof(void *) == 8 && sizeof(size_t) == 8 && sizeof(bool) == 1);
MBJ_ASSERT_(sizeof(struct mbj_handle) == 8 && sizeof(struct mbj_keys) == 8);
MBJ_ASSERT_(sizeof(struct mbj_bytes) == 16 && offsetof(struct mbj_bytes, len) == 8);
MBJ_ASSERT_(sizeof(struct mbj_room) == 16 && offsetof(struct mbj_room, len) == 8);
MBJ_ASSERT_(sizeof(struct mbj_raw_job) == 136 && offsetof(struct mbj_raw_job, key) == 16);
MBJ_ASSERT_(offsetof(struct mbj_raw_job, cipher_off) == 96 && offsetof(struct mbj_raw_job, tag_len) == 128);
MBJ_ASSERT_(offsetof(struct mbj_raw_job, session) == 132);
MBJ_ASSERT_(sizeof(struct mbj_raw_done) == 56 && offsetof(struct mbj_raw_done, dst_len) == 32);
MBJ_ASSERT_(offsetof(struct mbj_raw_done, tag_len) == 40 && offsetof(struct mbj_raw_done, reason) == 48);
MBJ_ASSERT_(sizeof(struct mbj_counts) == 32 && offsetof(struct mbj_counts, waiting) == 24);
MBJ_ASSERT_(sizeof(struct mbj_raw_burst) == 24 && offsetof(struct mbj_raw_burst, refusal) == 16);

#ifdef __cplusplus
}
#endif
#endif
