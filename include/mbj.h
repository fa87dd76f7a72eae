/* Pulvezant's job manager, for C11 and C++17: the job interface that a user of intel-ipsec-mb knows. It is inline C over what the library
 * exports, and tested; the exports are proved. docs/C.md says how to build, what each pointer must stand for and until when, and what
 * differs. The other headers: mbj_codes.h has the limits and the codes, and mbj_fill.h sets all fields of a job by its suite (both are
 * included here), mbj_direct.h has calls without a manager, mbj_raw.h the exports for programs in other languages, and mbj_inline.h the
 * bodies of what is declared here.
 *
 *     MBJ_MGR *m = mbj_alloc_mgr();
 *     MBJ_JOB *job = mbj_get_next_job(m), *done;
 *     mbj_job_gcm(job, MBJ_DIR_ENCRYPT, key, 16, nonce, 12, aad, 8, packet, len, 0, len, packet, tag, 16);
 *     job->user_data = packet;
 *     done = mbj_submit_job(m);
 *     if (done == NULL && mbj_get_errno(m) != MBJ_ERR_NONE)
 *         puts(mbj_err_text(mbj_get_errno(m)));
 *     if (done == NULL)
 *         done = mbj_flush_job(m);
 *     if (done != NULL && done->status == MBJ_STATUS_COMPLETED)
 *         send_on(done->user_data, done->auth_tag_output);
 *     else if (done != NULL)
 *         puts(mbj_err_text(done->reason));
 *     mbj_free_mgr(m);
 *
 * One thread at a time uses a manager. Nothing here is called from a signal handler. In the child of a process that had threads when it
 * forked, no handle is used that was made before.
 *
 * The functions are static and inline. A C file that defines MBJ_API as nothing before it includes this header makes real symbols of them,
 * for a program in another language.
 */
#ifndef MBJ_H
#define MBJ_H

#include <stdbool.h>
#include <stddef.h>
#include <stdint.h>
#include <stdlib.h>
#include <string.h>

#include "mbj_codes.h"

/* The version of this header and of the library that it belongs to. For C it is defined only here: the Makefile reads it for the shared
 * library's name, for pkg-config and for CMake. The proved code has a number of its own; both are compared when a manager is made. A change
 * of a struct or of a code, or of what an export means, makes a new major number, and with it a new soname. */
#define MBJ_VERSION_MAJOR 1
#define MBJ_VERSION_MINOR 0
#define MBJ_VERSION_PATCH 0
#define MBJ_VERSION_NUM (MBJ_VERSION_MAJOR * 65536 + MBJ_VERSION_MINOR * 256 + MBJ_VERSION_PATCH)
#define MBJ_QUOTE_(number) #number
#define MBJ_VERSION_(major, minor, patch) MBJ_QUOTE_(major) "." MBJ_QUOTE_(minor) "." MBJ_QUOTE_(patch)
#define MBJ_VERSION_STR MBJ_VERSION_(MBJ_VERSION_MAJOR, MBJ_VERSION_MINOR, MBJ_VERSION_PATCH)

#ifndef MBJ_API
#define MBJ_API static inline
#endif

/* A call whose result tells whether it did anything, and one whose pointers are never NULL. */
#define MBJ_CHECKED __attribute__((warn_unused_result))
#define MBJ_NONNULL __attribute__((nonnull))

#ifdef __cplusplus
#define MBJ_ASSERT_(condition) static_assert(condition, #condition)
extern "C" {
#else
#define MBJ_ASSERT_(condition) _Static_assert(condition, #condition)
#endif

/* ---- jobs and managers ---- */

struct mbj_heap; /* of mbj_heap.h */

/* A manager, or none: MBJ_HANDLE_INIT at first, and then written by the exports alone. A handle may be moved, and never copied. */
struct mbj_handle {
    void *at;
};

#define MBJ_HANDLE_INIT {NULL}

/* A set of key sessions, or none: MBJ_KEYS_INIT at first, and then written by the exports alone. A handle may be moved, and never copied:
 * mbj_keys_share makes another one of the same set. No handle is in two calls at once, so each thread has its own. */
struct mbj_keys {
    void *at;
};

#define MBJ_KEYS_INIT {NULL}

/* Bytes that are read. at isn't NULL, even if len is 0. */
struct mbj_bytes {
    const uint8_t *at;
    size_t len;
};

/* Bytes that are written. at isn't NULL, even if len is 0, and no other bytes of the call overlap them. */
struct mbj_room {
    uint8_t *at;
    size_t len;
};

enum mbj_status {
    MBJ_STATUS_BEING_PROCESSED,
    MBJ_STATUS_COMPLETED,
    MBJ_STATUS_INVALID_ARGS, /* the job was refused, for the reason in its field */
    MBJ_STATUS_ERROR,        /* the job wasn't submitted: mbj_get_errno says why */
    MBJ_STATUS_WRONG_TAG     /* the job was done, its tag isn't expected_tag, and what it wrote to dst was cleared */
};

/* Which fields a job reads beside its codes, packet, user_data and session. All others are ignored.
 *
 *     cipher CBC          key 16, 24, 32   iv 16         cipher range, whole blocks of 16   dst
 *     cipher CNTR         key 16, 24, 32   iv 12, 16     cipher range, 1 byte or more       dst
 *     cipher GCM          key 16, 24, 32   iv 1 or more  cipher range   aad   dst   tag 1 to 16
 *     cipher CCM          key 16, 24, 32   iv 7 to 13    cipher range   aad   dst   tag 4, 6, .. 16
 *     HMAC                auth_key up to 1,024           hash range     tag 1 to the whole
 *     HMAC from states    auth_key, both states          hash range     tag 1 to the whole
 *     CMAC, CMAC_256      auth_key 16; 32                hash range     tag 1 to 16
 *     GMAC                auth_key 16, 24, 32   iv       hash range     tag 1 to 16
 *     SHA                                                hash range     tag 1 to the whole
 *
 * With a cipher and another authentication than that of GCM or CCM chain_order counts. A job with a tag may have expected_tag. */

/* A job. Its bytes and its keys are copied when it is submitted, and never written: all that it reads may be used anew then. What was
 * ciphered goes to dst and the tag to auth_tag_output when the job is given back, first the one and then the other. With expected_tag the
 * tag is compared first, in constant time: if it differs the status is MBJ_STATUS_WRONG_TAG and the reason MBJ_ERR_TAG, zeros are at
 * dst, and no tag is written. */
typedef struct mbj_job {
    uint32_t cipher_mode;      /* enum mbj_cipher; MBJ_CIPHER_UNSET in a blank job */
    uint32_t cipher_direction; /* enum mbj_dir */
    uint32_t chain_order;      /* enum mbj_order */
    uint32_t hash_alg;         /* enum mbj_auth; MBJ_AUTH_UNSET in a blank job */
    const uint8_t *key;        /* the cipher's, raw: 16, 24 or 32 bytes */
    size_t key_len_in_bytes;
    const uint8_t *iv; /* the cipher's or GMAC's; CCM's nonce */
    size_t iv_len_in_bytes;
    const uint8_t *auth_key; /* of HMAC, CMAC or GMAC, raw; or the stored states of HMAC */
    size_t auth_key_len_in_bytes;
    const uint8_t *aad; /* of GCM or CCM */
    size_t aad_len_in_bytes;
    const uint8_t *packet;
    size_t packet_len_in_bytes;
    uint8_t *dst; /* room for msg_len_to_cipher_in_bytes; packet + cipher_start_src_offset_in_bytes to cipher in place */
    uint64_t cipher_start_src_offset_in_bytes;
    uint64_t msg_len_to_cipher_in_bytes;
    uint64_t hash_start_src_offset_in_bytes;
    uint64_t msg_len_to_hash_in_bytes;
    uint8_t *auth_tag_output; /* may be NULL if expected_tag isn't */
    size_t auth_tag_output_len_in_bytes;
    void *user_data, *user_data2;
    enum mbj_status status;
    uint32_t reason;  /* enum mbj_err: why the job was refused */
    uint32_t session; /* of the set that the manager uses; MBJ_NO_SESSION in a blank job. No result depends on it */
    const uint8_t *expected_tag; /* the tag that came with the packet, auth_tag_output_len_in_bytes long; NULL if none is compared */
} MBJ_JOB;

/* Where the result of a submitted job goes, and the tag that is expected of it. */
struct mbj_slot {
    uint8_t *dst, *tag;
    size_t dst_len, tag_len;
    uint32_t reason;  /* one of the job interface's own, or 0 */
    bool is_expected; /* whether a tag is */
    uint8_t expected[MBJ_MAX_TAG_BYTES];
};

/* A manager and its jobs: those from first on, below next, are submitted and not given back, and as many as lent says, from next on, are
 * handed out and not submitted. */
typedef struct mbj_mgr {
    struct mbj_handle handle;
    const struct mbj_heap *heap; /* what its calls take memory from, or NULL for what the thread names */
    uint32_t first, next, error, lent;
    struct mbj_slot slots[MBJ_MAX_JOBS];
    MBJ_JOB jobs[MBJ_MAX_JOBS];
} MBJ_MGR;

/* ---- managers ---- */

/* Makes a manager in the caller's memory, which then stays where it is until mbj_end_mgr. Returns MBJ_ERR_NONE, or why there is no
 * manager: MBJ_ERR_NULL, MBJ_ERR_PROCESSOR, MBJ_ERR_VERSION or MBJ_ERR_MEMORY. A submission is then refused with MBJ_ERR_NO_MANAGER, and
 * mbj_end_mgr does nothing. */
MBJ_CHECKED MBJ_API mbj_err mbj_init_mgr(MBJ_MGR *m);

/* Which blocks of jobs that were given back a manager keeps for later ones, with zeros in them. */
enum mbj_keeping {
    MBJ_KEEPS_SHORT, /* those of at most 256 bytes, as one of mbj_init_mgr */
    MBJ_KEEPS_LONG,  /* those of at most 2,048, as one of mbj_init_mgr_keeping */
    MBJ_KEEPS_NONE
};

/* How a manager takes memory: from a heap of mbj_heap.h, or, if that is NULL, from the one that the thread names at each call. */
struct mbj_options {
    const struct mbj_heap *heap;
    uint32_t keeping; /* enum mbj_keeping */
};

/* Makes a manager as mbj_init_mgr does, with these options; NULL for the defaults, which are all zero. Returns MBJ_ERR_WORD if keeping
 * is none, and MBJ_ERR_HEAP if a heap is given and the program was linked with one of its own. The heap stays valid until its last block
 * is freed. */
MBJ_CHECKED MBJ_API mbj_err mbj_init_mgr_with(MBJ_MGR *m, const struct mbj_options *options);

/* Makes a manager as mbj_init_mgr does, which keeps more memory of jobs that were given back for later ones: blocks of at most 2,048 bytes,
 * if mbj_init_mgr's keeps those of at most 256. Then most jobs take no memory: see mbj_held_bytes and mbj_trim. */
MBJ_CHECKED MBJ_API mbj_err mbj_init_mgr_keeping(MBJ_MGR *m);

/* Frees what mbj_init_mgr took, and neither the caller's memory nor the bytes of jobs. NULL is left alone. */
MBJ_API void mbj_end_mgr(MBJ_MGR *m);

/* Makes a manager; NULL if malloc has no memory for it, or mbj_init_mgr would refuse. */
MBJ_CHECKED MBJ_API MBJ_MGR *mbj_alloc_mgr(void);

/* Frees a manager of mbj_alloc_mgr, and nothing of its jobs' bytes. NULL is left alone. */
MBJ_API void mbj_free_mgr(MBJ_MGR *m);

/* Has the manager use these key sessions from now on: a job that names one in its field session, and has its key, takes the session's
 * schedule if it needs one. Jobs that were submitted are done with their own key. Returns MBJ_ERR_NONE, MBJ_ERR_NO_MANAGER,
 * MBJ_ERR_NO_KEYS or MBJ_ERR_MEMORY. The manager keeps the set until it uses another one or ends; the handle may be freed before. */
MBJ_CHECKED MBJ_API mbj_err mbj_use_keys(MBJ_MGR *m, struct mbj_keys *keys);

/* How many bytes a manager keeps for later jobs: 0 if there is no manager. */
MBJ_API size_t mbj_held_bytes(MBJ_MGR *m);

/* Frees what the manager keeps for later jobs. Jobs that are submitted keep theirs. */
MBJ_API void mbj_trim(MBJ_MGR *m);

/* How many jobs are submitted and not given back. */
MBJ_API uint32_t mbj_queue_size(MBJ_MGR *m);

/* ---- single jobs ---- */

/* Hands out the next job: a blank one, or the first one that was handed out and isn't submitted yet. NULL with MBJ_ERR_FULL if
 * MBJ_MAX_JOBS jobs are submitted and not given back: unlike intel-ipsec-mb it doesn't flush one for you. */
MBJ_API MBJ_JOB *mbj_get_next_job(MBJ_MGR *m);

/* Submits the job that was handed out, the first one if there are several, and gives the earliest job back if that is finished: with
 * MBJ_STATUS_COMPLETED, or with MBJ_STATUS_INVALID_ARGS if it was refused. NULL with MBJ_ERR_NONE if none is finished. Any other
 * error says that no job was submitted: MBJ_ERR_NO_MANAGER, MBJ_ERR_NO_JOB if none was handed out, or MBJ_ERR_MEMORY, after which the
 * job may be submitted again. */
MBJ_CHECKED MBJ_API MBJ_JOB *mbj_submit_job(MBJ_MGR *m);

/* Gives the earliest job back if it is finished, and runs nothing; NULL if none is. */
MBJ_API MBJ_JOB *mbj_get_completed_job(MBJ_MGR *m);

/* Finishes the earliest job and gives it back; NULL if no job is submitted and not given back. */
MBJ_API MBJ_JOB *mbj_flush_job(MBJ_MGR *m);

/* Why the last call returned no job: MBJ_ERR_NONE if there was none to give, or the refusal. */
MBJ_API mbj_err mbj_get_errno(const MBJ_MGR *m);

/* ---- bursts ---- */

/* Hands out up to n jobs, to be submitted in their order, and returns how many: first those that were handed out and aren't submitted yet,
 * as they are, and then blank ones. They are fewer than n if fewer are left, and 0 with MBJ_ERR_FULL if MBJ_MAX_JOBS jobs are
 * submitted and not given back: unlike intel-ipsec-mb it doesn't flush for you. */
MBJ_API uint32_t mbj_get_next_burst(MBJ_MGR *m, uint32_t n, MBJ_JOB **jobs);

/* Submits n jobs as mbj_submit_job does, one after another: the first ones that mbj_get_next_burst handed out, in its order. Writes the
 * jobs that are given back to done, which has n places and may be jobs itself, and returns how many they are. With MBJ_ERR_NONE all n jobs
 * were submitted; one whose arguments are refused comes back in its place. With MBJ_ERR_NO_MANAGER, or with MBJ_ERR_NO_JOB if the jobs
 * aren't those, none was. With MBJ_ERR_MEMORY those with MBJ_STATUS_ERROR weren't: they stay handed out, and may be submitted again. If
 * two jobs are given back by one burst, nothing that is written for one overlaps what is written for the other. Up to 32 jobs are copied
 * before a result is written: no job of a burst reads what is written for a job that comes back by the same call. */
MBJ_CHECKED MBJ_API uint32_t mbj_submit_burst(MBJ_MGR *m, uint32_t n, MBJ_JOB *const *jobs, MBJ_JOB **done);

/* Gives back up to n jobs that are finished, as mbj_get_completed_job does, and returns how many. What is written for them doesn't
 * overlap. */
MBJ_API uint32_t mbj_get_completed_burst(MBJ_MGR *m, uint32_t n, MBJ_JOB **done);

/* Finishes and gives back up to n jobs, as mbj_flush_job does, and returns how many: fewer than n if no more are submitted and not given
 * back. What is written for them doesn't overlap. */
MBJ_API uint32_t mbj_flush_burst(MBJ_MGR *m, uint32_t n, MBJ_JOB **done);

/* ---- key sessions: keys of AES that many jobs share, on any threads, and that are expanded once for all of them ---- */

/* Makes a set of copies of these keys, numbered from 0: of at most MBJ_MAX_SESSIONS, each of 16, 24 or 32 bytes. Returns MBJ_ERR_NONE,
 * MBJ_ERR_HAS_KEYS, MBJ_ERR_MANY_KEYS, MBJ_ERR_KEY_LENGTH or MBJ_ERR_MEMORY. keys isn't NULL. */
MBJ_CHECKED MBJ_NONNULL
mbj_err mbj_keys_new(struct mbj_keys *made, const struct mbj_bytes *keys, size_t keys_len);

/* Empties the handle; false if it has no set. The set is freed with its last handle and the last manager that uses it. */
MBJ_NONNULL
bool mbj_keys_free(struct mbj_keys *keys);

/* Makes another handle of the same set. Returns MBJ_ERR_NONE, MBJ_ERR_NO_KEYS if from has none, MBJ_ERR_HAS_KEYS if to has one, or
 * MBJ_ERR_MEMORY. */
MBJ_CHECKED MBJ_NONNULL
mbj_err mbj_keys_share(struct mbj_keys *from, struct mbj_keys *to);

/* ---- tags and secrets ---- */

/* Whether two tags of so many bytes are the same, in a time that depends on the length alone. No manager is needed. */
MBJ_CHECKED MBJ_API bool mbj_is_same_tag(const void *one, const void *other, size_t len);

/* Fills so many bytes with zeros, which no compiler leaves out. */
MBJ_API void mbj_wipe(void *at, size_t len);

/* ---- texts ---- */

/* The library's version, what it was built for and by which toolchain, as text. That of this header is MBJ_VERSION_STR. */
MBJ_API const char *mbj_version_text(void);

/* An error as text: why a call or a job was refused. */
MBJ_API const char *mbj_err_text(uint32_t err);

#ifdef __cplusplus
}
#endif

#include "mbj_inline.h"

#include "mbj_fill.h"
#endif
