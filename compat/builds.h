/* The proved code, of which the drop-in holds up to two builds: one for each x86-64-v2, and one for AVX2. The Makefile gives the exports of
 * each build an ending of their own, and keeps all its other names local. All calls go by `proved`, which is the build that this processor
 * runs. */
#ifndef COMPAT_BUILDS_H
#define COMPAT_BUILDS_H

#include "mbj_direct.h"
#include "mbj_raw.h"
#include "mbj_selftest.h"

/* The exports of mbj.h that the drop-in calls, and the known answers, of which each build has its own. */
#define COMPAT_EXPORTS(EXPORT)                                                                                                             \
    EXPORT(mbj_c_missing_feature)                                                                                                          \
    EXPORT(mbj_c_new_keeping_none)                                                                                                         \
    EXPORT(mbj_c_free)                                                                                                                     \
    EXPORT(mbj_c_fill)                                                                                                                     \
    EXPORT(mbj_c_submit)                                                                                                                   \
    EXPORT(mbj_c_get_completed)                                                                                                            \
    EXPORT(mbj_c_flush)                                                                                                                    \
    EXPORT(mbj_c_fill_burst)                                                                                                               \
    EXPORT(mbj_c_submit_burst)                                                                                                             \
    EXPORT(mbj_c_get_completed_burst)                                                                                                      \
    EXPORT(mbj_c_flush_burst)                                                                                                              \
    EXPORT(mbj_one_block)                                                                                                                  \
    EXPORT(mbj_hmac_states)                                                                                                                \
    EXPORT(mbj_digest)                                                                                                                     \
    EXPORT(mbj_aes_keys)                                                                                                                   \
    EXPORT(mbj_cmac_subkeys)                                                                                                               \
    EXPORT(mbj_gcm_seal)                                                                                                                   \
    EXPORT(mbj_gcm_decrypt_unverified)                                                                                                     \
    EXPORT(mbj_gcm_init)                                                                                                                   \
    EXPORT(mbj_gcm_update)                                                                                                                 \
    EXPORT(mbj_gcm_finish)                                                                                                                 \
    EXPORT(mbj_gmac_init)                                                                                                                  \
    EXPORT(mbj_gmac_update)                                                                                                                \
    EXPORT(mbj_gmac_finish)                                                                                                                \
    EXPORT(mbj_selftest)

#define COMPAT_FIELD(name) __typeof__(&name) name;

struct build {
    COMPAT_EXPORTS(COMPAT_FIELD)
};

/* It is set when the library is loaded, and never changed. If the processor runs no build, each call is refused with
 * MBJ_ERR_PROCESSOR and writes nothing. */
extern struct build proved;

/* When the library is loaded a build is chosen first, and then its known answers are tried. */
enum { COMPAT_FIRST = 101, COMPAT_SECOND };

/* Whether the processor runs a build. */
bool has_build(void);

/* A local of a function that calls the proved code. Its vectors of 32 bytes lie on the stack from where the caller's frame ends: so that
 * they don't cross cache lines the frame is aligned, which is some 10 % of the time of CBC and CTR by AVX2. */
#define COMPAT_ALIGNED_FRAME _Alignas(64)

/* Bytes that are read or written, as the exports want them: not at NULL, also if there are none. */
extern uint8_t nowhere[1];

static inline struct mbj_bytes bytes_at(const void *at, size_t len) {
    bool is_some = at != NULL && len != 0;
    return (struct mbj_bytes){is_some ? (const uint8_t *)at : nowhere, is_some ? len : 0};
}

static inline struct mbj_room room_at(void *at, size_t len) {
    bool is_some = at != NULL && len != 0;
    return (struct mbj_room){is_some ? (uint8_t *)at : nowhere, is_some ? len : 0};
}

#endif
