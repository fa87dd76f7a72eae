/* Calls of intel-ipsec-mb 1.3 that 2.0 doesn't declare, and what it does in its own way. */
#include "absent.h"
#include "check.h"
#include "keys.h"
#include "manager.h"
#include "selftest.h"
#include "version.h"

uint64_t version_features(void) {
    return 0;
}

int check_gcm_in_parts(const struct cipher *cipher, const IMB_JOB *job, bool is_checked) {
    (void)is_checked;
    return check_gcm(cipher, job);
}

/* A segment has what a direct call of it would need. */
static int check_segment(const struct IMB_SGL_IOV *segment) {
    if (segment->len != 0 && segment->out == NULL)
        return IMB_ERR_JOB_NULL_DST;
    if (segment->len != 0 && segment->in == NULL)
        return IMB_ERR_JOB_NULL_SRC;
    return segment->len > MOST_GCM_BYTES ? IMB_ERR_JOB_CIPH_LEN : 0;
}

int check_segments_behind(const IMB_JOB *job) {
    uint64_t left = MOST_GCM_BYTES;
    if (job->sgl_io_segs == NULL && job->num_sgl_io_segs != 0)
        return IMB_ERR_JOB_NULL_SRC;
    for (uint64_t i = 0; i < job->num_sgl_io_segs; i++) {
        int error = check_segment(&job->sgl_io_segs[i]);
        if (error != 0)
            return error;
        if (job->sgl_io_segs[i].len > left)
            return IMB_ERR_JOB_CIPH_LEN;
        left -= job->sgl_io_segs[i].len;
    }
    return 0;
}

/* A key that has none of the shorter lengths is taken for the longest one. CCM has no key of 24 bytes. */
uint64_t key_len_as_taken(const struct cipher *cipher, uint64_t len) {
    uint64_t shorter = cipher->kind == CIPHER_CCM ? 16 : 24;
    return len > shorter && len < LONGEST_KEY ? LONGEST_KEY : len;
}

int check_in_burst(const IMB_JOB *job) {
    (void)job;
    return 0;
}

bool passes_at_set_up(const IMB_MGR *m) {
    (void)m;
    return has_passed_selftest();
}

void keep_architecture(IMB_MGR *m) {
    (void)m;
}

void set_version_functions(IMB_MGR *m) {
    (void)m;
}

IMB_DLL_EXPORT void init_mb_mgr_avx(IMB_MGR *m) {
    set_up_manager(m, IMB_ARCH_AVX, IMB_CPUFLAGS_AVX);
}

#define HASH(arch, name)                                                                                                                   \
    IMB_DLL_EXPORT void name##_##arch(const void *text, const uint64_t len, void *digest) {                                                \
        name##_digest(text, len, digest);                                                                                                  \
    }                                                                                                                                      \
    IMB_DLL_EXPORT void name##_one_block_##arch(const void *block, void *state) {                                                          \
        name##_state(block, state);                                                                                                        \
    }

#define HASHES(arch)                                                                                                                       \
    HASH(arch, sha1)                                                                                                                       \
    HASH(arch, sha224)                                                                                                                     \
    HASH(arch, sha256)                                                                                                                     \
    HASH(arch, sha384)                                                                                                                     \
    HASH(arch, sha512)
COMPAT_ARCHITECTURES(HASHES)

#define ABSENT(arch)                                                                                                                       \
    IMB_DLL_EXPORT void aes_cfb_128_one_##arch(void *out, const void *in, const void *iv, const void *keys, uint64_t len) {                \
        (void)out, (void)in, (void)iv, (void)keys, (void)len;                                                                              \
        absent_result("aes_cfb_128_one_" #arch);                                                                                           \
    }
COMPAT_ARCHITECTURES(ABSENT)
