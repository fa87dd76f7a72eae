/* Calls that the header declares by name too, with an architecture at the end. All architectures do the same: what runs is the build that
 * the processor was found to run when the library was loaded. gcm_calls.c has those of GCM. */
#include "keys.h"
#include "ring.h"

#define JOBS(arch)                                                                                                                         \
    IMB_DLL_EXPORT IMB_JOB *get_next_job_##arch(IMB_MGR *m) {                                                                              \
        return next_job(m);                                                                                                                \
    }                                                                                                                                      \
    IMB_DLL_EXPORT IMB_JOB *submit_job_##arch(IMB_MGR *m) {                                                                                \
        return submit_checked(m);                                                                                                          \
    }                                                                                                                                      \
    IMB_DLL_EXPORT IMB_JOB *submit_job_nocheck_##arch(IMB_MGR *m) {                                                                        \
        return submit_unchecked(m);                                                                                                        \
    }                                                                                                                                      \
    IMB_DLL_EXPORT IMB_JOB *get_completed_job_##arch(IMB_MGR *m) {                                                                         \
        return completed_job(m);                                                                                                           \
    }                                                                                                                                      \
    IMB_DLL_EXPORT IMB_JOB *flush_job_##arch(IMB_MGR *m) {                                                                                 \
        return flushed_job(m);                                                                                                             \
    }                                                                                                                                      \
    IMB_DLL_EXPORT uint32_t queue_size_##arch(IMB_MGR *m) {                                                                                \
        return jobs_out(m);                                                                                                                \
    }

#define KEY_SIZE(arch, bits)                                                                                                               \
    IMB_DLL_EXPORT void aes_keyexp_##bits##_##arch(const void *key, void *encryption, void *decryption) {                                  \
        expand_##bits(key, encryption, decryption);                                                                                        \
    }                                                                                                                                      \
    IMB_DLL_EXPORT void aes_keyexp_##bits##_enc_##arch(const void *key, void *encryption) {                                                \
        expand_for_encryption_##bits(key, encryption);                                                                                     \
    }

#define KEYS(arch)                                                                                                                         \
    KEY_SIZE(arch, 128)                                                                                                                    \
    KEY_SIZE(arch, 192)                                                                                                                    \
    KEY_SIZE(arch, 256)                                                                                                                    \
    IMB_DLL_EXPORT void aes_cmac_subkey_gen_##arch(const void *schedule, void *first, void *second) {                                      \
        cmac_subkeys_128(schedule, first, second);                                                                                         \
    }

COMPAT_ARCHITECTURES(JOBS)
COMPAT_KEY_ARCHITECTURES(KEYS)
