/* Managers: made in the application's memory, set up and freed. */
#include "manager.h"
#include "absent.h"
#include "errors.h"
#include "gcm.h"
#include "queue.h"
#include "ring.h"
#include "selftest.h"
#include "version.h"

#include <string.h>

/* What a manager's memory holds: the IMB_MGR, what stands behind it, and a pool, from which the proved manager takes all that it needs. The
 * pool has room for that manager and for 256 jobs of 1,500 bytes; what doesn't fit is taken from the process's heap until the job is given
 * back. */
enum { LINE = 64, POOL_BYTES = 3 << 19 };

#define DROPIN_MARK UINT64_C(0x6d626a2064726f70)

static size_t lines(size_t len) {
    return (len + LINE - 1) / LINE * LINE;
}

static struct dropin *behind(IMB_MGR *m) {
    return (struct dropin *)(void *)((char *)m + lines(sizeof *m));
}

IMB_MGR *manager_of(struct dropin *d) {
    return (IMB_MGR *)(void *)((char *)d - lines(sizeof(IMB_MGR)));
}

static void *pool_memory(struct dropin *d) {
    return (char *)d + lines(sizeof *d);
}

IMB_DLL_EXPORT size_t imb_get_mb_mgr_size(void) {
    return lines(sizeof(IMB_MGR)) + lines(sizeof(struct dropin)) + POOL_BYTES;
}

struct dropin *dropin_of(IMB_MGR *m) {
    bool is_made = m != NULL && m->aes128_ooo == behind(m) && behind(m)->mark == DROPIN_MARK;
    set_error(m, is_made ? 0 : IMB_ERR_NULL_MBMGR);
    return is_made ? behind(m) : NULL;
}

/* ---- what the library and the processor have ---- */

IMB_DLL_EXPORT const char *imb_get_version_str(void) {
    return IMB_VERSION_STR;
}

IMB_DLL_EXPORT unsigned imb_get_version(void) {
    return IMB_VERSION_NUM;
}

#define HAS(name, feature) (__builtin_cpu_supports(name) ? feature : 0)

IMB_DLL_EXPORT uint64_t imb_get_feature_flags(void) {
    __builtin_cpu_init();
    return IMB_FEATURE_CMOV | IMB_FEATURE_SAFE_PARAM | HAS("aes", IMB_FEATURE_AESNI) | HAS("pclmul", IMB_FEATURE_PCLMULQDQ) |
           HAS("sse4.2", IMB_FEATURE_SSE4_2) | HAS("avx", IMB_FEATURE_AVX) | HAS("avx2", IMB_FEATURE_AVX2) | HAS("bmi2", IMB_FEATURE_BMI2) |
           HAS("avx512f", IMB_FEATURE_AVX512F) | HAS("avx512dq", IMB_FEATURE_AVX512DQ) | HAS("avx512cd", IMB_FEATURE_AVX512CD) |
           HAS("avx512bw", IMB_FEATURE_AVX512BW) | HAS("avx512vl", IMB_FEATURE_AVX512VL) | version_features();
}

/* ---- making ---- */

static void set_functions(IMB_MGR *m) {
    set_absent_functions(m);
    set_job_functions(m);
    set_burst_functions(m);
    set_key_functions(m);
    set_gcm_functions(m);
    set_gmac_functions(m);
    set_version_functions(m);
}

/* The pointers to the managers of the algorithms, by the header from aes128_ooo to end_ooo. */
static void set_pointers(IMB_MGR *m) {
    for (void **pointer = &m->aes128_ooo; pointer <= &m->end_ooo; pointer++)
        *pointer = behind(m);
}

/* The proved manager keeps no memory of jobs that are back: a program frees the memory of a manager without a call, and what had been taken
 * from the process's heap and kept would be lost. */
static uint32_t make(struct dropin *d) {
    memset(d, 0, offsetof(struct dropin, gathered));
    d->pool = mbj_pool_make(pool_memory(d), POOL_BYTES, true);
    mbj_pool_wipe(d->pool);
    (void)mbj_pool_name(d->pool);
    uint32_t refusal = proved.mbj_c_new_keeping_none(&d->handle);
    if (refusal == MBJ_ERR_NONE)
        d->mark = DROPIN_MARK;
    return refusal;
}

/* Without a reset the manager is one that another process made in the same memory: only the addresses of functions are set anew. Those of a
 * manager that was never set up are NULL, as with intel-ipsec-mb 1.3. */
IMB_DLL_EXPORT IMB_MGR *imb_set_pointers_mb_mgr(void *memory, const uint64_t flags, const unsigned reset) {
    IMB_MGR *m = memory;
    if (m == NULL || (flags & COMPAT_REFUSED_FLAGS) != 0) {
        set_error(m, m == NULL ? ENOMEM : COMPAT_REFUSED_FLAGS_ERROR);
        return NULL;
    }
    if (reset != 0) {
        memset(m, 0, sizeof *m);
        uint32_t refusal = make(behind(m));
        if (refusal != MBJ_ERR_NONE) {
            set_error(NULL, error_of_refusal(refusal));
            return NULL;
        }
        m->earliest_job = -1;
    }
    set_error(m, 0);
    m->flags = flags;
    m->features = imb_get_feature_flags();
    set_pointers(m);
    if (m->used_arch != IMB_ARCH_NONE) {
        m->features |= selftest_features(has_passed_selftest());
        set_functions(m);
    }
    return m;
}

IMB_DLL_EXPORT IMB_MGR *alloc_mb_mgr(uint64_t flags) {
    void *memory = aligned_alloc(LINE, imb_get_mb_mgr_size());
    if (memory == NULL) {
        set_error(NULL, ENOMEM);
        return NULL;
    }
    memset(memory, 0, sizeof(IMB_MGR));
    IMB_MGR *m = imb_set_pointers_mb_mgr(memory, flags, 1);
    if (m == NULL)
        free(memory);
    return m;
}

/* The keys that were given don't stay in memory that is freed: the pool wipes what it took from the process's heap. */
IMB_DLL_EXPORT void free_mb_mgr(IMB_MGR *m) {
    if (m == NULL)
        return;
    if (dropin_of(m) != NULL)
        proved.mbj_c_free(&behind(m)->handle);
    wipe(m, imb_get_mb_mgr_size());
    free(m);
}

/* ---- setting up ---- */

/* What is out isn't given back, and nothing is written for it: its bytes may be gone. */
static uint32_t forget_jobs(struct dropin *d) {
    uint32_t refusal = MBJ_ERR_NONE;
    if (queue_len(&d->ring) != 0) {
        (void)mbj_pool_name(d->pool);
        proved.mbj_c_free(&d->handle);
        refusal = proved.mbj_c_new_keeping_none(&d->handle);
        wipe(d->found, sizeof d->found);
    }
    queue_empty(&d->ring);
    queue_empty(&d->burst);
    return refusal;
}

void set_up_manager(IMB_MGR *m, IMB_ARCH arch, uint64_t wanted) {
    struct dropin *d = dropin_of(m);
    if (d == NULL)
        return;
    if ((m->features & wanted) != wanted) {
        set_error(m, IMB_ERR_MISSING_CPUFLAGS_INIT_MGR);
        return;
    }
    int error = error_of_refusal(forget_jobs(d));
    bool has_passed = passes_at_set_up(m);
    set_error(m, error == 0 && !has_passed ? IMB_ERR_SELFTEST : error);
    set_functions(m);
    m->features = (m->features & ~IMB_FEATURE_SELF_TEST_PASS) | selftest_features(has_passed);
    m->used_arch = arch;
    keep_architecture(m);
    m->earliest_job = -1;
    m->next_job = 0;
}

IMB_DLL_EXPORT void init_mb_mgr_sse(IMB_MGR *m) {
    set_up_manager(m, IMB_ARCH_SSE, IMB_CPUFLAGS_SSE);
}

IMB_DLL_EXPORT void init_mb_mgr_avx2(IMB_MGR *m) {
    set_up_manager(m, IMB_ARCH_AVX2, IMB_CPUFLAGS_AVX2);
}

IMB_DLL_EXPORT void init_mb_mgr_avx512(IMB_MGR *m) {
    set_up_manager(m, IMB_ARCH_AVX512, IMB_CPUFLAGS_AVX512);
}

/* AVX2 is the most that a build is for. Without a manager nothing is written, as by intel-ipsec-mb 1.3. */
IMB_DLL_EXPORT void init_mb_mgr_auto(IMB_MGR *m, IMB_ARCH *arch) {
    IMB_ARCH best = (imb_get_feature_flags() & IMB_CPUFLAGS_AVX2) == IMB_CPUFLAGS_AVX2 ? IMB_ARCH_AVX2 : IMB_ARCH_SSE;
    set_up_manager(m, best, 0);
    if (arch != NULL && m != NULL)
        *arch = m->imb_errno == 0 || m->imb_errno == IMB_ERR_SELFTEST ? best : IMB_ARCH_NONE;
}
