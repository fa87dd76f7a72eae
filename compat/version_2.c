/* Calls of intel-ipsec-mb 2.0 that 1.3 hasn't, but for that of QUIC, and what it does in its own way. What each call refuses, and with
 * which error, is as its library does it. */
#include "version.h"
#include "absent.h"
#include "check.h"
#include "errors.h"
#include "keys.h"
#include "ring.h"
#include "selftest.h"

#include <cpuid.h>
#include <stdatomic.h>
#include <sys/random.h>

uint64_t version_features(void) {
    unsigned eax, ebx, ecx = 0, edx;
    (void)__get_cpuid(1, &eax, &ebx, &ecx, &edx);
    return ((ecx & bit_XSAVE) != 0 ? IMB_FEATURE_XSAVE : 0) | ((ecx & bit_OSXSAVE) != 0 ? IMB_FEATURE_OSXSAVE : 0);
}

/* ---- jobs ---- */

static int check_segments(const IMB_JOB *job) {
    uint64_t left = MOST_GCM_BYTES;
    bool is_long = false;
    if (job->sgl_io_segs == NULL && job->num_sgl_io_segs != 0)
        return IMB_ERR_JOB_NULL_SRC;
    for (uint64_t i = 0; i < job->num_sgl_io_segs; i++) {
        const struct IMB_SGL_IOV *segment = &job->sgl_io_segs[i];
        if (segment->len != 0 && segment->in == NULL)
            return IMB_ERR_JOB_NULL_SRC;
        if (segment->len != 0 && segment->out == NULL)
            return IMB_ERR_JOB_NULL_DST;
        is_long = is_long || segment->len > left;
        left -= is_long ? 0 : segment->len;
    }
    return is_long ? IMB_ERR_JOB_CIPH_LEN : 0;
}

int check_gcm_in_parts(const struct cipher *cipher, const IMB_JOB *job, bool is_checked) {
    if ((unsigned)job->hash_alg != cipher->partner)
        return IMB_ERR_HASH_ALGO;
    int error = check_key(cipher, job);
    if (error == 0)
        error = job->iv == NULL ? IMB_ERR_JOB_NULL_IV : check_iv_len_of_gcm(job);
    if (error != 0)
        return error;
    if (has_segments(job))
        return is_checked && job->sgl_state != IMB_SGL_ALL ? IMB_ERR_JOB_SGL_STATE : check_segments(job);
    return job->msg_len_to_cipher_in_bytes > MOST_GCM_BYTES ? IMB_ERR_JOB_CIPH_LEN : check_text_of_aead(job);
}

int check_segments_behind(const IMB_JOB *job) {
    (void)job;
    return 0;
}

/* A length is taken for the next one that has whole words of 8 bytes. By CCM that isn't CCM if the key isn't the longest. */
uint64_t key_len_as_taken(const struct cipher *cipher, uint64_t len) {
    uint64_t least = cipher->kind == CIPHER_CCM ? 25 : 9;
    return len >= least && len <= LONGEST_KEY ? (len + 7) / 8 * 8 : len;
}

/* ---- architectures ---- */

void keep_architecture(IMB_MGR *m) {
    m->used_arch_type = 1;
}

IMB_DLL_EXPORT int imb_get_arch_type_string(const IMB_MGR *m, const char **arch_type, const char **description) {
    static const struct {
        const char *name, *features;
    } texts[IMB_ARCH_NUM] = {
        [IMB_ARCH_SSE] = {"SSE Type 1", "CPU ISA: AES, PCLMUL, SSE"},
        [IMB_ARCH_AVX2] = {"AVX2 Type 1", "CPU ISA: AES, PCLMUL, SSE, AVX, AVX2"},
        [IMB_ARCH_AVX512] = {"AVX512 Type 1", "CPU ISA: AES, PCLMUL, SSE, AVX, AVX2, AVX512"},
    };
    if (m == NULL)
        return IMB_ERR_NULL_MBMGR;
    if (arch_type == NULL)
        return EINVAL;
    bool is_set_up = m->used_arch < IMB_ARCH_NUM && texts[m->used_arch].name != NULL;
    *arch_type = is_set_up ? texts[m->used_arch].name : "Invalid arch type";
    if (is_set_up && description != NULL)
        *description = texts[m->used_arch].features;
    return 0;
}

/* ---- sessions ---- */

static bool has_direction_and_key(const struct cipher *cipher) {
    return cipher->kind != CIPHER_NONE && cipher->kind != CIPHER_CUSTOM && cipher->kind != CIPHER_ABSENT;
}

static bool is_key_length(const struct cipher *cipher, uint64_t len) {
    return !has_direction_and_key(cipher) || len == 16 || len == 32 || (len == 24 && cipher->kind != CIPHER_CCM);
}

/* Whether a number is one of a cipher or an authentication, which begin at 1. */
static bool is_code(unsigned number, unsigned behind_last) {
    return number != 0 && number < behind_last;
}

/* Why no session can be of these algorithms, or 0. Those that aren't here have sessions, with keys of any length: a program makes them before
 * it has a job, and their jobs are refused. */
static int error_of_suite(const IMB_JOB *job) {
    const struct cipher *cipher = cipher_of(job);
    const struct hash *hash = hash_of(job);
    bool is_hash_of_aead = hash->kind == HASH_OF_GCM || hash->kind == HASH_OF_CCM;
    if (cipher->kind != CIPHER_NONE && job->cipher_direction != IMB_DIR_ENCRYPT && job->cipher_direction != IMB_DIR_DECRYPT)
        return IMB_ERR_JOB_CIPH_DIR;
    if (!is_code(job->cipher_mode, IMB_CIPHER_NUM))
        return IMB_ERR_CIPH_MODE;
    if (!is_key_length(cipher, job->key_len_in_bytes))
        return IMB_ERR_JOB_KEY_LEN;
    if (!is_code(job->hash_alg, IMB_AUTH_NUM) || (cipher->partner != 0 && (unsigned)job->hash_alg != cipher->partner))
        return IMB_ERR_HASH_ALGO;
    return is_hash_of_aead && cipher->partner == 0 ? IMB_ERR_CIPH_MODE : 0;
}

/* The suite of a job's algorithms, which are known. It has no 0 in front: so a job that was never given one has another. */
struct suite {
    uint32_t cipher, hash;
};

static struct suite suite_of(const IMB_JOB *job) {
    uint32_t cipher = (uint32_t)job->cipher_mode << 16;
    if (has_direction_and_key(cipher_of(job)))
        cipher |= (uint32_t)job->cipher_direction << 8 | (uint32_t)job->key_len_in_bytes;
    return (struct suite){cipher, (uint32_t)job->hash_alg};
}

int check_in_burst(const IMB_JOB *job) {
    struct suite suite = suite_of(job);
    return job->suite_id[0] == suite.cipher && job->suite_id[1] == suite.hash ? 0 : IMB_ERR_BURST_SUITE_ID;
}

static void set_suite(IMB_MGR *m, IMB_JOB *job) {
    (void)m;
    struct suite suite = suite_of(job);
    job->suite_id[0] = suite.cipher;
    job->suite_id[1] = suite.hash;
}

/* The sessions of two processes that share a manager are told apart by where their numbers start. */
static atomic_uint last_session;

__attribute__((constructor)) static void start_sessions(void) {
    unsigned start = 0;
    if (getrandom(&start, sizeof start, GRND_NONBLOCK) == (ssize_t)sizeof start)
        atomic_store(&last_session, start);
}

static uint32_t next_session(void) {
    uint32_t number = atomic_fetch_add(&last_session, 1) + 1;
    return number != 0 ? number : next_session();
}

IMB_DLL_EXPORT uint32_t imb_set_session(IMB_MGR *m, IMB_JOB *job) {
    if (dropin_of(m) == NULL)
        return 0;
    int error = job == NULL ? IMB_ERR_NULL_JOB : error_of_suite(job);
    if (error != 0) {
        set_error(m, error);
        return 0;
    }
    set_suite(m, job);
    job->session_id = next_session();
    return job->session_id;
}

/* ---- states of HMAC ---- */

static bool has_states(IMB_HASH_ALG alg) {
    return alg >= IMB_AUTH_HMAC_SHA_1 && alg <= IMB_AUTH_HMAC_SHA_512;
}

static const uint32_t hash_of_hmac[] = {
    [IMB_AUTH_HMAC_SHA_1] = MBJ_HASH_SHA_1,     [IMB_AUTH_HMAC_SHA_224] = MBJ_HASH_SHA_224, [IMB_AUTH_HMAC_SHA_256] = MBJ_HASH_SHA_256,
    [IMB_AUTH_HMAC_SHA_384] = MBJ_HASH_SHA_384, [IMB_AUTH_HMAC_SHA_512] = MBJ_HASH_SHA_512,
};

/* Without a place for one of the states the other one is put alone. HMAC of MD5 and of SM3 is absent. */
IMB_DLL_EXPORT void imb_hmac_ipad_opad(IMB_MGR *m, const IMB_HASH_ALG alg, const void *key, const size_t len, void *inner, void *outer) {
    if (dropin_of(m) == NULL)
        return;
    if (key == NULL)
        set_error(m, IMB_ERR_NULL_KEY);
    else if (has_states(alg))
        direct_error(error_of_refusal(put_hmac_states(hash_of_hmac[alg], key, len, inner, outer)));
    else if (alg == IMB_AUTH_MD5 || alg == IMB_AUTH_HMAC_SM3)
        absent_key();
    else
        direct_error(IMB_ERR_HASH_ALGO);
}

/* ---- bursts ---- */

/* The jobs that fill the lanes of the proved code, in either build (docs/LANES.md). */
enum { LANES_OF_WORDS = 16, LANES_OF_LONG_WORDS = 8, LANES_OF_AES = 32 };

/* Writes the size, if there is a place for it, and returns this error if it is 0. */
static int put_size(const IMB_MGR *m, unsigned *place, unsigned size, int error_of_none) {
    if (m == NULL || place == NULL)
        return m == NULL ? IMB_ERR_NULL_MBMGR : IMB_ERR_NULL_BURST;
    *place = size;
    return size == 0 ? error_of_none : 0;
}

IMB_DLL_EXPORT int imb_hash_burst_get_size(const IMB_MGR *m, const IMB_HASH_ALG alg, unsigned *size) {
    bool is_long = alg == IMB_AUTH_HMAC_SHA_384 || alg == IMB_AUTH_HMAC_SHA_512 || alg == IMB_AUTH_SHA_384 || alg == IMB_AUTH_SHA_512;
    bool is_cmac = alg == IMB_AUTH_AES_CMAC || alg == IMB_AUTH_AES_CMAC_BITLEN || alg == IMB_AUTH_AES_CMAC_256;
    unsigned lanes = is_cmac ? LANES_OF_AES : is_long ? LANES_OF_LONG_WORDS : LANES_OF_WORDS;
    return put_size(m, size, COMPAT_IS_BURST_HASH(alg) ? lanes : 0, IMB_ERR_HASH_ALGO);
}

IMB_DLL_EXPORT int imb_cipher_burst_get_size(const IMB_MGR *m, const IMB_CIPHER_MODE cipher, unsigned *size) {
    return put_size(m, size, cipher == IMB_CIPHER_CBC ? LANES_OF_AES : cipher == IMB_CIPHER_CNTR ? 1 : 0, IMB_ERR_CIPH_MODE);
}

IMB_DLL_EXPORT int imb_aead_burst_get_size(const IMB_MGR *m, const IMB_CIPHER_MODE cipher, unsigned *size) {
    return put_size(m, size, cipher == IMB_CIPHER_CCM ? LANES_OF_AES : 0, IMB_ERR_CIPH_MODE);
}

static uint32_t submit_aead_burst(IMB_MGR *m, IMB_JOB *jobs, const uint32_t n, const IMB_CIPHER_MODE cipher, const IMB_CIPHER_DIRECTION dir,
                                  const IMB_KEY_SIZE_BYTES key_len) {
    return aead_burst(m, jobs, n, cipher, dir, key_len, true);
}

static uint32_t submit_unchecked_aead_burst(IMB_MGR *m, IMB_JOB *jobs, const uint32_t n, const IMB_CIPHER_MODE cipher,
                                            const IMB_CIPHER_DIRECTION dir, const IMB_KEY_SIZE_BYTES key_len) {
    return aead_burst(m, jobs, n, cipher, dir, key_len, false);
}

/* ---- known answers ---- */

IMB_DLL_EXPORT int imb_self_test_set_cb(IMB_MGR *m, imb_self_test_cb_t function, void *argument) {
    if (m == NULL)
        return IMB_ERR_NULL_MBMGR;
    m->self_test_cb_fn = function;
    m->self_test_cb_arg = argument;
    return 0;
}

IMB_DLL_EXPORT int imb_self_test_get_cb(IMB_MGR *m, imb_self_test_cb_t *function, void **argument) {
    if (m == NULL)
        return IMB_ERR_NULL_MBMGR;
    if (function == NULL || argument == NULL)
        return EINVAL;
    *function = m->self_test_cb_fn;
    *argument = m->self_test_cb_arg;
    return 0;
}

/* With a function to tell, all are tried again, as one test. None is given wrong data on purpose: there is no phase CORRUPT. */
bool passes_at_set_up(const IMB_MGR *m) {
    IMB_SELF_TEST_CALLBACK_DATA start = {IMB_SELF_TEST_PHASE_START, "KAT", "all algorithms"};
    if (m->self_test_cb_fn == NULL)
        return has_passed_selftest();
    (void)m->self_test_cb_fn(m->self_test_cb_arg, &start);
    bool passes = passes_selftest();
    IMB_SELF_TEST_CALLBACK_DATA end = {passes ? IMB_SELF_TEST_PHASE_PASS : IMB_SELF_TEST_PHASE_FAIL, NULL, NULL};
    (void)m->self_test_cb_fn(m->self_test_cb_arg, &end);
    return passes;
}

/* ---- absent ---- */

IMB_DLL_EXPORT void des_cfb_one(void *out, const void *in, const uint64_t *iv, const uint64_t *schedule, const int len) {
    (void)out, (void)in, (void)iv, (void)schedule, (void)len;
    absent_result("des_cfb_one");
}

IMB_DLL_EXPORT void imb_quic_hp_aes_ecb(IMB_MGR *m, const void *keys, void *dst[], const void *const src[], const uint64_t n,
                                        const IMB_KEY_SIZE_BYTES key_len) {
    (void)m, (void)keys, (void)dst, (void)src, (void)n, (void)key_len;
    absent_result("imb_quic_hp_aes_ecb");
}

IMB_DLL_EXPORT void imb_quic_chacha20_poly1305(IMB_MGR *m, const void *key, const IMB_CIPHER_DIRECTION dir, void *dst[],
                                               const void *const src[], const uint64_t lens[], const void *const ivs[],
                                               const void *const aads[], const uint64_t aad_len, void *tags[], const uint64_t n) {
    (void)m, (void)key, (void)dir, (void)dst, (void)src, (void)lens, (void)ivs, (void)aads, (void)aad_len, (void)tags, (void)n;
    absent_result("imb_quic_chacha20_poly1305");
}

IMB_DLL_EXPORT void imb_quic_hp_chacha20(IMB_MGR *m, const void *key, void *dst[], const void *const src[], const uint64_t n) {
    (void)m, (void)key, (void)dst, (void)src, (void)n;
    absent_result("imb_quic_hp_chacha20");
}

IMB_DLL_EXPORT void imb_sm4_gcm_pre(IMB_MGR *m, const void *key, struct gcm_key_data *data) {
    (void)m, (void)key, (void)data;
    absent_key();
}

/* ---- the table ---- */

void set_version_functions(IMB_MGR *m) {
    m->set_suite_id = set_suite;
    m->sm4_keyexp = (__typeof__(m->sm4_keyexp))(void (*)(void))absent_key;
    m->submit_aead_burst = submit_aead_burst;
    m->submit_aead_burst_nocheck = submit_unchecked_aead_burst;
}
