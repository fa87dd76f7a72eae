/* A library that does what Intel's does, and spoils one result: it stands between the checker and Intel's library. The environment says
 * what is spoilt: FAULT_LIBRARY is the path of Intel's library, FAULT_CALL the kind of call, FAULT_WHERE text, tag or status, FAULT_CIPHER
 * and FAULT_HASH the algorithms of a job. With FAULT_STAYS each such result is spoilt, not the first one alone. */
#define NO_COMPAT_IMB_API_053
#include <dlfcn.h>
#include <intel-ipsec-mb.h>
#include <stdbool.h>
#include <stddef.h>
#include <stdio.h>
#include <stdlib.h>
#include <string.h>

enum { MOST_TEXT = 5000 };

extern void *forward_slots[];
extern const char forward_names[];
extern const uint32_t forward_all;

static void *real;
static struct {
    const char *call, *where;
    int cipher, hash;
    bool stays, is_done;
} fault;

/* What Intel's library put into a table: the functions alone. */
enum { FUNCTIONS_FROM = offsetof(IMB_MGR, get_next_job), FUNCTIONS_TO = offsetof(IMB_MGR, earliest_job) };
static IMB_MGR table;

static bool is_asked(const char *call, const char *where) {
    if (fault.is_done || strcmp(fault.call, call) != 0 || strcmp(fault.where, where) != 0)
        return false;
    fault.is_done = !fault.stays;
    return true;
}

static void flip(void *at, size_t len) {
    ((uint8_t *)at)[len / 2] ^= 4;
}

/* ---- jobs ---- */

static size_t text_len(const IMB_JOB *job) {
    if (job->cipher_mode == IMB_CIPHER_NULL)
        return 0;
    return job->cipher_mode == IMB_CIPHER_CNTR_BITLEN ? job->msg_len_to_cipher_in_bits / 8 : job->msg_len_to_cipher_in_bytes;
}

static void spoil_job(IMB_JOB *job, int cipher, int hash, const char *call) {
    bool is_short = text_len(job) < MOST_TEXT && (hash == IMB_AUTH_NULL || job->msg_len_to_hash_in_bytes < MOST_TEXT);
    if (job->status != IMB_STATUS_COMPLETED || cipher != fault.cipher || hash != fault.hash || !is_short)
        return;
    if (text_len(job) != 0 && is_asked(call, "text"))
        flip(job->dst, text_len(job));
    if (job->auth_tag_output_len_in_bytes != 0 && is_asked(call, "tag"))
        flip(job->auth_tag_output, job->auth_tag_output_len_in_bytes);
    if (is_asked(call, "status"))
        job->status = IMB_STATUS_INVALID_ARGS;
}

static IMB_JOB *spoilt(IMB_JOB *job) {
    if (job != NULL)
        spoil_job(job, (int)job->cipher_mode, (int)job->hash_alg, "job");
    return job;
}

static IMB_JOB *submit_job(IMB_MGR *m) {
    return spoilt(table.submit_job(m));
}

static IMB_JOB *submit_job_nocheck(IMB_MGR *m) {
    return spoilt(table.submit_job_nocheck(m));
}

static IMB_JOB *get_completed_job(IMB_MGR *m) {
    return spoilt(table.get_completed_job(m));
}

static IMB_JOB *flush_job(IMB_MGR *m) {
    return spoilt(table.flush_job(m));
}

static uint32_t spoilt_burst(IMB_JOB **jobs, uint32_t n) {
    for (uint32_t i = 0; i < n; i++)
        spoilt(jobs[i]);
    return n;
}

static uint32_t submit_burst(IMB_MGR *m, const uint32_t n, IMB_JOB **jobs) {
    return spoilt_burst(jobs, table.submit_burst(m, n, jobs));
}

static uint32_t submit_burst_nocheck(IMB_MGR *m, const uint32_t n, IMB_JOB **jobs) {
    return spoilt_burst(jobs, table.submit_burst_nocheck(m, n, jobs));
}

static uint32_t flush_burst(IMB_MGR *m, const uint32_t n, IMB_JOB **jobs) {
    return spoilt_burst(jobs, table.flush_burst(m, n, jobs));
}

static uint32_t spoilt_array(IMB_JOB *jobs, uint32_t n, int cipher, int hash) {
    for (uint32_t i = 0; i < n; i++) {
        IMB_JOB *job = &jobs[i];
        IMB_CIPHER_MODE told = job->cipher_mode;
        job->cipher_mode = (IMB_CIPHER_MODE)cipher;
        spoil_job(job, cipher, hash, "array");
        job->cipher_mode = told;
    }
    return n;
}

#define CIPHERS(name)                                                                                                                      \
    static uint32_t name(IMB_MGR *m, IMB_JOB *jobs, const uint32_t n, const IMB_CIPHER_MODE cipher, const IMB_CIPHER_DIRECTION dir,         \
                         const IMB_KEY_SIZE_BYTES len) {                                                                                   \
        return spoilt_array(jobs, table.name(m, jobs, n, cipher, dir, len), (int)cipher, IMB_AUTH_NULL);                                    \
    }
#define HASHES(name)                                                                                                                       \
    static uint32_t name(IMB_MGR *m, IMB_JOB *jobs, const uint32_t n, const IMB_HASH_ALG hash) {                                           \
        return spoilt_array(jobs, table.name(m, jobs, n, hash), IMB_CIPHER_NULL, (int)hash);                                               \
    }
CIPHERS(submit_cipher_burst)
CIPHERS(submit_cipher_burst_nocheck)
HASHES(submit_hash_burst)
HASHES(submit_hash_burst_nocheck)

/* ---- direct calls ---- */

#define WHOLE(name)                                                                                                                        \
    static void name(const struct gcm_key_data *key, struct gcm_context_data *context, uint8_t *out, uint8_t const *in, uint64_t len,      \
                     const uint8_t *iv, uint8_t const *aad, uint64_t aad_len, uint8_t *tag, uint64_t tag_len) {                            \
        table.name(key, context, out, in, len, iv, aad, aad_len, tag, tag_len);                                                            \
        if (len != 0 && is_asked(#name, "text"))                                                                                           \
            flip(out, len);                                                                                                                \
        if (is_asked(#name, "tag"))                                                                                                        \
            flip(tag, tag_len);                                                                                                            \
    }
#define PART(name)                                                                                                                         \
    static void name(const struct gcm_key_data *key, struct gcm_context_data *context, uint8_t *out, const uint8_t *in, uint64_t len) {    \
        table.name(key, context, out, in, len);                                                                                            \
        if (len != 0 && is_asked(#name, "text"))                                                                                           \
            flip(out, len);                                                                                                                \
    }
#define END(name)                                                                                                                          \
    static void name(const struct gcm_key_data *key, struct gcm_context_data *context, uint8_t *tag, const uint64_t tag_len) {             \
        table.name(key, context, tag, tag_len);                                                                                            \
        if (is_asked(#name, "tag"))                                                                                                        \
            flip(tag, tag_len);                                                                                                            \
    }
#define EXPAND(name)                                                                                                                       \
    static void name(const void *key, void *first, void *second) {                                                                         \
        table.name(key, first, second);                                                                                                    \
        if (is_asked(#name, "text"))                                                                                                       \
            flip(second, IMB_AES_BLOCK_SIZE);                                                                                              \
    }
#define BLOCK(name)                                                                                                                        \
    static void name(const void *block, void *state) {                                                                                     \
        table.name(block, state);                                                                                                          \
        if (is_asked(#name, "text"))                                                                                                       \
            flip(state, 20);                                                                                                               \
    }
#define DIGEST(name)                                                                                                                       \
    static void name(const void *text, const uint64_t len, void *digest) {                                                                 \
        table.name(text, len, digest);                                                                                                     \
        if (is_asked(#name, "text"))                                                                                                       \
            flip(digest, 20);                                                                                                              \
    }
#define DIRECT(WHOLE_, PART_, END_, EXPAND_, BLOCK_, DIGEST_)                                                                              \
    WHOLE_(gcm128_enc) WHOLE_(gcm192_enc) WHOLE_(gcm256_enc) WHOLE_(gcm128_dec) WHOLE_(gcm192_dec) WHOLE_(gcm256_dec)                      \
    PART_(gcm128_enc_update) PART_(gcm192_enc_update) PART_(gcm256_enc_update)                                                             \
    PART_(gcm128_dec_update) PART_(gcm192_dec_update) PART_(gcm256_dec_update)                                                             \
    END_(gcm128_enc_finalize) END_(gcm192_enc_finalize) END_(gcm256_enc_finalize)                                                          \
    END_(gcm128_dec_finalize) END_(gcm192_dec_finalize) END_(gcm256_dec_finalize)                                                          \
    END_(gmac128_finalize) END_(gmac192_finalize) END_(gmac256_finalize)                                                                   \
    EXPAND_(keyexp_128) EXPAND_(keyexp_192) EXPAND_(keyexp_256) EXPAND_(cmac_subkey_gen_128) EXPAND_(cmac_subkey_gen_256)                  \
    BLOCK_(sha1_one_block) BLOCK_(sha224_one_block) BLOCK_(sha256_one_block) BLOCK_(sha384_one_block) BLOCK_(sha512_one_block)             \
    DIGEST_(sha1) DIGEST_(sha224) DIGEST_(sha256) DIGEST_(sha384) DIGEST_(sha512)
DIRECT(WHOLE, PART, END, EXPAND, BLOCK, DIGEST)

/* ---- managers ---- */

#define SET(name) m->name = name;

static void spoil_table(IMB_MGR *m) {
    memcpy((char *)&table + FUNCTIONS_FROM, (char *)m + FUNCTIONS_FROM, FUNCTIONS_TO - FUNCTIONS_FROM);
    SET(submit_job)
    SET(submit_job_nocheck)
    SET(get_completed_job)
    SET(flush_job)
    SET(submit_burst)
    SET(submit_burst_nocheck)
    SET(flush_burst)
    SET(submit_cipher_burst)
    SET(submit_cipher_burst_nocheck)
    SET(submit_hash_burst)
    SET(submit_hash_burst_nocheck)
    DIRECT(SET, SET, SET, SET, SET, SET)
}

#define INIT(arch)                                                                                                                         \
    IMB_DLL_EXPORT void init_mb_mgr_##arch(IMB_MGR *m) {                                                                                   \
        void (*init)(IMB_MGR *);                                                                                                           \
        *(void **)&init = dlsym(real, "init_mb_mgr_" #arch);                                                                               \
        init(m);                                                                                                                           \
        spoil_table(m);                                                                                                                    \
    }
INIT(sse)
INIT(avx)
INIT(avx2)
INIT(avx512)

IMB_DLL_EXPORT void init_mb_mgr_auto(IMB_MGR *m, IMB_ARCH *arch) {
    void (*init)(IMB_MGR *, IMB_ARCH *);
    *(void **)&init = dlsym(real, "init_mb_mgr_auto");
    init(m, arch);
    spoil_table(m);
}

static const char *setting(const char *name, const char *otherwise) {
    const char *value = getenv(name);
    return value != NULL ? value : otherwise;
}

__attribute__((constructor)) static void start(void) {
    const char *name = forward_names;
    real = dlopen(setting("FAULT_LIBRARY", ""), RTLD_NOW | RTLD_LOCAL | RTLD_DEEPBIND);
    if (real == NULL) {
        fprintf(stderr, "%s\n", dlerror());
        exit(2);
    }
    for (uint32_t i = 0; i < forward_all; i++, name += strlen(name) + 1)
        forward_slots[i] = dlsym(real, name);
    fault.call = setting("FAULT_CALL", "");
    fault.where = setting("FAULT_WHERE", "");
    fault.cipher = atoi(setting("FAULT_CIPHER", "0"));
    fault.hash = atoi(setting("FAULT_HASH", "0"));
    fault.stays = getenv("FAULT_STAYS") != NULL;
}
