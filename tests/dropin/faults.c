/* faults OTHER DROPIN [DRAWN [SEED]]: gives two libraries right jobs of each algorithm in which one field was changed, and compares with
 * which status they come back and which error they leave. Then the same with drawn pairs of algorithms and up to three changes at once. */
#include "library.h"

#include <stddef.h>
#include <stdio.h>
#include <string.h>

struct algorithms {
    const char *name;
    IMB_CIPHER_MODE cipher;
    IMB_HASH_ALG hash;
    uint64_t iv_len, tag_len;
};

static const struct algorithms cases[] = {
    {"nothing", IMB_CIPHER_NULL, IMB_AUTH_NULL, 16, 16},
    {"CBC", IMB_CIPHER_CBC, IMB_AUTH_NULL, 16, 16},
    {"CTR", IMB_CIPHER_CNTR, IMB_AUTH_NULL, 16, 16},
    {"CTR in bits", IMB_CIPHER_CNTR_BITLEN, IMB_AUTH_NULL, 16, 16},
    {"GCM", IMB_CIPHER_GCM, IMB_AUTH_AES_GMAC, 12, 16},
    {"GCM in parts", IMB_CIPHER_GCM_SGL, IMB_AUTH_GCM_SGL, 12, 16},
    {"CCM", IMB_CIPHER_CCM, IMB_AUTH_AES_CCM, 13, 16},
    {"HMAC-SHA-1", IMB_CIPHER_NULL, IMB_AUTH_HMAC_SHA_1, 16, 12},
    {"HMAC-SHA-224", IMB_CIPHER_NULL, IMB_AUTH_HMAC_SHA_224, 16, 14},
    {"HMAC-SHA-256", IMB_CIPHER_NULL, IMB_AUTH_HMAC_SHA_256, 16, 16},
    {"HMAC-SHA-384", IMB_CIPHER_NULL, IMB_AUTH_HMAC_SHA_384, 16, 24},
    {"HMAC-SHA-512", IMB_CIPHER_NULL, IMB_AUTH_HMAC_SHA_512, 16, 32},
    {"SHA-1", IMB_CIPHER_NULL, IMB_AUTH_SHA_1, 16, 20},
    {"SHA-224", IMB_CIPHER_NULL, IMB_AUTH_SHA_224, 16, 28},
    {"SHA-256", IMB_CIPHER_NULL, IMB_AUTH_SHA_256, 16, 32},
    {"SHA-384", IMB_CIPHER_NULL, IMB_AUTH_SHA_384, 16, 48},
    {"SHA-512", IMB_CIPHER_NULL, IMB_AUTH_SHA_512, 16, 64},
    {"CMAC", IMB_CIPHER_NULL, IMB_AUTH_AES_CMAC, 16, 16},
    {"CMAC-256", IMB_CIPHER_NULL, IMB_AUTH_AES_CMAC_256, 16, 16},
    {"CMAC in bits", IMB_CIPHER_NULL, IMB_AUTH_AES_CMAC_BITLEN, 16, 4},
    {"GMAC-128", IMB_CIPHER_NULL, IMB_AUTH_AES_GMAC_128, 16, 16},
    {"GMAC-256", IMB_CIPHER_NULL, IMB_AUTH_AES_GMAC_256, 16, 16},
    {"own functions", IMB_CIPHER_CUSTOM, IMB_AUTH_CUSTOM, 16, 16},
};

static struct library libraries[2];
static unsigned compared, differing;

static uint8_t source[70000], destination[70000], aad[70000], tag[64];
static const uint8_t iv[64], key[32];

struct keys {
    DECLARE_ALIGNED(uint8_t encryption[240], 16);
    DECLARE_ALIGNED(uint8_t decryption[240], 16);
    DECLARE_ALIGNED(uint8_t subkeys[2][16], 16);
    DECLARE_ALIGNED(uint8_t states[2][64], 16);
    DECLARE_ALIGNED(struct gcm_key_data gcm, 64);
    struct gcm_context_data context;
};

static struct keys *keys[2];

static int succeed(IMB_JOB *job) {
    (void)job;
    return 0;
}

static int fail(IMB_JOB *job) {
    (void)job;
    return 1;
}

/* ---- a right job ---- */

static bool is_gcm(const struct algorithms *a) {
    return a->cipher == IMB_CIPHER_GCM || a->cipher == IMB_CIPHER_GCM_SGL;
}

static bool is_cmac(const struct algorithms *a) {
    return a->hash == IMB_AUTH_AES_CMAC || a->hash == IMB_AUTH_AES_CMAC_256 || a->hash == IMB_AUTH_AES_CMAC_BITLEN;
}

static bool is_gmac(const struct algorithms *a) {
    return a->hash == IMB_AUTH_AES_GMAC_128 || a->hash == IMB_AUTH_AES_GMAC_256;
}

static void fill_own(IMB_JOB *job, struct keys *k, const struct algorithms *a) {
    if (a->hash <= IMB_AUTH_HMAC_SHA_512) {
        job->u.HMAC._hashed_auth_key_xor_ipad = k->states[0];
        job->u.HMAC._hashed_auth_key_xor_opad = k->states[1];
    } else if (is_cmac(a)) {
        job->u.CMAC._key_expanded = k->encryption;
        job->u.CMAC._skey1 = k->subkeys[0];
        job->u.CMAC._skey2 = k->subkeys[1];
    } else if (is_gcm(a)) {
        job->u.GCM.aad = aad;
        job->u.GCM.aad_len_in_bytes = 16;
        job->u.GCM.ctx = &k->context;
    } else if (a->cipher == IMB_CIPHER_CCM) {
        job->u.CCM.aad = aad;
        job->u.CCM.aad_len_in_bytes = 16;
    } else if (is_gmac(a)) {
        job->u.GMAC._key = &k->gcm;
        job->u.GMAC._iv = iv;
        job->u.GMAC.iv_len_in_bytes = 12;
    }
}

static IMB_JOB right_job(struct keys *k, const struct algorithms *a, int dir) {
    IMB_JOB job;
    bool is_hash_first = (dir == IMB_DIR_DECRYPT) != (a->cipher == IMB_CIPHER_CCM);
    memset(&job, 0, sizeof job);
    job.cipher_mode = a->cipher;
    job.hash_alg = a->hash;
    job.cipher_direction = (IMB_CIPHER_DIRECTION)dir;
    job.chain_order = is_hash_first ? IMB_ORDER_HASH_CIPHER : IMB_ORDER_CIPHER_HASH;
    job.enc_keys = is_gcm(a) ? (const void *)&k->gcm : k->encryption;
    job.dec_keys = is_gcm(a) ? (const void *)&k->gcm : k->decryption;
    job.key_len_in_bytes = 16;
    job.src = source;
    job.dst = destination;
    job.msg_len_to_cipher_in_bytes = a->cipher == IMB_CIPHER_CNTR_BITLEN ? 512 : 64;
    job.msg_len_to_hash_in_bytes = a->hash == IMB_AUTH_AES_CMAC_BITLEN ? 512 : 64;
    job.iv = iv;
    job.iv_len_in_bytes = a->iv_len;
    job.auth_tag_output = tag;
    job.auth_tag_output_len_in_bytes = a->tag_len;
    job.cipher_func = job.hash_func = succeed;
    job.sgl_state = IMB_SGL_INIT;
    fill_own(&job, k, a);
    return job;
}

/* ---- a job that may be wrong ---- */

struct result {
    int status, error;
};

static struct result submit(struct library *library, const IMB_JOB *job) {
    IMB_MGR *m = library->m;
    *IMB_GET_NEXT_JOB(m) = *job;
    const IMB_JOB *back = IMB_SUBMIT_JOB(m);
    struct result result = {-1, library->error(m)};
    if (back == NULL)
        back = IMB_FLUSH_JOB(m);
    if (back != NULL)
        result.status = (int)back->status;
    return result;
}

static void compare(const struct algorithms *a, int dir, const char *field, uint64_t value, const IMB_JOB jobs[2]) {
    struct result results[2];
    for (int i = 0; i < 2; i++)
        results[i] = submit(&libraries[i], &jobs[i]);
    compared++;
    if ((results[0].status != results[1].status || results[0].error != results[1].error) && differing++ < 20)
        printf("%s, direction %d, %s = %lu: status %d and %d, error %d and %d\n", a->name, dir, field, value, results[0].status,
               results[1].status, results[0].error, results[1].error);
}

/* Right jobs of both libraries with each of these values in a field. */
#define CHANGE(field, ...)                                                                                                                 \
    do {                                                                                                                                   \
        static const uint64_t values[] = {__VA_ARGS__};                                                                                    \
        for (size_t k = 0; k < sizeof values / sizeof *values; k++) {                                                                      \
            IMB_JOB jobs[2];                                                                                                               \
            for (int i = 0; i < 2; i++) {                                                                                                  \
                jobs[i] = right_job(keys[i], a, dir);                                                                                      \
                jobs[i].field = (__typeof__(jobs[i].field))values[k];                                                                      \
            }                                                                                                                              \
            compare(a, dir, #field, values[k], jobs);                                                                                      \
        }                                                                                                                                  \
    } while (0)

static void change_lengths(const struct algorithms *a, int dir) {
    CHANGE(key_len_in_bytes, 0, 15, 16, 17, 24, 32);
    CHANGE(iv_len_in_bytes, 0, 1, 6, 7, 8, 11, 12, 13, 14, 15, 16, 17, 25);
    CHANGE(msg_len_to_cipher_in_bytes, 0, 1, 15, 16, 17, 65520, 65534, 65535, 65536);
    CHANGE(msg_len_to_hash_in_bytes, 0, 1, 16, 17, 65520, 65534, 65535, 65536);
    CHANGE(auth_tag_output_len_in_bytes, 0, 1, 3, 4, 5, 8, 12, 14, 16, 17, 20, 21, 24, 28, 32, 33, 48, 64, 65);
    CHANGE(cipher_start_src_offset_in_bytes, 0, 1, 16);
    CHANGE(hash_start_src_offset_in_bytes, 0, 1, 16);
}

/* intel-ipsec-mb 1.3 makes the context of GCM in parts from enc_keys in either direction, and this library from dec_keys to decipher: so
 * both are the same if they are drawn. */
static void change_places(const struct algorithms *a, int dir) {
    CHANGE(cipher_direction, 0, 3);
    CHANGE(chain_order, IMB_ORDER_CIPHER_HASH, IMB_ORDER_HASH_CIPHER);
    CHANGE(src, 0);
    CHANGE(dst, 0);
    CHANGE(iv, 0);
    CHANGE(auth_tag_output, 0);
    CHANGE(dec_keys, 0);
    if (a->cipher != IMB_CIPHER_GCM_SGL || dir == IMB_DIR_ENCRYPT)
        CHANGE(enc_keys, 0);
}

/* Codes that are none, or don't go with the other one. */
static void change_codes(const struct algorithms *a, int dir) {
    CHANGE(cipher_mode, 0, IMB_CIPHER_NULL, IMB_CIPHER_CBC, IMB_CIPHER_GCM, IMB_CIPHER_CCM, IMB_CIPHER_GCM_SGL, IMB_CIPHER_NUM, 99);
    CHANGE(hash_alg, 0, IMB_AUTH_NULL, IMB_AUTH_AES_GMAC, IMB_AUTH_NUM, 99);
}

static void change_own(const struct algorithms *a, int dir) {
    if (a->hash <= IMB_AUTH_HMAC_SHA_512) {
        CHANGE(u.HMAC._hashed_auth_key_xor_ipad, 0);
        CHANGE(u.HMAC._hashed_auth_key_xor_opad, 0);
    } else if (is_cmac(a)) {
        CHANGE(u.CMAC._key_expanded, 0);
        CHANGE(u.CMAC._skey1, 0);
        CHANGE(u.CMAC._skey2, 0);
    } else if (is_gcm(a)) {
        CHANGE(u.GCM.aad, 0);
        CHANGE(u.GCM.aad_len_in_bytes, 0, 65535, 65536);
        CHANGE(u.GCM.ctx, 0);
        CHANGE(sgl_state, IMB_SGL_UPDATE, IMB_SGL_COMPLETE);
    } else if (a->cipher == IMB_CIPHER_CCM) {
        CHANGE(u.CCM.aad, 0);
        CHANGE(u.CCM.aad_len_in_bytes, 0, 46, 47, 48);
    } else if (is_gmac(a)) {
        CHANGE(u.GMAC._key, 0);
        CHANGE(u.GMAC._iv, 0);
        CHANGE(u.GMAC.iv_len_in_bytes, 0, 1, 16, 60);
    }
}

/* The application's own functions: none, and one that fails. */
static void change_functions(const struct algorithms *a, int dir) {
    IMB_JOB jobs[2];
    for (int which = 0; which < 4; which++) {
        for (int i = 0; i < 2; i++) {
            jobs[i] = right_job(keys[i], a, dir);
            *(which < 2 ? &jobs[i].cipher_func : &jobs[i].hash_func) = which % 2 == 0 ? NULL : fail;
        }
        compare(a, dir, "a function", (uint64_t)which, jobs);
    }
}

/* ---- more than one thing that is wrong ---- */

struct change {
    size_t off, len;
    unsigned values;
    uint64_t value[12];
};

#define FIELD(field, n, ...) {offsetof(IMB_JOB, field), sizeof(((IMB_JOB *)0)->field), n, {__VA_ARGS__}}

static const struct change changes[] = {
    FIELD(cipher_direction, 4, 0, 1, 2, 3),
    FIELD(chain_order, 4, 0, 1, 2, 3),
    FIELD(key_len_in_bytes, 6, 0, 15, 16, 17, 24, 32),
    FIELD(iv_len_in_bytes, 9, 0, 6, 7, 12, 13, 14, 16, 17, 25),
    FIELD(msg_len_to_cipher_in_bytes, 8, 0, 1, 16, 17, 64, 65534, 65535, 65536),
    FIELD(msg_len_to_hash_in_bytes, 8, 0, 1, 16, 17, 64, 65534, 65535, 65536),
    FIELD(auth_tag_output_len_in_bytes, 11, 0, 1, 4, 5, 12, 16, 17, 20, 32, 64, 65),
    FIELD(cipher_start_src_offset_in_bytes, 2, 0, 1),
    FIELD(hash_start_src_offset_in_bytes, 2, 0, 1),
    FIELD(src, 1, 0),
    FIELD(dst, 1, 0),
    FIELD(iv, 1, 0),
    FIELD(auth_tag_output, 1, 0),
    FIELD(enc_keys, 1, 0),
    FIELD(dec_keys, 1, 0),
    FIELD(u.HMAC._hashed_auth_key_xor_ipad, 1, 0),
    FIELD(u.HMAC._hashed_auth_key_xor_opad, 1, 0),
    FIELD(u.CMAC._skey2, 1, 0),
    FIELD(u.GCM.ctx, 1, 0),
    FIELD(cipher_func, 1, 0),
    FIELD(hash_func, 1, 0),
};

static void draw_changes(IMB_JOB jobs[2]) {
    for (unsigned n = 1 + (unsigned)draw_below(3); n > 0; n--) {
        const struct change *change = &changes[draw_below(sizeof changes / sizeof *changes)];
        uint64_t value = change->value[draw_below(change->values)];
        for (int i = 0; i < 2; i++)
            memcpy((char *)&jobs[i] + change->off, &value, change->len);
    }
}

static bool has_own_functions(const struct algorithms *a) {
    return a->cipher == IMB_CIPHER_CUSTOM;
}

/* The cipher of one case, and the authentication of another one. Beside a function of the application's own, intel-ipsec-mb 1.3 submits a
 * job that waits for a lane again and again, and ends in memory that isn't there. */
static void compare_drawn(void) {
    const struct algorithms *one = &cases[draw_below(sizeof cases / sizeof *cases)];
    const struct algorithms *other = draw_below(2) == 0 ? one : &cases[draw_below(sizeof cases / sizeof *cases)];
    if (has_own_functions(one) || has_own_functions(other))
        other = one;
    struct algorithms both = {other->name, one->cipher, other->hash, one->iv_len, other->tag_len};
    int dir = draw_below(2) == 0 ? IMB_DIR_ENCRYPT : IMB_DIR_DECRYPT;
    IMB_JOB jobs[2];
    for (int i = 0; i < 2; i++)
        jobs[i] = right_job(keys[i], &both, dir);
    draw_changes(jobs);
    if (one->cipher == IMB_CIPHER_GCM_SGL)
        for (int i = 0; i < 2; i++)
            jobs[i].enc_keys = jobs[i].dec_keys;
    compare(&both, dir, one->name, 0, jobs);
}

int main(int argc, char **argv) {
    int drawn_ones = argc > 3 ? atoi(argv[3]) : 20000;
    if (argc < 3)
        return 2;
    start_drawing(argc > 4 ? strtoull(argv[4], NULL, 0) : 1);
    for (int i = 0; i < 2; i++) {
        load_library(&libraries[i], argv[1 + i]);
        if (posix_memalign((void **)&keys[i], 64, sizeof *keys[i]) != 0)
            return 2;
        memset(keys[i], 0, sizeof *keys[i]);
        IMB_AES_KEYEXP_256(libraries[i].m, key, keys[i]->encryption, keys[i]->decryption);
        IMB_AES256_GCM_PRE(libraries[i].m, key, &keys[i]->gcm);
    }
    for (size_t n = 0; n < sizeof cases / sizeof *cases; n++)
        for (int dir = IMB_DIR_ENCRYPT; dir <= IMB_DIR_DECRYPT; dir++) {
            change_lengths(&cases[n], dir);
            change_places(&cases[n], dir);
            change_codes(&cases[n], dir);
            change_own(&cases[n], dir);
            change_functions(&cases[n], dir);
        }
    for (int i = 0; i < drawn_ones; i++)
        compare_drawn();
    printf("%u jobs, %u differ\n", compared, differing);
    for (int i = 0; i < 2; i++) {
        libraries[i].release(libraries[i].m);
        free(keys[i]);
    }
    return differing != 0;
}
