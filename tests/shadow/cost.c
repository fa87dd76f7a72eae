/* cost INTEL CHECKER [TURNS]: nanoseconds a job takes over Intel's library and over the checker, by turns in one run: the median over the
 * turns of each, and of their differences. Both have managers for AVX2. The environment says what the checker samples. */
#include "counted.h"

#include <dlfcn.h>
#include <stdio.h>
#include <string.h>
#include <time.h>

enum { PLACES = 512, MOST_LEN = 1504, KINDS = 7, MOST_TURNS = 1001, JOBS = 2000 };

struct kind {
    const char *name;
    IMB_CIPHER_MODE cipher;
    IMB_HASH_ALG hash;
    size_t len, tag_len;
};

static const struct kind kinds[KINDS] = {
    {"no cipher, no authentication", IMB_CIPHER_NULL, IMB_AUTH_NULL, 64, 0},
    {"SHA-1, 64 bytes", IMB_CIPHER_NULL, IMB_AUTH_SHA_1, 64, 20},
    {"CTR, 64 bytes", IMB_CIPHER_CNTR, IMB_AUTH_NULL, 64, 0},
    {"GCM, 64 bytes", IMB_CIPHER_GCM, IMB_AUTH_AES_GMAC, 64, 16},
    {"CBC with HMAC-SHA-1, 64 bytes", IMB_CIPHER_CBC, IMB_AUTH_HMAC_SHA_1, 64, 12},
    {"CBC with HMAC-SHA-1, 1,488 bytes", IMB_CIPHER_CBC, IMB_AUTH_HMAC_SHA_1, 1488, 12},
    {"GCM, 1,488 bytes", IMB_CIPHER_GCM, IMB_AUTH_AES_GMAC, 1488, 16},
};

struct side {
    struct library library;
    DECLARE_ALIGNED(uint8_t encryption[240], 64);
    DECLARE_ALIGNED(uint8_t decryption[240], 64);
    DECLARE_ALIGNED(uint8_t states[2][20], 64);
    DECLARE_ALIGNED(struct gcm_key_data gcm, 64);
};

static struct side *sides[2];
static DECLARE_ALIGNED(uint8_t text[PLACES][MOST_LEN + 32], 64);
static uint8_t tags[PLACES][32], iv[16];

static double now(void) {
    struct timespec time;
    clock_gettime(CLOCK_MONOTONIC, &time);
    return (double)time.tv_sec * 1e9 + (double)time.tv_nsec;
}

static void fill(IMB_JOB *job, const struct side *side, const struct kind *kind, int i) {
    bool is_gcm = kind->cipher == IMB_CIPHER_GCM;
    job->cipher_mode = kind->cipher;
    job->hash_alg = kind->hash;
    job->cipher_direction = IMB_DIR_ENCRYPT;
    job->chain_order = IMB_ORDER_CIPHER_HASH;
    job->src = job->dst = text[i % PLACES];
    job->cipher_start_src_offset_in_bytes = job->hash_start_src_offset_in_bytes = 0;
    job->msg_len_to_cipher_in_bytes = job->msg_len_to_hash_in_bytes = kind->len;
    job->iv = iv;
    job->iv_len_in_bytes = is_gcm ? 12 : 16;
    job->enc_keys = is_gcm ? (const void *)&side->gcm : side->encryption;
    job->dec_keys = is_gcm ? (const void *)&side->gcm : side->decryption;
    job->key_len_in_bytes = 16;
    job->auth_tag_output = tags[i % PLACES];
    job->auth_tag_output_len_in_bytes = kind->tag_len;
    if (is_gcm) {
        job->u.GCM.aad = iv;
        job->u.GCM.aad_len_in_bytes = 12;
    } else {
        job->u.HMAC._hashed_auth_key_xor_ipad = side->states[0];
        job->u.HMAC._hashed_auth_key_xor_opad = side->states[1];
    }
}

static double time_of(const struct side *side, const struct kind *kind) {
    IMB_MGR *m = side->library.m;
    double start = now();
    for (int i = 0; i < JOBS; i++) {
        fill(IMB_GET_NEXT_JOB(m), side, kind, i);
        for (IMB_JOB *job = IMB_SUBMIT_JOB(m); job != NULL; job = IMB_GET_COMPLETED_JOB(m))
            continue;
    }
    while (IMB_FLUSH_JOB(m) != NULL)
        continue;
    return (now() - start) / JOBS;
}

static void init_for_avx2(struct library *library) {
    void (*init)(IMB_MGR *);
    *(void **)&init = dlsym(library->loaded, "init_mb_mgr_avx2");
    init(library->m);
}

static int is_less(const void *a, const void *b) {
    double x = *(const double *)a, y = *(const double *)b;
    return x < y ? -1 : x > y;
}

static double median(double *values, int n) {
    qsort(values, (size_t)n, sizeof *values, is_less);
    return values[n / 2];
}

static void print_kind(const struct kind *kind, int turns) {
    static double times[2][MOST_TURNS], differences[MOST_TURNS];
    for (int i = 0; i < turns; i++) {
        for (int k = 0; k < 2; k++) {
            int which = (i + k) % 2;
            times[which][i] = time_of(sides[which], kind);
        }
        differences[i] = times[1][i] - times[0][i];
    }
    printf("%-34s %8.1f %8.1f %8.1f\n", kind->name, median(times[0], turns), median(times[1], turns), median(differences, turns));
}

int main(int argc, char **argv) {
    int turns = argc > 3 ? atoi(argv[3]) : 401;
    if (argc < 3 || turns > MOST_TURNS)
        return 2;
    for (int i = 0; i < 2; i++) {
        uint8_t block[64] = {1};
        if (posix_memalign((void **)&sides[i], 64, sizeof *sides[i]) != 0)
            return 2;
        load_library(&sides[i]->library, argv[1 + i]);
        IMB_MGR *m = sides[i]->library.m;
        init_for_avx2(&sides[i]->library);
        IMB_AES_KEYEXP_128(m, block, sides[i]->encryption, sides[i]->decryption);
        IMB_AES128_GCM_PRE(m, block, &sides[i]->gcm);
        IMB_SHA1_ONE_BLOCK(m, block, sides[i]->states[0]);
        IMB_SHA1_ONE_BLOCK(m, block, sides[i]->states[1]);
    }
    printf("%-34s %8s %8s %8s\n", "nanoseconds a job", "Intel's", "checker", "more");
    for (int i = 0; i < KINDS; i++)
        print_kind(&kinds[i], turns);
    return 0;
}
