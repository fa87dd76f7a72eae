/* arrays OTHER DROPIN [JOBS [SEED]]: gives two libraries the same bursts of an array of jobs by one algorithm, checked and unchecked, and
 * compares what they return, the error, and each job's status and bytes. Some unchecked jobs have fields that a checked one can't have, and
 * some checked bursts a wrong job. Directions and lengths of a key are also drawn beyond what is right. */
#include "odd.h"

#include <stdio.h>
#include <string.h>

enum { MOST = 600 };

struct side {
    struct library library;
    struct keys keys[MOST];
    IMB_JOB jobs[MOST];
    uint8_t *memory[MOST];
    uint32_t returned;
    int error;
};

/* What a burst tells of all of its jobs. Those of AEADs are in 2.0 alone, and so are those of plain hashes and of CMAC. */
struct burst {
    bool is_hash, is_aead, is_checked;
    int cipher, hash, dir, told_dir;
    size_t key_len, told_key_len;
    uint32_t n;
    int wrong; /* the number of its wrong job, or -1 */
    unsigned wrong_field;
};

static struct side *sides[2];
static struct sample samples[MOST];
static struct odd odds[MOST];
static unsigned compared, wrong_bursts, odd_ones;

static bool is_hmac(int hash) {
    return hash >= IMB_AUTH_HMAC_SHA_1 && hash <= IMB_AUTH_HMAC_SHA_512;
}

static int draw_hash(void) {
    static const int others[] = {IMB_AUTH_SHA_1,   IMB_AUTH_SHA_224,  IMB_AUTH_SHA_256,      IMB_AUTH_SHA_384,
                                 IMB_AUTH_SHA_512, IMB_AUTH_AES_CMAC, IMB_AUTH_AES_CMAC_256, IMB_AUTH_AES_CMAC_BITLEN};
    if (IS_VERSION_2 && draw_below(2) == 0)
        return others[draw_below(sizeof others / sizeof *others)];
    return IMB_AUTH_HMAC_SHA_1 + (int)draw_below(5);
}

static void draw_burst(struct burst *burst) {
    burst->is_hash = draw_below(3) == 0;
    burst->is_aead = IS_VERSION_2 && !burst->is_hash && draw_below(3) == 0;
    burst->is_checked = draw_below(2) == 0;
    burst->cipher = burst->is_aead ? IMB_CIPHER_CCM : draw_below(2) == 0 ? IMB_CIPHER_CBC : IMB_CIPHER_CNTR;
    burst->hash = draw_hash();
    burst->dir = IMB_DIR_ENCRYPT + (int)draw_below(2);
    burst->told_dir = burst->dir == IMB_DIR_DECRYPT && !burst->is_aead && draw_below(2) == 0 ? 3 + (int)draw_below(100) : burst->dir;
    burst->key_len = burst->is_aead ? 16 + 16 * draw_below(2) : 16 + 8 * draw_below(3);
    burst->told_key_len = burst->key_len;
    if (burst->key_len == 32 && !burst->is_checked && draw_below(4) == 0)
        burst->told_key_len = 25 + draw_below(7);
    burst->n = (uint32_t)(draw_below(8) == 0 ? draw_below(MOST + 1) : draw_below(40));
    burst->wrong = burst->is_checked && burst->n != 0 && draw_below(2) == 0 ? (int)draw_below(burst->n) : -1;
    burst->wrong_field = (unsigned)draw_below(4);
    wrong_bursts += burst->wrong >= 0;
}

static bool is_of_burst(const struct sample *sample, const struct burst *burst) {
    if (sample->is_faulty)
        return false;
    if (burst->is_hash)
        return sample->hash == burst->hash;
    return sample->cipher == burst->cipher && sample->dir == burst->dir && sample->key_len == burst->key_len;
}

/* An odd field that such a burst reads, and that the drop-in doesn't refuse. */
static bool is_odd_of_burst(const struct odd *odd, const struct burst *burst) {
    if (odd->is_refused || burst->is_aead)
        return false;
    return burst->is_hash ? odd->field == ODD_TAG_LEN : odd->field == ODD_IV_LEN || odd->field == ODD_CIPHER_LEN;
}

static void draw_job(int i, const struct burst *burst) {
    do
        draw_sample(&samples[i]);
    while (!is_of_burst(&samples[i], burst));
    draw_odd(&odds[i], &samples[i]);
    if (burst->is_checked || !is_odd_of_burst(&odds[i], burst))
        odds[i] = (struct odd){.field = ODD_NONE, .own_tag_len = samples[i].tag_len};
    odd_ones += odds[i].field != ODD_NONE;
    for (int side = 0; side < 2; side++)
        sides[side]->memory[i] = malloc(samples[i].memory);
    draw_bytes(sides[0]->memory[i], samples[i].memory);
    memcpy(sides[1]->memory[i], sides[0]->memory[i], samples[i].memory);
}

static void make_wrong_hash(IMB_JOB *job, unsigned field) {
    switch (field) {
    case 0: job->auth_tag_output = NULL; break;
    case 1: job->auth_tag_output_len_in_bytes = 65; break;
    case 2: job->src = NULL; break;
    default: job->auth_tag_output_len_in_bytes = 0; break;
    }
}

static void make_wrong_aead(IMB_JOB *job, unsigned field) {
    switch (field) {
    case 0: job->iv_len_in_bytes = 14; break;
    case 1: job->auth_tag_output_len_in_bytes = 3; break;
    case 2: job->u.CCM.aad_len_in_bytes = 47; break;
    default: job->msg_len_to_hash_in_bytes++; break;
    }
}

static void make_wrong(IMB_JOB *job, const struct burst *burst) {
    if (burst->is_aead) {
        make_wrong_aead(job, burst->wrong_field);
        return;
    }
    if (burst->is_hash && !is_hmac(burst->hash)) {
        make_wrong_hash(job, burst->wrong_field);
        return;
    }
    switch (burst->wrong_field + (burst->is_hash ? 4 : 0)) {
    case 0: job->iv = NULL; break;
    case 1: job->iv_len_in_bytes = 13; break;
    case 2: job->msg_len_to_cipher_in_bytes = 0; break;
    case 3: job->dst = NULL; break;
    case 4: job->auth_tag_output = NULL; break;
    case 5: job->auth_tag_output_len_in_bytes = 11; break;
    case 6: job->msg_len_to_hash_in_bytes = 0; break;
    default: job->u.HMAC._hashed_auth_key_xor_opad = NULL; break;
    }
}

/* The call tells the algorithm, and what the job has for it isn't read. But intel-ipsec-mb 2.0 finds the plaintext of an AEAD by the job's
 * direction, and looks at a length in bits by the job's hash. */
static void fill(struct side *side, int i, const struct burst *burst) {
    IMB_JOB *job = &side->jobs[i];
    fill_job(side->library.m, job, &side->keys[i], &samples[i], side->memory[i]);
    make_odd(job, &odds[i]);
    job->cipher_mode = (IMB_CIPHER_MODE)(i % 7);
    job->hash_alg = burst->hash == IMB_AUTH_AES_CMAC_BITLEN ? IMB_AUTH_AES_CMAC_BITLEN : (IMB_HASH_ALG)(i % 5);
    job->chain_order = (IMB_CHAIN_ORDER)(i % 4);
    if (!burst->is_hash && !burst->is_aead) {
        job->cipher_direction = (IMB_CIPHER_DIRECTION)(i % 3);
        job->key_len_in_bytes = (uint64_t)i % 40;
    }
    if (i == burst->wrong)
        make_wrong(job, burst);
}

#if IS_VERSION_2
static uint32_t submit_aead(struct side *side, const struct burst *burst) {
    IMB_MGR *m = side->library.m;
    IMB_CIPHER_MODE cipher = (IMB_CIPHER_MODE)burst->cipher;
    IMB_CIPHER_DIRECTION dir = (IMB_CIPHER_DIRECTION)burst->told_dir;
    IMB_KEY_SIZE_BYTES key_len = (IMB_KEY_SIZE_BYTES)burst->told_key_len;
    return burst->is_checked ? IMB_SUBMIT_AEAD_BURST(m, side->jobs, burst->n, cipher, dir, key_len)
                             : IMB_SUBMIT_AEAD_BURST_NOCHECK(m, side->jobs, burst->n, cipher, dir, key_len);
}
#else
static uint32_t submit_aead(struct side *side, const struct burst *burst) {
    (void)side, (void)burst;
    return 0;
}
#endif

static void submit(struct side *side, const struct burst *burst) {
    IMB_MGR *m = side->library.m;
    IMB_HASH_ALG hash = (IMB_HASH_ALG)burst->hash;
    IMB_CIPHER_MODE cipher = (IMB_CIPHER_MODE)burst->cipher;
    IMB_CIPHER_DIRECTION dir = (IMB_CIPHER_DIRECTION)burst->told_dir;
    IMB_KEY_SIZE_BYTES key_len = (IMB_KEY_SIZE_BYTES)burst->told_key_len;
    if (burst->is_aead)
        side->returned = submit_aead(side, burst);
    else if (burst->is_hash)
        side->returned = burst->is_checked ? IMB_SUBMIT_HASH_BURST(m, side->jobs, burst->n, hash)
                                           : IMB_SUBMIT_HASH_BURST_NOCHECK(m, side->jobs, burst->n, hash);
    else
        side->returned = burst->is_checked ? IMB_SUBMIT_CIPHER_BURST(m, side->jobs, burst->n, cipher, dir, key_len)
                                           : IMB_SUBMIT_CIPHER_BURST_NOCHECK(m, side->jobs, burst->n, cipher, dir, key_len);
    side->error = side->library.error(m);
}

/* What the first library wrote of a tag behind the bytes that the job asked for isn't compared. */
static void leave_out_rest_of_tag(int i) {
    size_t from = samples[i].tag + odds[i].own_tag_len;
    if (odds[i].field == ODD_TAG_LEN)
        memcpy(sides[0]->memory[i] + from, sides[1]->memory[i] + from, samples[i].memory - from);
}

static const char *difference(int i) {
    leave_out_rest_of_tag(i);
    if (sides[0]->jobs[i].status != sides[1]->jobs[i].status)
        return "the status";
    return memcmp(sides[0]->memory[i], sides[1]->memory[i], samples[i].memory) != 0 ? "the bytes" : NULL;
}

static unsigned compare_burst(const struct burst *burst) {
    unsigned differing = sides[0]->returned != sides[1]->returned || sides[0]->error != sides[1]->error;
    if (differing != 0)
        printf("returned %u and %u, error %d and %d\n", sides[0]->returned, sides[1]->returned, sides[0]->error, sides[1]->error);
    for (int i = 0; i < (int)burst->n; i++) {
        const char *what = difference(i);
        if (what != NULL && differing++ < 4) {
            printf("%s of job %d differs, field %d with the value %lu: ", what, i, (int)odds[i].field, odds[i].value);
            print_sample(&samples[i]);
        }
        free(sides[0]->memory[i]);
        free(sides[1]->memory[i]);
    }
    compared += burst->n;
    if (differing != 0)
        printf("%s, %schecked, cipher %d, hash %d, direction %d, key %zu, %u jobs, wrong %d (%u)\n",
               burst->is_hash ? "hashes" : burst->is_aead ? "an AEAD" : "ciphers",
               burst->is_checked ? "" : "un", burst->cipher, burst->hash, burst->told_dir, burst->told_key_len, burst->n, burst->wrong,
               burst->wrong_field);
    return differing;
}

static unsigned one_burst(void) {
    struct burst burst;
    draw_burst(&burst);
    for (int i = 0; i < (int)burst.n; i++)
        draw_job(i, &burst);
    for (int side = 0; side < 2; side++) {
        for (int i = 0; i < (int)burst.n; i++)
            fill(sides[side], i, &burst);
        submit(sides[side], &burst);
    }
    return compare_burst(&burst);
}

/* No array, and algorithms that bursts don't have. */
static unsigned compare_wrong_calls(void) {
    unsigned differing = 0;
    for (int call = 0; call < 4; call++) {
        int errors[2];
        for (int side = 0; side < 2; side++) {
            IMB_MGR *m = sides[side]->library.m;
            IMB_JOB *jobs = sides[side]->jobs;
            uint32_t returned = call == 0   ? IMB_SUBMIT_CIPHER_BURST(m, NULL, 0, IMB_CIPHER_CBC, IMB_DIR_ENCRYPT, IMB_KEY_128_BYTES)
                                : call == 1 ? IMB_SUBMIT_HASH_BURST(m, NULL, 0, IMB_AUTH_HMAC_SHA_1)
                                : call == 2 ? IMB_SUBMIT_CIPHER_BURST(m, jobs, 1, IMB_CIPHER_GCM, IMB_DIR_ENCRYPT, IMB_KEY_128_BYTES)
                                            : IMB_SUBMIT_HASH_BURST(m, jobs, 1, IS_VERSION_2 ? IMB_AUTH_AES_GMAC_128 : IMB_AUTH_SHA_1);
            errors[side] = returned != 0 ? -1 : sides[side]->library.error(m);
        }
        if (errors[0] != errors[1]) {
            printf("the error of wrong call %d differs: %d and %d\n", call, errors[0], errors[1]);
            differing++;
        }
    }
    return differing;
}

int main(int argc, char **argv) {
    unsigned wanted = argc > 3 ? (unsigned)atoi(argv[3]) : 20000, differing = 0;
    uint64_t seed = argc > 4 ? strtoull(argv[4], NULL, 0) : 1;
    if (argc < 3)
        return 2;
    for (int side = 0; side < 2; side++) {
        if (posix_memalign((void **)&sides[side], 64, sizeof *sides[side]) != 0)
            return 2;
        memset(sides[side], 0, sizeof *sides[side]);
        load_library(&sides[side]->library, argv[1 + side]);
    }
    for (unsigned round = 0; compared < wanted && differing == 0; round++) {
        start_drawing(seed + round);
        differing += one_burst();
        if (differing != 0)
            printf("seed %lu\n", seed + round);
    }
    differing += compare_wrong_calls();
    printf("%u jobs of bursts, %u differ; with an odd field %u, bursts with a wrong job %u\n", compared, differing, odd_ones, wrong_bursts);
    for (int side = 0; side < 2; side++) {
        sides[side]->library.release(sides[side]->library.m);
        free(sides[side]);
    }
    return differing != 0;
}
