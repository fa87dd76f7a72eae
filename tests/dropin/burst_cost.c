/* burst_cost OTHER DROPIN: what a job costs through the second library, submitted by itself and in a burst of 32, by turns in one process,
 * unchecked and checked. A burst may not cost a job more than a submission by itself does: of each kind and length not by more than a
 * percent, by which the place of things in memory changes a time from run to run, and on the whole not at all. What counts is the middle
 * one of many ratios of times that were taken right behind one another, so that other work on the machine slows both sides. In 2.0 all
 * jobs of a kind have one session. */
#include "library.h"

#include <stdio.h>
#include <stdlib.h>
#include <string.h>
#include <time.h>

enum { BURST = 32, BATCH = 512, ROUNDS = 40, SWEEPS = 16, SHIFT = 576, MOST_SHIFT = 8 * SHIFT, MOST_LEN = 1536, KINDS = 6, LENS = 3 };

static const char *const names[KINDS] = {"nothing", "HMAC-SHA-1", "CBC encryption", "CTR", "GCM", "CBC encryption and HMAC-SHA-1"};

static const size_t lens[LENS] = {64, 256, 1500};

static struct library library;
static uint8_t text[BATCH][MOST_LEN], tags[BATCH][64], pads[2][64], iv[16], aad[16];
DECLARE_ALIGNED(static uint8_t schedules[2][240], 16);
DECLARE_ALIGNED(static struct gcm_key_data gcm, 64);

/* As a driver does it: of a slot that has been used, the places and lengths alone are new. */
static void fill(IMB_JOB *job, int kind, size_t len, size_t number) {
    static const IMB_CIPHER_MODE ciphers[KINDS] = {IMB_CIPHER_NULL, IMB_CIPHER_NULL, IMB_CIPHER_CBC,
                                                   IMB_CIPHER_CNTR, IMB_CIPHER_GCM,  IMB_CIPHER_CBC};
    static const IMB_HASH_ALG hashes[KINDS] = {IMB_AUTH_NULL, IMB_AUTH_HMAC_SHA_1, IMB_AUTH_NULL,
                                               IMB_AUTH_NULL, IMB_AUTH_AES_GMAC,   IMB_AUTH_HMAC_SHA_1};
    job->cipher_mode = ciphers[kind];
    job->hash_alg = hashes[kind];
    job->cipher_direction = IMB_DIR_ENCRYPT;
    job->chain_order = IMB_ORDER_CIPHER_HASH;
    job->enc_keys = kind == 4 ? (const void *)&gcm : schedules[0];
    job->dec_keys = kind == 4 ? (const void *)&gcm : schedules[1];
    job->key_len_in_bytes = 16;
    job->src = job->dst = text[number];
    job->cipher_start_src_offset_in_bytes = job->hash_start_src_offset_in_bytes = 0;
    job->msg_len_to_cipher_in_bytes = kind == 3 || kind == 4 ? len : len / 16 * 16;
    job->msg_len_to_hash_in_bytes = len;
    job->iv = iv;
    job->iv_len_in_bytes = kind == 4 ? 12 : 16;
    job->auth_tag_output = tags[number];
    job->auth_tag_output_len_in_bytes = 12;
    if (kind == 4) {
        job->u.GCM.aad = aad;
        job->u.GCM.aad_len_in_bytes = 8;
    } else {
        job->u.HMAC._hashed_auth_key_xor_ipad = pads[0];
        job->u.HMAC._hashed_auth_key_xor_opad = pads[1];
    }
}

#if IS_VERSION_2
/* The session of all jobs of a kind. */
static IMB_JOB session;

static void set_session(int kind) {
    fill(&session, kind, MOST_LEN, 0);
    library.set_session(library.m, &session);
}

static void put_session(IMB_JOB *job) {
    memcpy(job->suite_id, session.suite_id, sizeof job->suite_id);
    job->session_id = session.session_id;
}
#else
static void set_session(int kind) {
    (void)kind;
}

static void put_session(IMB_JOB *job) {
    (void)job;
}
#endif

static double now(void) {
    struct timespec t;
    clock_gettime(CLOCK_MONOTONIC, &t);
    return (double)t.tv_sec * 1e9 + (double)t.tv_nsec;
}

static void flush(void) {
    while (IMB_FLUSH_JOB(library.m) != NULL)
        ;
}

static double time_of_singles(int kind, size_t len, bool is_checked) {
    IMB_MGR *m = library.m;
    double start = now();
    for (size_t i = 0; i < BATCH; i++) {
        IMB_JOB *job = IMB_GET_NEXT_JOB(m);
        fill(job, kind, len, i);
        put_session(job);
        for (job = is_checked ? IMB_SUBMIT_JOB(m) : IMB_SUBMIT_JOB_NOCHECK(m); job != NULL; job = IMB_GET_COMPLETED_JOB(m))
            ;
    }
    double took = (now() - start) / BATCH;
    flush();
    return took;
}

static double time_of_bursts(int kind, size_t len, bool is_checked) {
    IMB_MGR *m = library.m;
    IMB_JOB *jobs[BURST];
    double start = now();
    for (size_t i = 0; i < BATCH; i += BURST) {
        if (IMB_GET_NEXT_BURST(m, BURST, jobs) != BURST)
            return 1e18;
        for (size_t k = 0; k < BURST; k++) {
            fill(jobs[k], kind, len, i + k);
            put_session(jobs[k]);
        }
        if (is_checked)
            IMB_SUBMIT_BURST(m, BURST, jobs);
        else
            IMB_SUBMIT_BURST_NOCHECK(m, BURST, jobs);
        if (m->imb_errno != 0)
            return 1e18;
    }
    double took = (now() - start) / BATCH;
    flush();
    return took;
}

/* The least time of a job by itself, and in each round its time in a burst over that by itself just before and behind. */
struct cost {
    double single, ratios[SWEEPS * ROUNDS];
    size_t count;
};

static double lesser(double a, double b) {
    return a < b ? a : b;
}

/* Takes turns. Where the stack lies to a manager changes a time by a percent or two: so it is shifted. */
static void take_turns(int kind, size_t len, bool is_checked, size_t shift, struct cost *cost) {
    volatile char gap[shift + 1];
    gap[shift] = 0, (void)gap[shift];
    for (int round = 0; round < ROUNDS; round++) {
        double before = time_of_singles(kind, len, is_checked);
        double burst = time_of_bursts(kind, len, is_checked);
        double behind = time_of_singles(kind, len, is_checked);
        cost->single = lesser(cost->single, lesser(before, behind));
        cost->ratios[cost->count++] = 2 * burst / (before + behind);
    }
}

static int compare(const void *a, const void *b) {
    double x = *(const double *)a, y = *(const double *)b;
    return (x > y) - (x < y);
}

/* The middle one of the ratios, which are sorted. */
static double middle(struct cost *cost) {
    qsort(cost->ratios, cost->count, sizeof *cost->ratios, compare);
    return cost->ratios[cost->count / 2];
}

/* Costs of each kind and length, unchecked and checked. */
static struct cost costs[KINDS][LENS][2];

/* A sweep over all of them, and after the first one over those that seem to cost more in a burst. */
static void sweep(size_t number) {
    for (int kind = 0; kind < KINDS; kind++) {
        set_session(kind);
        for (size_t k = 0; k < LENS; k++)
            for (int is_checked = 0; is_checked < 2; is_checked++) {
                struct cost *cost = &costs[kind][k][is_checked];
                if (number == 0)
                    cost->single = 1e18;
                if (number == 0 || middle(cost) > 1)
                    take_turns(kind, lens[k], is_checked != 0, number * SHIFT % MOST_SHIFT, cost);
            }
    }
}

/* How many kinds and lengths cost over a percent more in a burst, and what all cost by themselves and in bursts. */
static unsigned count_dearer(double *singles, double *bursts) {
    unsigned dearer = 0;
    *singles = *bursts = 0;
    for (int kind = 0; kind < KINDS; kind++)
        for (size_t k = 0; k < LENS; k++)
            for (int is_checked = 0; is_checked < 2; is_checked++) {
                struct cost *cost = &costs[kind][k][is_checked];
                *singles += cost->single;
                *bursts += cost->single * middle(cost);
                dearer += middle(cost) > 1.01;
            }
    return dearer;
}

static void print_costs(void) {
    for (int kind = 0; kind < KINDS; kind++)
        for (size_t k = 0; k < LENS; k++)
            for (int is_checked = 0; is_checked < 2; is_checked++) {
                struct cost *cost = &costs[kind][k][is_checked];
                printf("%-30s %5zu bytes, %s: %6.0f ns by itself, %5.1f %% of that in a burst\n", names[kind], lens[k],
                       is_checked ? "  checked" : "unchecked", cost->single, 100 * middle(cost));
            }
}

int main(int argc, char **argv) {
    double singles = 0, bursts = 0;
    unsigned dearer = 1;
    if (argc < 3)
        return 2;
    load_library(&library, argv[2]);
    IMB_AES_KEYEXP_128(library.m, iv, schedules[0], schedules[1]);
    IMB_AES128_GCM_PRE(library.m, iv, &gcm);
    for (size_t number = 0; number < SWEEPS && (dearer != 0 || bursts > singles); number++) {
        sweep(number);
        dearer = count_dearer(&singles, &bursts);
    }
    library.release(library.m);
    print_costs();
    printf("%.1f %% of what they cost by themselves\n", 100 * bursts / singles);
    return dearer != 0 || bursts > singles;
}
