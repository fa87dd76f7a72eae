/* strides OTHER DROPIN [untimed]: sessions of CBC whose schedules lie some bytes apart, powers of two among them, all with a job in flight
 * at once. Two libraries decipher the same; and, but with `untimed`, the time of a job by the second one doesn't depend on how far apart the
 * sessions are. */
#include "library.h"

#include <stdio.h>
#include <string.h>
#include <time.h>

enum { SESSIONS = 120, LEN = 64, SCHEDULE = 240, LONGEST_STRIDE = 16384, ROUNDS = 30, TIMED_JOBS = 512, TIMED_SESSIONS = 32, TRIES = 5 };

static struct library libraries[2];
static uint8_t *schedules, others[SESSIONS][SCHEDULE], texts[2][2 * SESSIONS][LEN], cipher_text[LEN];
static size_t key_lens[SESSIONS];
static const size_t strides[] = {240, 256, 512, 960, 1024, 2048, 4096, LONGEST_STRIDE};

static void make_sessions(IMB_MGR *m, size_t stride, bool is_long) {
    DECLARE_ALIGNED(uint8_t unused[SCHEDULE], 16);
    uint8_t key[32];
    for (size_t i = 0; i < SESSIONS; i++) {
        key_lens[i] = is_long ? 32 : 16 + 8 * draw_below(3);
        draw_bytes(key, sizeof key);
        keyexp_t const expand = key_lens[i] == 16 ? m->keyexp_128 : key_lens[i] == 24 ? m->keyexp_192 : m->keyexp_256;
        expand(key, unused, schedules + stride * i);
        draw_bytes(key, sizeof key);
        expand(key, unused, others[i]);
    }
}

static void fill(IMB_JOB *job, const void *schedule, size_t key_len, uint8_t *dst) {
    static const uint8_t iv[16];
    memset(job, 0, sizeof *job);
    job->cipher_mode = IMB_CIPHER_CBC;
    job->cipher_direction = IMB_DIR_DECRYPT;
    job->chain_order = IMB_ORDER_HASH_CIPHER;
    job->hash_alg = IMB_AUTH_NULL;
    job->dec_keys = job->enc_keys = schedule;
    job->key_len_in_bytes = key_len;
    job->iv = iv;
    job->iv_len_in_bytes = sizeof iv;
    job->src = cipher_text;
    job->dst = dst;
    job->msg_len_to_cipher_in_bytes = LEN;
}

static void submit(IMB_MGR *m, size_t stride, size_t i, uint8_t *to) {
    fill(IMB_GET_NEXT_JOB(m), schedules + stride * i, key_lens[i], to);
    IMB_SUBMIT_JOB(m);
}

/* A job that waits for lanes: those behind it aren't given back meanwhile. */
static void submit_waiting(IMB_MGR *m) {
    static uint8_t tag[64];
    IMB_JOB *job = IMB_GET_NEXT_JOB(m);
    memset(job, 0, sizeof *job);
    job->cipher_mode = IMB_CIPHER_NULL;
    job->hash_alg = IMB_AUTH_SHA_512;
    job->src = cipher_text;
    job->msg_len_to_hash_in_bytes = LEN;
    job->auth_tag_output = tag;
    job->auth_tag_output_len_in_bytes = sizeof tag;
    IMB_SUBMIT_JOB(m);
}

/* A job of each session, and while it is in flight one of another session at the same place. */
static void decipher(struct library *library, size_t stride, uint8_t (*to)[LEN]) {
    uint8_t kept[SCHEDULE];
    submit_waiting(library->m);
    for (size_t i = 0; i < SESSIONS; i++) {
        uint8_t *place = schedules + stride * i;
        submit(library->m, stride, i, to[2 * i]);
        memcpy(kept, place, SCHEDULE);
        memcpy(place, others[i], SCHEDULE);
        submit(library->m, stride, i, to[2 * i + 1]);
        memcpy(place, kept, SCHEDULE);
    }
    while (IMB_FLUSH_JOB(library->m) != NULL)
        ;
}

static unsigned compare(size_t stride) {
    for (int again = 0; again < 2; again++) {
        make_sessions(libraries[0].m, stride, false);
        draw_bytes(cipher_text, sizeof cipher_text);
        for (int i = 0; i < 2; i++)
            decipher(&libraries[i], stride, texts[i]);
        if (memcmp(texts[0], texts[1], sizeof texts[0]) != 0) {
            printf("texts of sessions %zu bytes apart differ\n", stride);
            return 1;
        }
    }
    return 0;
}

static double now(void) {
    struct timespec t;
    clock_gettime(CLOCK_THREAD_CPUTIME_ID, &t);
    return (double)t.tv_sec * 1e9 + (double)t.tv_nsec;
}

/* Nanoseconds a job: the least of some rounds. */
static double time_of(size_t stride) {
    IMB_MGR *m = libraries[1].m;
    double least = 1e18;
    make_sessions(m, stride, true);
    for (int round = 0; round < ROUNDS; round++) {
        double start = now();
        for (size_t i = 0; i < TIMED_JOBS; i++) {
            fill(IMB_GET_NEXT_JOB(m), schedules + stride * (i % TIMED_SESSIONS), 32, texts[1][0]);
            for (const IMB_JOB *job = IMB_SUBMIT_JOB(m); job != NULL; job = IMB_GET_COMPLETED_JOB(m))
                ;
        }
        double took = (now() - start) / TIMED_JOBS;
        least = took < least ? took : least;
    }
    while (IMB_FLUSH_JOB(m) != NULL)
        ;
    return least;
}

/* Another program may take the processor at any time: one try of a few is enough. */
static bool costs_the_same(void) {
    for (int i = 0; i < TRIES; i++) {
        double least = 1e18, most = 0;
        for (size_t k = 0; k < sizeof strides / sizeof *strides; k++) {
            double took = time_of(strides[k]);
            least = took < least ? took : least;
            most = took > most ? took : most;
        }
        printf("%.0f to %.0f ns a job of %d bytes\n", least, most, LEN);
        if (most < 1.25 * least)
            return true;
    }
    return false;
}

int main(int argc, char **argv) {
    unsigned differing = 0;
    if (argc < 3 || posix_memalign((void **)&schedules, LONGEST_STRIDE, (size_t)SESSIONS * LONGEST_STRIDE) != 0)
        return 2;
    for (int i = 0; i < 2; i++)
        load_library(&libraries[i], argv[1 + i]);
    start_drawing(1);
    for (size_t k = 0; k < sizeof strides / sizeof *strides; k++)
        differing += compare(strides[k]);
    if (argc < 4 && !costs_the_same())
        differing++;
    for (int i = 0; i < 2; i++)
        libraries[i].release(libraries[i].m);
    free(schedules);
    return differing != 0;
}
