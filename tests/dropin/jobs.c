/* jobs OTHER DROPIN [JOBS [SEED]]: gives the same drawn jobs to two libraries, and compares what they write, with which status and error
 * each comes back, the order in which they do, and the keys that were expanded. Half of the rounds are of jobs that nothing checks, many
 * of which have a field that a checked job can't have. Half of the rounds go by bursts, but for the first library: the bursts of
 * intel-ipsec-mb 1.3 take a ring that is full for one that is empty. In 2.0 each job of a checked burst has a session, and half of those
 * that are submitted singly. */
#include "odd.h"

#include <stdio.h>
#include <string.h>

enum { MOST = 600 }; /* jobs of a round */

struct side {
    struct library library;
    struct keys keys[MOST];
    uint8_t *memory[MOST];
    int order[MOST], given, status[MOST], error[MOST];
};

/* How the jobs of a round are submitted. */
enum way { CHECKED, UNCHECKED, CHECKED_IN_BURSTS, IN_BURSTS, WAYS };

static struct side *sides[2];
static struct sample samples[MOST];
static struct odd odds[MOST];
static unsigned odd_ones, refused_ones, sessions, without_session;

static void note_given(struct side *side, const IMB_JOB *job) {
    int i = (int)(intptr_t)job->user_data;
    if (side->given < MOST)
        side->order[side->given++] = i;
    side->status[i] = (int)job->status;
}

/* The session isn't told of a field that a checked job can't have. A faulty job may have none. */
static void set_session(struct side *side, IMB_JOB *job, int i) {
    bool has_session = side->library.set_session(side->library.m, job) != 0;
    sessions += has_session && side == sides[1];
    if (!has_session && !samples[i].is_faulty && without_session++ < 4) {
        printf("job %d has no session in %s: ", i, side->library.path);
        print_sample(&samples[i]);
    }
}

/* A job that the drop-in has to refuse is one that does nothing for the first library. */
static void fill(struct side *side, IMB_JOB *job, int i, bool has_session) {
    fill_job(side->library.m, job, &side->keys[i], &samples[i], side->memory[i]);
    if (IS_VERSION_2 && has_session)
        set_session(side, job, i);
    make_odd(job, &odds[i]);
    if (odds[i].is_refused && side == sides[0]) {
        job->cipher_mode = IMB_CIPHER_NULL;
        job->hash_alg = IMB_AUTH_NULL;
    }
    job->user_data = (void *)(intptr_t)i;
}

/* How many jobs are flushed after this one: mostly none, and the same for both libraries. */
static unsigned flushes_after(int i, uint64_t seed) {
    uint64_t x = (seed + (uint64_t)i) * UINT64_C(0x9e3779b97f4a7c15);
    return (x >> 33) % 20 == 0 ? (x >> 40) % 40 : 0;
}

static void submit_singly(struct side *side, int n, uint64_t seed, bool is_checked) {
    IMB_MGR *m = side->library.m;
    for (int i = 0; i < n; i++) {
        fill(side, IMB_GET_NEXT_JOB(m), i, i % 2 == 0);
        IMB_JOB *job = is_checked ? IMB_SUBMIT_JOB(m) : IMB_SUBMIT_JOB_NOCHECK(m);
        side->error[i] = m->imb_errno;
        for (; job != NULL; job = IMB_GET_COMPLETED_JOB(m))
            note_given(side, job);
        for (unsigned k = flushes_after(i, seed); k > 0 && (job = IMB_FLUSH_JOB(m)) != NULL; k--)
            note_given(side, job);
    }
}

static void note_burst(struct side *side, IMB_JOB **jobs, uint32_t n) {
    for (uint32_t k = 0; k < n; k++)
        note_given(side, jobs[k]);
}

static void submit_in_bursts(struct side *side, int n, uint64_t seed, bool is_checked) {
    IMB_MGR *m = side->library.m;
    IMB_JOB *jobs[IMB_MAX_BURST_SIZE];
    for (int i = 0; i < n;) {
        uint32_t wanted = 1 + (uint32_t)((seed + (uint64_t)i) * 2654435761u >> 7) % IMB_MAX_BURST_SIZE;
        if (wanted > (uint32_t)(n - i))
            wanted = (uint32_t)(n - i);
        uint32_t have = IMB_GET_NEXT_BURST(m, wanted, jobs);
        for (uint32_t k = 0; k < have; k++)
            fill(side, jobs[k], i + (int)k, is_checked || seed % 3 != 0);
        i += (int)have;
        note_burst(side, jobs, is_checked ? IMB_SUBMIT_BURST(m, have, jobs) : IMB_SUBMIT_BURST_NOCHECK(m, have, jobs));
        if (have < wanted)
            note_burst(side, jobs, IMB_FLUSH_BURST(m, 64, jobs));
    }
}

static void drive(struct side *side, int n, uint64_t seed, enum way way) {
    side->given = 0;
    if (way >= CHECKED_IN_BURSTS && side == sides[1])
        submit_in_bursts(side, n, seed, way == CHECKED_IN_BURSTS);
    else
        submit_singly(side, n, seed, way == CHECKED || way == CHECKED_IN_BURSTS);
    for (IMB_JOB *job; (job = IMB_FLUSH_JOB(side->library.m)) != NULL;)
        note_given(side, job);
}

static void draw_round(int n, enum way way) {
    for (int i = 0; i < n; i++) {
        do
            draw_sample(&samples[i]);
        while (way != CHECKED && samples[i].is_faulty);
        odds[i] = (struct odd){.field = ODD_NONE, .own_tag_len = samples[i].tag_len};
        if ((way == UNCHECKED || way == IN_BURSTS) && draw_below(2) == 0)
            draw_odd(&odds[i], &samples[i]);
        odd_ones += odds[i].field != ODD_NONE;
        refused_ones += odds[i].is_refused;
        for (int side = 0; side < 2; side++)
            sides[side]->memory[i] = malloc(samples[i].memory);
        draw_bytes(sides[0]->memory[i], samples[i].memory);
        memcpy(sides[1]->memory[i], sides[0]->memory[i], samples[i].memory);
    }
}

static bool keys_differ(const struct keys *a, const struct keys *b) {
    return memcmp(a->encryption, b->encryption, sizeof a->encryption) != 0 ||
           memcmp(a->decryption, b->decryption, sizeof a->decryption) != 0 || memcmp(a->states, b->states, sizeof a->states) != 0 ||
           memcmp(a->subkeys, b->subkeys, sizeof a->subkeys) != 0;
}

/* What the first library wrote of a tag behind the bytes that the job asked for isn't compared. */
static void leave_out_rest_of_tag(int i) {
    const struct sample *sample = &samples[i];
    size_t from = sample->tag + odds[i].own_tag_len;
    if (odds[i].field == ODD_TAG_LEN && !odds[i].is_refused)
        memcpy(sides[0]->memory[i] + from, sides[1]->memory[i] + from, sample->memory - from);
}

static const char *difference_of_unchecked(int i) {
    const struct side *a = sides[0], *b = sides[1];
    if (odds[i].is_refused)
        return b->status[i] != IMB_STATUS_INVALID_ARGS ? "the status (it has to be refused)" : NULL;
    return a->status[i] != b->status[i] ? "the status" : NULL;
}

static const char *difference(int i, int n, enum way way) {
    const struct side *a = sides[0], *b = sides[1];
    const char *what = way != CHECKED ? difference_of_unchecked(i) : NULL;
    if (what != NULL)
        return what;
    if (a->given != n || b->given != n)
        return "how many came back";
    if (a->order[i] != i || b->order[i] != i)
        return "the order";
    if (way == CHECKED && a->status[i] != b->status[i])
        return "the status";
    if (way == CHECKED && a->error[i] != b->error[i])
        return "the error";
    leave_out_rest_of_tag(i);
    if (memcmp(a->memory[i], b->memory[i], samples[i].memory) != 0)
        return "the bytes";
    return keys_differ(&a->keys[i], &b->keys[i]) ? "the keys" : NULL;
}

static unsigned compare_round(int n, enum way way) {
    unsigned differing = 0;
    for (int i = 0; i < n; i++) {
        const char *what = difference(i, n, way);
        if (what != NULL && differing++ < 4) {
            printf("%s of job %d of %d differs (status %d and %d, error %d and %d): ", what, i, n, sides[0]->status[i], sides[1]->status[i],
                   sides[0]->error[i], sides[1]->error[i]);
            print_sample(&samples[i]);
            printf("    way %d, field %d with the value %lu\n", (int)way, (int)odds[i].field, odds[i].value);
        }
        free(sides[0]->memory[i]);
        free(sides[1]->memory[i]);
    }
    return differing;
}

int main(int argc, char **argv) {
    unsigned wanted = argc > 3 ? (unsigned)atoi(argv[3]) : 20000, differing = 0;
    uint64_t seed = argc > 4 ? strtoull(argv[4], NULL, 0) : 1;
    if (argc < 3)
        return 2;
    for (int side = 0; side < 2; side++) {
        if (posix_memalign((void **)&sides[side], 64, sizeof *sides[side]) != 0)
            return 2;
        memset(sides[side], 0, sizeof *sides[side]);
        load_library(&sides[side]->library, argv[1 + side]);
    }
    for (unsigned round = 0; drawn.jobs < wanted && differing == 0; round++) {
        enum way way = (enum way)(round % WAYS);
        start_drawing(seed + round);
        int n = 1 + (int)draw_below(MOST);
        draw_round(n, way);
        for (int side = 0; side < 2; side++)
            drive(sides[side], n, seed + round, way);
        differing += compare_round(n, way) + without_session;
        if (differing != 0)
            printf("seed %lu\n", seed + round);
    }
    printf("%u jobs, %u differ; faulty %u, longer than a packet %u, out of place %u, near the counter's end %u, ciphered tags %u, "
           "unchecked with an odd field %u, of which refused %u; with a session %u\n",
           drawn.jobs, differing, drawn.faulty, drawn.long_ones, drawn.elsewhere, drawn.wrapping, drawn.ciphered_tags, odd_ones,
           refused_ones, sessions);
    for (int side = 0; side < 2; side++)
        sides[side]->library.release(sides[side]->library.m);
    return differing != 0;
}
