/* drawn INTEL CHECKER [JOBS [SEED]]: gives the same drawn work to Intel's library and to the checker over it: jobs with and without checks,
 * in bursts and in arrays, some of them wrong or with a field that a checked job can't have, and direct calls, whole and in parts. What
 * comes back has to be the same, and the checker may find no mismatch. */
#include "counted.h"
#include "odd.h"

#include <stdio.h>
#include <string.h>

enum { MOST = 200, TEXT = 2000 };

struct side {
    struct library library;
    struct keys keys[MOST];
    uint8_t *memory[MOST];
    int status[MOST], error[MOST];
};

enum way { CHECKED, UNCHECKED, IN_BURSTS, IN_BURSTS_UNCHECKED, IN_ARRAYS, WAYS };

static struct side *sides[2];
static struct sample samples[MOST];
static struct odd odds[MOST];
static unsigned long jobs_done, differing;

static void note(struct side *side, const IMB_JOB *job) {
    side->status[(int)(intptr_t)job->user_data] = (int)job->status;
}

static void fill(struct side *side, IMB_JOB *job, int i) {
    fill_job(side->library.m, job, &side->keys[i], &samples[i], side->memory[i]);
    make_odd(job, &odds[i]);
    job->user_data = (void *)(intptr_t)i;
}

/* ---- the ways ---- */

static void do_singly(struct side *side, int n, bool is_checked) {
    IMB_MGR *m = side->library.m;
    for (int i = 0; i < n; i++) {
        fill(side, IMB_GET_NEXT_JOB(m), i);
        IMB_JOB *job = is_checked ? IMB_SUBMIT_JOB(m) : IMB_SUBMIT_JOB_NOCHECK(m);
        side->error[i] = m->imb_errno;
        for (; job != NULL; job = IMB_GET_COMPLETED_JOB(m))
            note(side, job);
        if (i % 61 == 60 && (job = IMB_FLUSH_JOB(m)) != NULL)
            note(side, job);
    }
    for (IMB_JOB *job; (job = IMB_FLUSH_JOB(m)) != NULL;)
        note(side, job);
}

/* The manager is set up anew, so that no burst passes the end of its array of 256 jobs: intel-ipsec-mb 1.3 goes on behind it there, where
 * nothing checks the jobs. */
static void do_bursts(struct side *side, int n, bool is_checked) {
    IMB_MGR *m = side->library.m;
    IMB_JOB *jobs[IMB_MAX_BURST_SIZE];
    side->library.init(m, NULL);
    for (int i = 0; i < n;) {
        uint32_t wanted = 1 + (uint32_t)(i * 7 + 3) % 30, left = (uint32_t)(n - i);
        uint32_t have = IMB_GET_NEXT_BURST(m, wanted < left ? wanted : left, jobs);
        for (uint32_t k = 0; k < have; k++)
            fill(side, jobs[k], i + (int)k);
        i += (int)have;
        uint32_t back = is_checked ? IMB_SUBMIT_BURST(m, have, jobs) : IMB_SUBMIT_BURST_NOCHECK(m, have, jobs);
        for (uint32_t k = 0; k < back; k++)
            note(side, jobs[k]);
    }
    for (uint32_t back; (back = IMB_FLUSH_BURST(m, IMB_MAX_BURST_SIZE, jobs)) != 0;)
        for (uint32_t k = 0; k < back; k++)
            note(side, jobs[k]);
}

static void do_array(struct side *side, int i) {
    IMB_MGR *m = side->library.m;
    IMB_JOB job;
    fill(side, &job, i);
    if (samples[i].cipher == IMB_CIPHER_NULL)
        IMB_SUBMIT_HASH_BURST(m, &job, 1, job.hash_alg);
    else if (i % 2 == 0)
        IMB_SUBMIT_CIPHER_BURST(m, &job, 1, job.cipher_mode, job.cipher_direction, (IMB_KEY_SIZE_BYTES)job.key_len_in_bytes);
    else
        IMB_SUBMIT_CIPHER_BURST_NOCHECK(m, &job, 1, job.cipher_mode, job.cipher_direction, (IMB_KEY_SIZE_BYTES)job.key_len_in_bytes);
    side->error[i] = m->imb_errno;
    note(side, &job);
}

static void drive(struct side *side, int n, enum way way) {
    memset(side->status, 0xff, sizeof side->status);
    memset(side->error, 0, sizeof side->error);
    switch (way) {
    case CHECKED:
    case UNCHECKED: do_singly(side, n, way == CHECKED); break;
    case IN_BURSTS:
    case IN_BURSTS_UNCHECKED: do_bursts(side, n, way == IN_BURSTS); break;
    default:
        for (int i = 0; i < n; i++)
            do_array(side, i);
        break;
    }
}

/* ---- drawing ---- */

static bool fits(const struct sample *sample, enum way way) {
    bool is_of_array = sample->cipher == IMB_CIPHER_CBC || sample->cipher == IMB_CIPHER_CNTR ||
                       (sample->cipher == IMB_CIPHER_NULL && sample->hash <= IMB_AUTH_HMAC_SHA_512);
    if (way == IN_ARRAYS)
        return is_of_array && !sample->is_faulty;
    return way == CHECKED || !sample->is_faulty;
}

/* An odd field that Intel's library takes for a right one: others make it read and write elsewhere. */
static void draw_field(int i, enum way way) {
    odds[i] = (struct odd){.field = ODD_NONE};
    if ((way == UNCHECKED || way == IN_BURSTS_UNCHECKED) && draw_below(2) == 0)
        draw_odd(&odds[i], &samples[i]);
    if (odds[i].is_refused || odds[i].field == ODD_TAG_LEN)
        odds[i] = (struct odd){.field = ODD_NONE};
}

static void draw_round(int n, enum way way) {
    for (int i = 0; i < n; i++) {
        do
            draw_sample(&samples[i]);
        while (!fits(&samples[i], way));
        draw_field(i, way);
        for (int side = 0; side < 2; side++)
            sides[side]->memory[i] = malloc(samples[i].memory);
        draw_bytes(sides[0]->memory[i], samples[i].memory);
        memcpy(sides[1]->memory[i], sides[0]->memory[i], samples[i].memory);
    }
}

static void compare_round(int n, enum way way) {
    for (int i = 0; i < n; i++) {
        bool is_same = sides[0]->status[i] == sides[1]->status[i] && sides[0]->error[i] == sides[1]->error[i] &&
                       memcmp(sides[0]->memory[i], sides[1]->memory[i], samples[i].memory) == 0;
        if (!is_same && differing++ < 4) {
            printf("job %d of way %d differs from Intel's, status %d and %d: ", i, (int)way, sides[0]->status[i], sides[1]->status[i]);
            print_sample(&samples[i]);
        }
        free(sides[0]->memory[i]);
        free(sides[1]->memory[i]);
    }
}

/* ---- direct calls ---- */

struct text {
    unsigned size, dir;
    size_t len, first, iv_len, aad_len, tag_len;
    uint8_t key[32], iv[64], aad[64], bytes[TEXT];
};

struct made {
    uint8_t whole[TEXT], parts[TEXT], tags[3][16], schedules[2][240], state[64], digest[64];
};

#define OF_SIZE(m, size, what) (size == 0 ? (m)->gcm128_##what : size == 1 ? (m)->gcm192_##what : (m)->gcm256_##what)
#define GMAC_OF_SIZE(m, size, what) (size == 0 ? (m)->gmac128_##what : size == 1 ? (m)->gmac192_##what : (m)->gmac256_##what)

static void do_direct(IMB_MGR *m, const struct text *t, struct made *made) {
    DECLARE_ALIGNED(static struct gcm_key_data key, 64);
    struct gcm_context_data context;
    memset(made, 0, sizeof *made);
    OF_SIZE(m, t->size, pre)(t->key, &key);
    memcpy(made->parts, t->bytes, t->len);
    (t->dir == 0 ? OF_SIZE(m, t->size, enc) : OF_SIZE(m, t->size, dec))(&key, &context, made->whole, t->bytes, t->len, t->iv, t->aad,
                                                                         t->aad_len, made->tags[0], t->tag_len);
    OF_SIZE(m, t->size, init_var_iv)(&key, &context, t->iv, t->iv_len, t->aad, t->aad_len);
    aes_gcm_enc_dec_update_t update = t->dir == 0 ? OF_SIZE(m, t->size, enc_update) : OF_SIZE(m, t->size, dec_update);
    update(&key, &context, made->parts, made->parts, t->first);
    update(&key, &context, made->parts + t->first, made->parts + t->first, t->len - t->first);
    (t->dir == 0 ? OF_SIZE(m, t->size, enc_finalize) : OF_SIZE(m, t->size, dec_finalize))(&key, &context, made->tags[1], t->tag_len);
    GMAC_OF_SIZE(m, t->size, init)(&key, &context, t->iv, t->iv_len);
    GMAC_OF_SIZE(m, t->size, update)(&key, &context, t->bytes, t->first);
    GMAC_OF_SIZE(m, t->size, update)(&key, &context, t->bytes + t->first, t->len - t->first);
    GMAC_OF_SIZE(m, t->size, finalize)(&key, &context, made->tags[2], t->tag_len);
    (t->size == 0 ? m->keyexp_128 : t->size == 1 ? m->keyexp_192 : m->keyexp_256)(t->key, made->schedules[0], made->schedules[1]);
    (t->size == 0 ? m->sha1_one_block : t->size == 1 ? m->sha256_one_block : m->sha512_one_block)(t->bytes, made->state);
    (t->size == 0 ? m->sha1 : t->size == 1 ? m->sha256 : m->sha512)(t->bytes, t->len, made->digest);
}

static void compare_direct(void) {
    static struct text text;
    static struct made made[2];
    text.size = (unsigned)draw_below(3);
    text.dir = (unsigned)draw_below(2);
    text.len = draw_below(TEXT);
    text.first = draw_below(text.len + 1);
    text.iv_len = draw_below(2) == 0 ? 12 : 1 + draw_below(sizeof text.iv);
    text.aad_len = draw_below(sizeof text.aad);
    text.tag_len = 1 + draw_below(16);
    draw_bytes(text.key, sizeof text.key + sizeof text.iv + sizeof text.aad + sizeof text.bytes);
    for (int i = 0; i < 2; i++)
        do_direct(sides[i]->library.m, &text, &made[i]);
    if (memcmp(&made[0], &made[1], sizeof made[0]) != 0 && differing++ < 4)
        printf("a direct call differs from Intel's\n");
}

int main(int argc, char **argv) {
    unsigned long wanted = argc > 3 ? strtoul(argv[3], NULL, 0) : 20000;
    uint64_t seed = argc > 4 ? strtoull(argv[4], NULL, 0) : 1;
    if (argc < 3)
        return 2;
    for (int side = 0; side < 2; side++) {
        if (posix_memalign((void **)&sides[side], 64, sizeof *sides[side]) != 0)
            return 2;
        memset(sides[side], 0, sizeof *sides[side]);
        load_library(&sides[side]->library, argv[1 + side]);
    }
    for (unsigned round = 0; jobs_done < wanted && differing == 0; round++) {
        enum way way = (enum way)(round % WAYS);
        start_drawing(seed + round);
        int n = 1 + (int)draw_below(MOST);
        draw_round(n, way);
        for (int side = 0; side < 2; side++)
            drive(sides[side], n, way);
        compare_round(n, way);
        for (int i = 0; i < n / 20; i++)
            compare_direct();
        jobs_done += (unsigned long)n;
    }
    for (int side = 0; side < 2; side++)
        sides[side]->library.release(sides[side]->library.m);
    struct mbj_shadow_counters counts = counts_at_rest(&sides[1]->library);
    printf("%lu jobs, %lu differ from Intel's; ", jobs_done, differing);
    print_counts(&counts);
    return differing != 0 || counts.differing != 0 || counts.compared < jobs_done / 2;
}
