/* drive LIBRARY CALL [CIPHER HASH]: over the checker, does some drawn work of one kind: jobs of these algorithms by one of the manager's
 * calls, or direct calls. Prints what the checker counted, and where each job has its text and tag nothing. */
#include "counted.h"
#include "sample.h"

#include <stdio.h>
#include <string.h>

enum { JOBS = 60, TEXT = 700 };

static struct library library;
static struct keys keys[JOBS];
static struct sample samples[JOBS];
static uint8_t *memory[JOBS];

/* ---- jobs ---- */

static void draw_jobs(int cipher, int hash) {
    for (int i = 0; i < JOBS; i++) {
        do
            draw_sample(&samples[i]);
        while (samples[i].is_faulty || samples[i].cipher != cipher || samples[i].hash != hash);
        memory[i] = calloc(1, samples[i].memory);
        draw_bytes(memory[i], samples[i].memory);
    }
}

static void submit_singly(bool is_checked) {
    IMB_MGR *m = library.m;
    for (int i = 0; i < JOBS; i++) {
        fill_job(m, IMB_GET_NEXT_JOB(m), &keys[i], &samples[i], memory[i]);
        for (IMB_JOB *job = is_checked ? IMB_SUBMIT_JOB(m) : IMB_SUBMIT_JOB_NOCHECK(m); job != NULL; job = IMB_GET_COMPLETED_JOB(m))
            continue;
    }
    while (IMB_FLUSH_JOB(m) != NULL)
        continue;
}

static void submit_burst(bool is_checked) {
    IMB_MGR *m = library.m;
    IMB_JOB *jobs[JOBS];
    uint32_t n = IMB_GET_NEXT_BURST(m, JOBS, jobs);
    for (uint32_t i = 0; i < n; i++)
        fill_job(m, jobs[i], &keys[i], &samples[i], memory[i]);
    if (is_checked)
        IMB_SUBMIT_BURST(m, n, jobs);
    else
        IMB_SUBMIT_BURST_NOCHECK(m, n, jobs);
    while (IMB_FLUSH_BURST(m, JOBS, jobs) != 0)
        continue;
}

/* All jobs of a burst of an array have one direction and length of key. */
static void submit_array(bool is_checked) {
    IMB_MGR *m = library.m;
    for (int i = 0; i < JOBS; i++) {
        IMB_JOB job;
        fill_job(m, &job, &keys[i], &samples[i], memory[i]);
        IMB_KEY_SIZE_BYTES len = (IMB_KEY_SIZE_BYTES)job.key_len_in_bytes;
        if (job.hash_alg != IMB_AUTH_NULL && is_checked)
            IMB_SUBMIT_HASH_BURST(m, &job, 1, job.hash_alg);
        else if (job.hash_alg != IMB_AUTH_NULL)
            IMB_SUBMIT_HASH_BURST_NOCHECK(m, &job, 1, job.hash_alg);
        else if (is_checked)
            IMB_SUBMIT_CIPHER_BURST(m, &job, 1, job.cipher_mode, job.cipher_direction, len);
        else
            IMB_SUBMIT_CIPHER_BURST_NOCHECK(m, &job, 1, job.cipher_mode, job.cipher_direction, len);
    }
}

/* ---- direct calls ---- */

static uint8_t key[32], iv[16], aad[20], text[TEXT], tag[16];
DECLARE_ALIGNED(static struct gcm_key_data gcm, 64);

#define OF_SIZE(m, size, what) (size == 0 ? (m)->gcm128_##what : size == 1 ? (m)->gcm192_##what : (m)->gcm256_##what)
#define GMAC_OF_SIZE(m, size, what) (size == 0 ? (m)->gmac128_##what : size == 1 ? (m)->gmac192_##what : (m)->gmac256_##what)

static void do_whole(IMB_MGR *m) {
    struct gcm_context_data context;
    for (int size = 0; size < 3; size++)
        for (int i = 0; i < 4; i++) {
            OF_SIZE(m, size, pre)(key, &gcm);
            OF_SIZE(m, size, enc)(&gcm, &context, text, text, TEXT - (uint64_t)i, iv, aad, sizeof aad, tag, 16);
            OF_SIZE(m, size, dec)(&gcm, &context, text, text, TEXT - (uint64_t)i, iv, aad, sizeof aad, tag, 12);
        }
}

static void do_parts(IMB_MGR *m) {
    struct gcm_context_data context;
    for (int size = 0; size < 3; size++)
        for (int dir = 0; dir < 2; dir++) {
            aes_gcm_enc_dec_update_t update = dir == 0 ? OF_SIZE(m, size, enc_update) : OF_SIZE(m, size, dec_update);
            OF_SIZE(m, size, pre)(key, &gcm);
            OF_SIZE(m, size, init_var_iv)(&gcm, &context, iv, sizeof iv, aad, sizeof aad);
            update(&gcm, &context, text, text, 33);
            update(&gcm, &context, text + 33, text + 33, 200);
            (dir == 0 ? OF_SIZE(m, size, enc_finalize) : OF_SIZE(m, size, dec_finalize))(&gcm, &context, tag, 16);
            GMAC_OF_SIZE(m, size, init)(&gcm, &context, iv, 12);
            GMAC_OF_SIZE(m, size, update)(&gcm, &context, text, 100);
            GMAC_OF_SIZE(m, size, update)(&gcm, &context, text + 100, 7);
            GMAC_OF_SIZE(m, size, finalize)(&gcm, &context, tag, 16);
        }
}

/* A text of GCM in parts by jobs. */
static void do_segments(IMB_MGR *m) {
    struct gcm_context_data context;
    IMB_AES256_GCM_PRE(m, key, &gcm);
    for (int state = IMB_SGL_INIT; state <= IMB_SGL_COMPLETE; state++) {
        IMB_JOB *job = IMB_GET_NEXT_JOB(m);
        memset(job, 0, sizeof *job);
        job->cipher_mode = IMB_CIPHER_GCM_SGL;
        job->hash_alg = IMB_AUTH_GCM_SGL;
        job->cipher_direction = IMB_DIR_ENCRYPT;
        job->chain_order = IMB_ORDER_CIPHER_HASH;
        job->enc_keys = job->dec_keys = &gcm;
        job->key_len_in_bytes = 32;
        job->iv = iv;
        job->iv_len_in_bytes = 12;
        job->src = job->dst = text;
        job->msg_len_to_cipher_in_bytes = 100;
        job->u.GCM.aad = aad;
        job->u.GCM.aad_len_in_bytes = sizeof aad;
        job->u.GCM.ctx = &context;
        job->auth_tag_output = tag;
        job->auth_tag_output_len_in_bytes = 16;
        job->sgl_state = (IMB_SGL_STATE)state;
        if (IMB_SUBMIT_JOB(m) == NULL)
            IMB_FLUSH_JOB(m);
    }
}

static void do_keys(IMB_MGR *m) {
    DECLARE_ALIGNED(uint8_t schedules[2][240], 16);
    DECLARE_ALIGNED(uint8_t subkeys[2][16], 16);
    uint8_t state[64];
    hash_one_block_t const block[] = {m->sha1_one_block, m->sha224_one_block, m->sha256_one_block, m->sha384_one_block, m->sha512_one_block};
    hash_fn_t const digest[] = {m->sha1, m->sha224, m->sha256, m->sha384, m->sha512};
    m->keyexp_192(key, schedules[0], schedules[1]);
    m->keyexp_128(key, schedules[0], schedules[1]);
    m->cmac_subkey_gen_128(schedules[0], subkeys[0], subkeys[1]);
    m->keyexp_256(key, schedules[0], schedules[1]);
    m->cmac_subkey_gen_256(schedules[0], subkeys[0], subkeys[1]);
    for (int i = 0; i < 5; i++) {
        block[i](text, state);
        digest[i](text, TEXT, state);
    }
}

static bool does(const char *call, const char *name) {
    return strcmp(call, name) == 0;
}

int main(int argc, char **argv) {
    if (argc < 3)
        return 2;
    load_library(&library, argv[1]);
    start_drawing(7);
    draw_bytes(key, sizeof key);
    draw_bytes(text, sizeof text);
    if (argc > 4)
        draw_jobs(atoi(argv[3]), atoi(argv[4]));
    const char *call = argv[2];
    if (does(call, "job") || does(call, "job-nocheck"))
        submit_singly(does(call, "job"));
    else if (does(call, "burst") || does(call, "burst-nocheck"))
        submit_burst(does(call, "burst"));
    else if (does(call, "array") || does(call, "array-nocheck"))
        submit_array(does(call, "array"));
    else if (does(call, "direct")) {
        do_whole(library.m);
        do_parts(library.m);
        do_keys(library.m);
    } else if (does(call, "segments"))
        do_segments(library.m);
    else
        return 2;
    library.release(library.m);
    struct mbj_shadow_counters counts = counts_at_rest(&library);
    print_counts(&counts);
    return 0;
}
