/* crowd CHECKER [THREADS ROUNDS]: threads that each have managers of their own, hand one on, and make direct calls at once; they end while
 * their samples wait, and others begin. Each result is compared with that of the first thread. */
#include "counted.h"

#include <pthread.h>
#include <stdio.h>
#include <string.h>

enum { MOST_THREADS = 64, JOBS = 60, LEN = 256, TAG = 20 };

struct place {
    uint8_t text[LEN], tag[TAG];
};

static struct library library;
static DECLARE_ALIGNED(uint8_t encryption[240], 16);
static DECLARE_ALIGNED(uint8_t decryption[240], 16);
static DECLARE_ALIGNED(uint8_t states[2][20], 16);
static DECLARE_ALIGNED(struct gcm_key_data gcm, 64);
static const uint8_t key[32] = {1, 2, 3}, iv[16];
static uint8_t wanted_tag[TAG], wanted_gcm_tag[16];
static unsigned wrong;
static IMB_MGR *handed_on;
static pthread_mutex_t turn = PTHREAD_MUTEX_INITIALIZER;

static void fill(IMB_JOB *job, struct place *place) {
    memset(job, 0, sizeof *job);
    memset(place, 0, sizeof *place);
    job->cipher_mode = IMB_CIPHER_CBC;
    job->cipher_direction = IMB_DIR_ENCRYPT;
    job->hash_alg = IMB_AUTH_HMAC_SHA_1;
    job->chain_order = IMB_ORDER_CIPHER_HASH;
    job->enc_keys = encryption;
    job->dec_keys = decryption;
    job->key_len_in_bytes = 16;
    job->iv = iv;
    job->iv_len_in_bytes = sizeof iv;
    job->src = job->dst = place->text;
    job->msg_len_to_cipher_in_bytes = job->msg_len_to_hash_in_bytes = LEN;
    job->auth_tag_output = place->tag;
    job->auth_tag_output_len_in_bytes = TAG;
    job->u.HMAC._hashed_auth_key_xor_ipad = states[0];
    job->u.HMAC._hashed_auth_key_xor_opad = states[1];
}

static unsigned is_wrong(const IMB_JOB *job) {
    return job->status != IMB_STATUS_COMPLETED || memcmp(job->auth_tag_output, wanted_tag, TAG) != 0;
}

static unsigned do_jobs(IMB_MGR *m) {
    static __thread struct place places[JOBS];
    unsigned bad = 0, back = 0;
    for (int i = 0; i < JOBS; i++) {
        fill(IMB_GET_NEXT_JOB(m), &places[i]);
        for (IMB_JOB *job = IMB_SUBMIT_JOB(m); job != NULL; job = IMB_GET_COMPLETED_JOB(m), back++)
            bad += is_wrong(job);
    }
    for (IMB_JOB *job; (job = IMB_FLUSH_JOB(m)) != NULL; back++)
        bad += is_wrong(job);
    return bad + (back != JOBS);
}

static unsigned do_direct(IMB_MGR *m) {
    struct gcm_context_data context;
    uint8_t text[LEN] = {0}, tag[16], parts_tag[16];
    IMB_AES128_GCM_ENC(m, &gcm, &context, text, text, LEN, iv, key, sizeof key, tag, 16);
    memset(text, 0, sizeof text);
    IMB_AES128_GCM_INIT(m, &gcm, &context, iv, key, sizeof key);
    IMB_AES128_GCM_ENC_UPDATE(m, &gcm, &context, text, text, 100);
    IMB_AES128_GCM_ENC_UPDATE(m, &gcm, &context, text + 100, text + 100, LEN - 100);
    IMB_AES128_GCM_ENC_FINALIZE(m, &gcm, &context, parts_tag, 16);
    return (memcmp(tag, wanted_gcm_tag, 16) != 0) + (memcmp(parts_tag, wanted_gcm_tag, 16) != 0);
}

static void *work(void *nothing) {
    IMB_MGR *m = library.alloc(0);
    library.init(m, NULL);
    unsigned bad = do_jobs(m);
    for (int i = 0; i < 20; i++)
        bad += do_direct(m);
    pthread_mutex_lock(&turn);
    bad += do_jobs(handed_on);
    wrong += bad;
    pthread_mutex_unlock(&turn);
    library.release(m);
    return nothing;
}

static void make_wanted(IMB_MGR *m) {
    static struct place place;
    struct gcm_context_data context;
    uint8_t block[64], text[LEN] = {0};
    memset(block, 0x36, sizeof block);
    IMB_SHA1_ONE_BLOCK(m, block, states[0]);
    memset(block, 0x5c, sizeof block);
    IMB_SHA1_ONE_BLOCK(m, block, states[1]);
    IMB_AES_KEYEXP_128(m, key, encryption, decryption);
    IMB_AES128_GCM_PRE(m, key, &gcm);
    IMB_AES128_GCM_ENC(m, &gcm, &context, text, text, LEN, iv, key, sizeof key, wanted_gcm_tag, 16);
    fill(IMB_GET_NEXT_JOB(m), &place);
    if (IMB_SUBMIT_JOB(m) == NULL)
        IMB_FLUSH_JOB(m);
    memcpy(wanted_tag, place.tag, TAG);
}

int main(int argc, char **argv) {
    int threads = argc > 2 ? atoi(argv[2]) : 6, rounds = argc > 3 ? atoi(argv[3]) : 20;
    pthread_t started[MOST_THREADS];
    if (argc < 2 || threads > MOST_THREADS)
        return 2;
    load_library(&library, argv[1]);
    handed_on = library.alloc(0);
    library.init(handed_on, NULL);
    make_wanted(library.m);
    for (int round = 0; round < rounds; round++) {
        for (int i = 0; i < threads; i++)
            if (pthread_create(&started[i], NULL, work, NULL) != 0)
                return 2;
        for (int i = 0; i < threads; i++)
            pthread_join(started[i], NULL);
    }
    library.release(handed_on);
    library.release(library.m);
    struct mbj_shadow_counters counts = counts_at_rest(&library);
    printf("%u wrong; ", wrong);
    print_counts(&counts);
    return wrong != 0 || counts.differing != 0 || counts.compared == 0 || counts.compared + counts.dropped != counts.sampled;
}
