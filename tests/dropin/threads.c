/* Threads over one library, which this program is linked to: each has a manager of its own, to which jobs go singly or in bursts, all make
 * keys at once, and in 2.0 numbers of sessions, a manager goes from thread to thread, and one makes sessions that the others use. Prints
 * how many jobs came back wrong. */
#define NO_COMPAT_IMB_API_053
#include <intel-ipsec-mb.h>
#include <pthread.h>
#include <stdbool.h>
#include <stdio.h>
#include <string.h>

enum { THREADS = 6, SESSIONS = 64, JOBS = 200, ROUNDS = 20, LEN = 256, TAG = 20, BURST = 32 };

struct session {
    DECLARE_ALIGNED(uint8_t encryption[240], 16);
    DECLARE_ALIGNED(uint8_t decryption[240], 16);
    DECLARE_ALIGNED(uint8_t inner[20], 16);
    DECLARE_ALIGNED(uint8_t outer[20], 16);
    uint8_t wanted[TAG]; /* of its text */
};

struct place {
    uint8_t text[LEN], tag[TAG];
};

static struct session sessions[SESSIONS];
static struct place places[THREADS][JOBS];
static unsigned wrong[THREADS];
static pthread_barrier_t turn;
static IMB_MGR *handed_on;

static void make_session(IMB_MGR *m, struct session *session, unsigned number) {
    uint8_t key[64], padded[64];
    for (unsigned i = 0; i < sizeof key; i++)
        key[i] = (uint8_t)(number * 7 + i);
    for (unsigned i = 0; i < sizeof key; i++)
        padded[i] = key[i] ^ 0x36;
    IMB_SHA1_ONE_BLOCK(m, padded, session->inner);
    for (unsigned i = 0; i < sizeof key; i++)
        padded[i] = key[i] ^ 0x5c;
    IMB_SHA1_ONE_BLOCK(m, padded, session->outer);
    IMB_AES_KEYEXP_128(m, key, session->encryption, session->decryption);
}

static void fill(IMB_JOB *job, struct session *session, struct place *place) {
    static const uint8_t iv[16];
    memset(job, 0, sizeof *job);
    memset(place->text, (int)(session - sessions), sizeof place->text);
    job->cipher_mode = IMB_CIPHER_CBC;
    job->cipher_direction = IMB_DIR_ENCRYPT;
    job->hash_alg = IMB_AUTH_HMAC_SHA_1;
    job->chain_order = IMB_ORDER_CIPHER_HASH;
    job->enc_keys = session->encryption;
    job->dec_keys = session->decryption;
    job->key_len_in_bytes = 16;
    job->iv = iv;
    job->iv_len_in_bytes = sizeof iv;
    job->src = job->dst = place->text;
    job->msg_len_to_cipher_in_bytes = job->msg_len_to_hash_in_bytes = LEN;
    job->auth_tag_output = place->tag;
    job->auth_tag_output_len_in_bytes = TAG;
    job->u.HMAC._hashed_auth_key_xor_ipad = session->inner;
    job->u.HMAC._hashed_auth_key_xor_opad = session->outer;
    job->user_data = session;
}

static unsigned is_wrong(const IMB_JOB *job) {
    const struct session *session = job->user_data;
    return job->status != IMB_STATUS_COMPLETED || memcmp(job->auth_tag_output, session->wanted, TAG) != 0;
}

/* Each returns how many jobs came back. Now and then keys are made that others make, too. */
static unsigned submit_singly(IMB_MGR *m, unsigned thread, unsigned round) {
    unsigned back = 0;
    for (unsigned i = 0; i < JOBS; i++) {
        struct session again;
        if (i % 16 == 0)
            make_session(m, &again, i / 16 + round % 5);
        fill(IMB_GET_NEXT_JOB(m), &sessions[(i + round) % SESSIONS], &places[thread][i]);
        for (IMB_JOB *job = IMB_SUBMIT_JOB(m); job != NULL; job = IMB_GET_COMPLETED_JOB(m), back++)
            wrong[thread] += is_wrong(job);
    }
    return back;
}

static bool has_session(IMB_MGR *m, IMB_JOB *job) {
#if IMB_VERSION_NUM >= IMB_VERSION(2, 0, 0)
    return imb_set_session(m, job) != 0;
#else
    return m != NULL && job != NULL;
#endif
}

static unsigned submit_in_bursts(IMB_MGR *m, unsigned thread, unsigned round) {
    IMB_JOB *jobs[BURST];
    unsigned back = 0;
    for (uint32_t i = 0, n; i < JOBS; i += n) {
        n = IMB_GET_NEXT_BURST(m, JOBS - i < BURST ? JOBS - i : BURST, jobs);
        for (uint32_t k = 0; k < n; k++) {
            fill(jobs[k], &sessions[(i + k + round) % SESSIONS], &places[thread][i + k]);
            wrong[thread] += !has_session(m, jobs[k]);
        }
        uint32_t given = IMB_SUBMIT_BURST(m, n, jobs);
        for (uint32_t k = 0; k < given; k++)
            wrong[thread] += is_wrong(jobs[k]);
        back += given;
    }
    return back;
}

/* Jobs of a manager that this thread alone has. */
static void own_manager(unsigned thread, unsigned round) {
    IMB_MGR *m = alloc_mb_mgr(0);
    init_mb_mgr_auto(m, NULL);
    unsigned back = round % 2 == 0 ? submit_singly(m, thread, round) : submit_in_bursts(m, thread, round);
    for (IMB_JOB *job; (job = IMB_FLUSH_JOB(m)) != NULL; back++)
        wrong[thread] += is_wrong(job);
    wrong[thread] += back != JOBS;
    free_mb_mgr(m);
}

/* Each thread submits a job in its turn, and the last one flushes them all. */
static void shared_manager(unsigned thread) {
    for (unsigned who = 0; who < THREADS; who++) {
        pthread_barrier_wait(&turn);
        if (who == thread) {
            fill(IMB_GET_NEXT_JOB(handed_on), &sessions[thread], &places[thread][0]);
            wrong[thread] += IMB_SUBMIT_JOB(handed_on) != NULL;
        }
    }
    pthread_barrier_wait(&turn);
    if (thread != THREADS - 1)
        return;
    unsigned back = 0;
    for (IMB_JOB *job; (job = IMB_FLUSH_JOB(handed_on)) != NULL; back++)
        wrong[thread] += is_wrong(job);
    wrong[thread] += back != THREADS;
}

static void *work(void *number) {
    unsigned thread = (unsigned)(uintptr_t)number;
    for (unsigned round = 0; round < ROUNDS; round++)
        own_manager(thread, round);
    shared_manager(thread);
    return NULL;
}

int main(void) {
    pthread_t threads[THREADS];
    unsigned sum = 0;
    handed_on = alloc_mb_mgr(0);
    init_mb_mgr_auto(handed_on, NULL);
    for (unsigned i = 0; i < SESSIONS; i++) {
        make_session(handed_on, &sessions[i], i);
        fill(IMB_GET_NEXT_JOB(handed_on), &sessions[i], &places[0][0]);
        if (IMB_SUBMIT_JOB(handed_on) == NULL)
            IMB_FLUSH_JOB(handed_on);
        memcpy(sessions[i].wanted, places[0][0].tag, TAG);
    }
    pthread_barrier_init(&turn, NULL, THREADS);
    for (uintptr_t i = 0; i < THREADS; i++)
        pthread_create(&threads[i], NULL, work, (void *)i);
    for (unsigned i = 0; i < THREADS; i++) {
        pthread_join(threads[i], NULL);
        sum += wrong[i];
    }
    free_mb_mgr(handed_on);
    printf("%u jobs, %u wrong\n", THREADS * (ROUNDS * JOBS + 1), sum);
    return sum != 0;
}
