/* This library, by the job calls of mbj.h. */
#include "bench.h"
#include "mbj_direct.h"

static const uint32_t ciphers[] = {MBJ_CIPHER_NULL, MBJ_CIPHER_CBC, MBJ_CIPHER_CNTR, MBJ_CIPHER_GCM, MBJ_CIPHER_CCM, MBJ_CIPHER_CBC};

static const uint32_t auths[] = {MBJ_AUTH_NULL,
                                 MBJ_AUTH_HMAC_SHA_1,
                                 MBJ_AUTH_HMAC_SHA_224,
                                 MBJ_AUTH_HMAC_SHA_256,
                                 MBJ_AUTH_HMAC_SHA_384,
                                 MBJ_AUTH_HMAC_SHA_512,
                                 MBJ_AUTH_AES_CMAC,
                                 MBJ_AUTH_AES_GMAC,
                                 MBJ_AUTH_SHA_1,
                                 MBJ_AUTH_SHA_224,
                                 MBJ_AUTH_SHA_256,
                                 MBJ_AUTH_SHA_384,
                                 MBJ_AUTH_SHA_512,
                                 MBJ_AUTH_HMAC_SHA_1_STATES,
                                 MBJ_AUTH_HMAC_SHA_224_STATES,
                                 MBJ_AUTH_HMAC_SHA_256_STATES,
                                 MBJ_AUTH_HMAC_SHA_384_STATES,
                                 MBJ_AUTH_HMAC_SHA_512_STATES,
                                 MBJ_AUTH_GCM,
                                 MBJ_AUTH_AES_CCM};

/* A manager, and the states of the key, which are made before any job is timed. */
struct started {
    MBJ_MGR *m;
    uint8_t states[2 * TAG_ROOM];
    size_t states_len;
};

static void make_states(struct started *s, const struct work *work) {
    static const size_t lens[] = {40, 64, 64, 128, 128};
    uint32_t hash = (uint32_t)(work->auth - HMAC_SHA_1_STATES);
    struct mbj_bytes key = {keys.hmac, tag_len(work)};
    struct mbj_room room = {s->states, sizeof s->states};
    s->states_len = lens[hash];
    if (mbj_hmac_states(hash, key, room) != MBJ_ERR_NONE)
        give_up("no states of the key");
}

/* One key session, which has the key of all jobs. */
static void use_session(struct started *s) {
    struct mbj_keys set = MBJ_KEYS_INIT;
    struct mbj_bytes key = {keys.aes, sizeof keys.aes};
    if (mbj_keys_new(&set, &key, 1) != MBJ_ERR_NONE || mbj_use_keys(s->m, &set) != MBJ_ERR_NONE)
        give_up("no key session");
    mbj_keys_free(&set);
}

static MBJ_MGR *make_manager(const struct work *work) {
    if (!work->keeps)
        return mbj_alloc_mgr();
    MBJ_MGR *m = (MBJ_MGR *)malloc(sizeof *m);
    return m != NULL && mbj_init_mgr_keeping(m) == MBJ_ERR_NONE ? m : NULL;
}

static void *start(const struct library *library, const struct work *work) {
    struct started *s = (struct started *)malloc(sizeof *s);
    (void)library;
    if (s == NULL || (s->m = make_manager(work)) == NULL)
        give_up("no manager of this library");
    if (has_states(work->auth))
        make_states(s, work);
    if (work->in_session)
        use_session(s);
    return s;
}

static void end(void *started) {
    mbj_free_mgr(((struct started *)started)->m);
    free(started);
}

static void fill_auth_key(MBJ_JOB *job, const struct started *s, const struct work *work) {
    bool is_mac = is_hmac(work->auth);
    job->auth_key = has_states(work->auth) ? s->states : is_mac ? keys.hmac : keys.aes;
    job->auth_key_len_in_bytes = has_states(work->auth) ? s->states_len : is_mac ? tag_len(work) : sizeof keys.aes;
}

static void fill(MBJ_JOB *job, const struct started *s, const struct work *work, struct batch *batch, size_t i) {
    job->cipher_mode = ciphers[work->cipher];
    job->hash_alg = auths[work->auth];
    job->packet = batch->packets[i];
    job->packet_len_in_bytes = batch->lens[i];
    job->iv = keys.iv;
    job->iv_len_in_bytes = iv_len(work);
    if (work->in_session)
        job->session = 0;
    if (work->cipher != NO_CIPHER) {
        job->cipher_direction = work->cipher == CBC_DEC ? MBJ_DIR_DECRYPT : MBJ_DIR_ENCRYPT;
        job->key = keys.aes;
        job->key_len_in_bytes = sizeof keys.aes;
        job->msg_len_to_cipher_in_bytes = batch->lens[i];
        job->dst = batch->packets[i];
    }
    if (work->auth == NO_AUTH)
        return;
    job->auth_tag_output = batch->tags[i];
    job->auth_tag_output_len_in_bytes = tag_len(work);
    if (work->auth == GCM_TAG || work->auth == CCM_TAG) {
        job->aad = keys.aad;
        job->aad_len_in_bytes = sizeof keys.aad;
        return;
    }
    fill_auth_key(job, s, work);
    job->msg_len_to_hash_in_bytes = batch->lens[i];
}

static size_t take(const MBJ_JOB *done) {
    if (done->status != MBJ_STATUS_COMPLETED)
        give_up(mbj_err_text(done->reason));
    return 1;
}

static size_t take_each(MBJ_JOB *const *done, uint32_t count) {
    for (uint32_t i = 0; i < count; i++)
        take(done[i]);
    return count;
}

static size_t flush_all(const struct started *s) {
    size_t given = 0;
    for (const MBJ_JOB *done; (done = mbj_flush_job(s->m)) != NULL;)
        given += take(done);
    return given;
}

static size_t pass_by_calls(const struct started *s, const struct work *work, struct batch *batch) {
    size_t given = 0;
    for (size_t i = 0; i < BATCH; i++) {
        fill(mbj_get_next_job(s->m), s, work, batch, i);
        for (const MBJ_JOB *done = mbj_submit_job(s->m); done != NULL; done = mbj_get_completed_job(s->m))
            given += take(done);
        if ((i + 1) % work->flush_after == 0)
            given += flush_all(s);
    }
    return given + flush_all(s);
}

static size_t pass_by_bursts(const struct started *s, const struct work *work, struct batch *batch) {
    enum { BURST = 32 };
    MBJ_JOB *jobs[BURST];
    size_t given = 0;
    for (size_t i = 0; i < BATCH; i += BURST) {
        if (mbj_get_next_burst(s->m, BURST, jobs) != BURST)
            give_up("this library lacks room");
        for (size_t k = 0; k < BURST; k++)
            fill(jobs[k], s, work, batch, i + k);
        given += take_each(jobs, mbj_submit_burst(s->m, BURST, jobs, jobs));
        given += take_each(jobs, mbj_get_completed_burst(s->m, BURST, jobs));
    }
    for (uint32_t count; (count = mbj_flush_burst(s->m, BURST, jobs)) != 0;)
        given += take_each(jobs, count);
    return given;
}

static void pass(void *started, const struct work *work, struct batch *batch) {
    const struct started *s = (const struct started *)started;
    size_t given = work->by_bursts ? pass_by_bursts(s, work, batch) : pass_by_calls(s, work, batch);
    if (given != BATCH)
        give_up("this library lacks jobs");
}

const struct library ours = {"here", start, pass, end};
