/* setup OTHER DROPIN: compares what two libraries do while a manager is set up and its ring of jobs is filled: pointers, features, errors
 * and what comes back. Then jobs with an IV beyond the limit of the second library, which the other one doesn't have, are refused there, and
 * jobs of a burst write over one place in their order. */
#include "library.h"

#include <stdio.h>
#include <string.h>

enum { MOST_FACTS = 400, LONG_IV = 65536 };

/* What a library showed, in the order in which it was asked. */
struct facts {
    unsigned count;
    long value[MOST_FACTS];
    const char *what[MOST_FACTS];
};

static struct library libraries[2];
static uint8_t text[70000], iv[LONG_IV], tag[64];

static void note(struct facts *facts, const char *what, long value) {
    if (facts->count < MOST_FACTS) {
        facts->what[facts->count] = what;
        facts->value[facts->count++] = value;
    }
}

/* ---- setting up ---- */

static void note_setting_up(struct facts *facts, const struct library *library) {
    IMB_MGR *m = library->alloc(0);
    IMB_ARCH arch = IMB_ARCH_NUM;
    void *const *functions = (void *const *)(const void *)&m->get_next_job;
    for (size_t i = 0; i < (size_t)((char *)&m->earliest_job - (char *)&m->get_next_job) / sizeof *functions; i++)
        note(facts, "a function before it is set up", functions[i] != NULL);
    note(facts, "the architecture before it is set up", m->used_arch);
    library->init(m, NULL);
    note(facts, "the features of self-tests", (long)(m->features & (IMB_FEATURE_SELF_TEST | IMB_FEATURE_SELF_TEST_PASS)));
    note(facts, "the error of setting up", library->error(m));
    library->release(m);
    library->init(NULL, &arch);
    note(facts, "the architecture without a manager", arch);
    note(facts, "the error without a manager", library->error(NULL));
#ifdef IMB_FLAG_AESNI_OFF
    note(facts, "a manager without AES instructions", library->alloc(IMB_FLAG_AESNI_OFF) != NULL);
    note(facts, "its error", library->error(NULL));
#endif
}

/* What an error is called. The first text is copied, since both libraries may ask strerror, whose text lasts until it is asked again. */
static unsigned differing_texts(void) {
    enum { BEFORE_ERRORS = -3, AFTER_ERRORS = IMB_ERR_MAX + 3, LONGEST_TEXT = 200 };
    unsigned differing = 0;
    for (int error = BEFORE_ERRORS; error < AFTER_ERRORS; error++) {
        char theirs[LONGEST_TEXT];
        snprintf(theirs, sizeof theirs, "%s", libraries[0].text(error));
        const char *ours = libraries[1].text(error);
        if (strcmp(theirs, ours) != 0 && differing++ < 20)
            printf("error %d: \"%s\" and \"%s\"\n", error, theirs, ours);
    }
    return differing;
}

/* ---- the ring ---- */

static void fill(IMB_JOB *job) {
    memset(job, 0, sizeof *job);
    job->cipher_mode = IMB_CIPHER_NULL;
    job->hash_alg = IMB_AUTH_SHA_512;
    job->src = text;
    job->msg_len_to_hash_in_bytes = 3;
    job->auth_tag_output = tag;
    job->auth_tag_output_len_in_bytes = 64;
}

/* A job that comes back, at once or flushed: its status, or -1. */
static long status_of(IMB_MGR *m, const IMB_JOB *job) {
    if (job == NULL)
        job = IMB_FLUSH_JOB(m);
    return job == NULL ? -1 : (long)job->status;
}

static void note_singles(struct facts *facts, IMB_MGR *m) {
    IMB_JOB *one = IMB_GET_NEXT_JOB(m), *other = IMB_GET_NEXT_JOB(m);
    note(facts, "a job that is handed out twice", one == other);
    fill(one);
    one->status = 77;
    note(facts, "its status before it is submitted", IMB_GET_NEXT_JOB(m)->status);
    one->auth_tag_output = NULL;
    note(facts, "the status of a wrong job", status_of(m, IMB_SUBMIT_JOB(m)));
    note(facts, "its error, after a flush", m->imb_errno);
    memset(IMB_GET_NEXT_JOB(m), 0, sizeof *one);
    note(facts, "the status of a job of zeros", status_of(m, IMB_SUBMIT_JOB(m)));
    fill(IMB_GET_NEXT_JOB(m));
    IMB_GET_NEXT_JOB(m)->msg_len_to_hash_in_bytes = 65535;
    note(facts, "an unchecked hash of 65,535 bytes", status_of(m, IMB_SUBMIT_JOB_NOCHECK(m)));
    fill(IMB_GET_NEXT_JOB(m));
    IMB_GET_NEXT_JOB(m)->hash_alg = IMB_AUTH_NULL;
    note(facts, "a job that does nothing", status_of(m, IMB_SUBMIT_JOB(m)));
    note(facts, "a flush of none", IMB_FLUSH_JOB(m) != NULL);
    note(facts, "its error", m->imb_errno);
    note(facts, "a completed one of none", IMB_GET_COMPLETED_JOB(m) != NULL);
}

static uint32_t next_four(IMB_MGR *m, IMB_JOB **jobs) {
    uint32_t count = IMB_GET_NEXT_BURST(m, 4, jobs);
    for (uint32_t i = 0; i < count; i++)
        fill(jobs[i]);
    return count;
}

static void note_submission(struct facts *facts, IMB_MGR *m, IMB_JOB **jobs, const IMB_JOB *wrong) {
    note(facts, "a wrong burst", (long)IMB_SUBMIT_BURST(m, 4, jobs));
    note(facts, "its error", m->imb_errno);
    note(facts, "its wrong job", jobs[0] == wrong);
    note(facts, "the status of that", jobs[0]->status);
    note(facts, "how many jobs are out then", (long)IMB_QUEUE_SIZE(m));
}

static void note_bursts(struct facts *facts, IMB_MGR *m) {
    IMB_JOB *jobs[IMB_MAX_JOBS], *wrong;
    note(facts, "a burst of no job", (long)IMB_GET_NEXT_BURST(m, 0, jobs));
    note(facts, "too long a burst", (long)IMB_GET_NEXT_BURST(m, IMB_MAX_BURST_SIZE + 1, jobs));
    note(facts, "its error", m->imb_errno);
    note(facts, "the longest burst", (long)IMB_GET_NEXT_BURST(m, IMB_MAX_BURST_SIZE, jobs));
    note(facts, "a flushed burst without an array", (long)IMB_FLUSH_BURST(m, 5, NULL));
    note(facts, "its error", m->imb_errno);
    note(facts, "four jobs", (long)next_four(m, jobs));
    wrong = jobs[2];
    jobs[2] = jobs[1];
    jobs[1] = wrong;
    note_submission(facts, m, jobs, wrong);
    next_four(m, jobs);
    wrong = jobs[2];
    wrong->auth_tag_output = NULL;
    note_submission(facts, m, jobs, wrong);
    next_four(m, jobs);
    jobs[2] = NULL;
    note_submission(facts, m, jobs, NULL);
}

static void note_set_up_again(struct facts *facts, const struct library *library) {
    IMB_MGR *m = library->m;
    for (int i = 0; i < 3; i++) {
        fill(IMB_GET_NEXT_JOB(m));
        IMB_SUBMIT_JOB(m);
    }
    note(facts, "three jobs that wait", (long)IMB_QUEUE_SIZE(m));
    library->init(m, NULL);
    note(facts, "those that are out after it is set up again", (long)IMB_QUEUE_SIZE(m));
    note(facts, "a flush after that", IMB_FLUSH_JOB(m) != NULL);
}

/* ---- long IVs, by the drop-in ---- */

static void fill_long(IMB_JOB *job, const struct gcm_key_data *key, bool is_gcm) {
    fill(job);
    job->hash_alg = is_gcm ? IMB_AUTH_AES_GMAC : IMB_AUTH_AES_GMAC_128;
    job->cipher_mode = is_gcm ? IMB_CIPHER_GCM : IMB_CIPHER_NULL;
    job->cipher_direction = IMB_DIR_ENCRYPT;
    job->enc_keys = job->dec_keys = key;
    job->key_len_in_bytes = 16;
    job->dst = text;
    job->msg_len_to_cipher_in_bytes = 16;
    job->iv = iv;
    job->iv_len_in_bytes = LONG_IV;
    job->auth_tag_output_len_in_bytes = 16;
    if (!is_gcm) {
        job->u.GMAC._key = key;
        job->u.GMAC._iv = iv;
        job->u.GMAC.iv_len_in_bytes = LONG_IV;
    }
}

static unsigned check_long_ivs(void) {
    DECLARE_ALIGNED(static struct gcm_key_data key, 64);
    IMB_MGR *m = libraries[1].m;
    unsigned wrong = 0;
    IMB_AES128_GCM_PRE(m, iv, &key);
    for (unsigned i = 0; i < 4; i++) {
        fill_long(IMB_GET_NEXT_JOB(m), &key, i % 2 == 0);
        const IMB_JOB *job = i < 2 ? IMB_SUBMIT_JOB(m) : IMB_SUBMIT_JOB_NOCHECK(m);
        if (job == NULL || job->status != IMB_STATUS_INVALID_ARGS || m->imb_errno != IMB_ERR_JOB_IV_LEN) {
            printf("a long IV isn't refused (%u): status %d, error %d\n", i, job == NULL ? -1 : (int)job->status, m->imb_errno);
            wrong++;
        }
    }
    return wrong;
}

/* ---- jobs of a burst with one place, by the drop-in ---- */

static void fill_ctr(IMB_JOB *job, const uint8_t *schedule, const uint8_t *own_iv, uint8_t *dst) {
    fill(job);
    job->cipher_mode = IMB_CIPHER_CNTR;
    job->hash_alg = IMB_AUTH_NULL;
    job->cipher_direction = IMB_DIR_ENCRYPT;
    job->enc_keys = job->dec_keys = schedule;
    job->key_len_in_bytes = 16;
    job->dst = dst;
    job->msg_len_to_cipher_in_bytes = 40;
    job->iv = own_iv;
    job->iv_len_in_bytes = 16;
}

/* Results are written in the order of the jobs: if their places overlap the last one stays. */
static unsigned check_one_place(void) {
    enum { JOBS = 40 };
    DECLARE_ALIGNED(static uint8_t schedules[2][240], 16);
    static uint8_t ivs[JOBS][16], single[64], shared[128];
    IMB_MGR *m = libraries[1].m;
    IMB_JOB *jobs[JOBS];
    IMB_AES_KEYEXP_128(m, iv, schedules[0], schedules[1]);
    IMB_GET_NEXT_BURST(m, JOBS, jobs);
    for (unsigned i = 0; i < JOBS; i++) {
        ivs[i][0] = (uint8_t)i;
        fill_ctr(jobs[i], schedules[0], ivs[i], shared + i % 3);
    }
    uint32_t given = IMB_SUBMIT_BURST_NOCHECK(m, JOBS, jobs);
    given += IMB_FLUSH_BURST(m, JOBS - given, jobs);
    fill_ctr(IMB_GET_NEXT_JOB(m), schedules[0], ivs[JOBS - 1], single);
    if (IMB_SUBMIT_JOB(m) == NULL)
        IMB_FLUSH_JOB(m);
    if (given == JOBS && memcmp(single, shared + (JOBS - 1) % 3, 40) == 0)
        return 0;
    printf("jobs of a burst with one place: %u came back, or the last one's bytes aren't there\n", given);
    return 1;
}

int main(int argc, char **argv) {
    static struct facts facts[2];
    unsigned differing = 0;
    if (argc < 3)
        return 2;
    for (int i = 0; i < 2; i++) {
        load_library(&libraries[i], argv[1 + i]);
        note_setting_up(&facts[i], &libraries[i]);
        note_singles(&facts[i], libraries[i].m);
        note_bursts(&facts[i], libraries[i].m);
        note_set_up_again(&facts[i], &libraries[i]);
    }
    for (unsigned i = 0; i < facts[0].count; i++)
        if (facts[0].value[i] != facts[1].value[i] && differing++ < 20)
            printf("%s: %ld and %ld\n", facts[0].what[i], facts[0].value[i], facts[1].value[i]);
    differing += differing_texts() + check_long_ivs() + check_one_place();
    printf("%u facts, %u differ\n", facts[0].count, differing);
    for (int i = 0; i < 2; i++)
        libraries[i].release(libraries[i].m);
    return differing != 0;
}
