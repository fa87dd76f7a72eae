/* Bursts of an application's array of jobs by one algorithm, which the call tells. All jobs are done when the call returns. */
#include "waiting.h"

static void give_array(struct behind *b, uint64_t head) {
    const struct sample *sample;
    for (uint64_t place = head; (sample = records_next(&b->waiting, &place)) != NULL;)
        give_sample(sample, sample->from->status);
    records_rewind(&b->waiting, head);
}

/* ---- ciphers ---- */

/* What a burst's direction is taken for: CTR has one, and CBC deciphers by each code but the one to encipher. */
static IMB_CIPHER_DIRECTION direction_of(IMB_CIPHER_MODE cipher, IMB_CIPHER_DIRECTION dir) {
    return cipher == IMB_CIPHER_CNTR || dir == IMB_DIR_ENCRYPT ? IMB_DIR_ENCRYPT : IMB_DIR_DECRYPT;
}

static uint32_t submit_ciphers(IMB_MGR *m, submit_cipher_burst_t call, enum call way, IMB_JOB *jobs, uint32_t n, IMB_CIPHER_MODE cipher,
                               IMB_CIPHER_DIRECTION dir, IMB_KEY_SIZE_BYTES key_len) {
    struct behind *b = behind(m);
    uint64_t head = records_head(&b->waiting);
    for (uint32_t i = 0; jobs != NULL && i < n; i++) {
        IMB_JOB job = jobs[i];
        job.cipher_mode = cipher;
        job.cipher_direction = direction_of(cipher, dir);
        job.key_len_in_bytes = key_len;
        job.hash_alg = IMB_AUTH_NULL;
        job.chain_order = IMB_ORDER_CIPHER_HASH;
        if (is_due(&not_yet_of_jobs[class_of_job(&job)]))
            (void)take_of_array(b, &job, &jobs[i], way);
    }
    here.inside = INSIDE_CALL;
    uint32_t done = call(m, jobs, n, cipher, dir, key_len);
    here.inside = INSIDE_NONE;
    if (done == n)
        give_array(b, head);
    else
        take_back_waiting(b, head);
    return done;
}

static uint32_t submit_cipher_burst(IMB_MGR *m, IMB_JOB *jobs, const uint32_t n, const IMB_CIPHER_MODE cipher,
                                    const IMB_CIPHER_DIRECTION dir, const IMB_KEY_SIZE_BYTES key_len) {
    return submit_ciphers(m, behind(m)->calls.submit_cipher_burst, CALL_ARRAY, jobs, n, cipher, dir, key_len);
}

static uint32_t submit_cipher_burst_unchecked(IMB_MGR *m, IMB_JOB *jobs, const uint32_t n, const IMB_CIPHER_MODE cipher,
                                              const IMB_CIPHER_DIRECTION dir, const IMB_KEY_SIZE_BYTES key_len) {
    return submit_ciphers(m, behind(m)->calls.submit_cipher_burst_nocheck, CALL_ARRAY_UNCHECKED, jobs, n, cipher, dir, key_len);
}

/* ---- authentications ---- */

static uint32_t submit_hashes(IMB_MGR *m, submit_hash_burst_t call, enum call way, IMB_JOB *jobs, uint32_t n, IMB_HASH_ALG hash) {
    struct behind *b = behind(m);
    uint64_t head = records_head(&b->waiting);
    for (uint32_t i = 0; jobs != NULL && i < n; i++) {
        IMB_JOB job = jobs[i];
        job.cipher_mode = IMB_CIPHER_NULL;
        job.hash_alg = hash;
        job.chain_order = IMB_ORDER_HASH_CIPHER;
        if (is_due(&not_yet_of_jobs[class_of_job(&job)]))
            (void)take_of_array(b, &job, &jobs[i], way);
    }
    here.inside = INSIDE_CALL;
    uint32_t done = call(m, jobs, n, hash);
    here.inside = INSIDE_NONE;
    if (done == n)
        give_array(b, head);
    else
        take_back_waiting(b, head);
    return done;
}

static uint32_t submit_hash_burst(IMB_MGR *m, IMB_JOB *jobs, const uint32_t n, const IMB_HASH_ALG hash) {
    return submit_hashes(m, behind(m)->calls.submit_hash_burst, CALL_ARRAY, jobs, n, hash);
}

static uint32_t submit_hash_burst_unchecked(IMB_MGR *m, IMB_JOB *jobs, const uint32_t n, const IMB_HASH_ALG hash) {
    return submit_hashes(m, behind(m)->calls.submit_hash_burst_nocheck, CALL_ARRAY_UNCHECKED, jobs, n, hash);
}

void put_checking_arrays(IMB_MGR *m) {
    m->submit_cipher_burst = submit_cipher_burst;
    m->submit_cipher_burst_nocheck = submit_cipher_burst_unchecked;
    m->submit_hash_burst = submit_hash_burst;
    m->submit_hash_burst_nocheck = submit_hash_burst_unchecked;
}
