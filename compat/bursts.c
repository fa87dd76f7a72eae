/* Bursts: of jobs in the manager's own array, and of an array of the application's, whose jobs are all done when the call returns. */
#include "check.h"
#include "errors.h"
#include "parts.h"
#include "ring.h"
#include "version.h"

/* ---- of the manager's array ---- */

static uint32_t places_left(IMB_MGR *m) {
    struct dropin *d = m->aes128_ooo;
    return IMB_MAX_JOBS - queue_len(&d->ring);
}

/* With no job out, the next one is the first of the array. */
static void restart(IMB_MGR *m) {
    if (m->earliest_job < 0)
        m->next_job = 0;
}

static uint32_t next_burst(IMB_MGR *m, const uint32_t n, IMB_JOB **jobs) {
    if (dropin_of(m) == NULL)
        return 0;
    if (jobs == NULL || n > IMB_MAX_BURST_SIZE) {
        set_error(m, jobs == NULL ? IMB_ERR_NULL_BURST : IMB_ERR_BURST_SIZE);
        return 0;
    }
    uint32_t left = places_left(m), count = n < left ? n : left;
    int offset = m->next_job;
    for (uint32_t i = 0; i < count; i++, offset = offset_behind(offset))
        jobs[i] = job_at(m, offset);
    return count;
}

static int check_job_of_burst(const IMB_JOB *job) {
    int error = check_job(job, true);
    return error != 0 ? error : check_in_burst(job);
}

/* Why a job of a burst can't be submitted, or 0. It is the first one of the array then. */
static int check_place(IMB_MGR *m, IMB_JOB **jobs, IMB_JOB *job, int offset, bool is_checked) {
    if (job == NULL)
        return IMB_ERR_NULL_JOB;
    int error = job != job_at(m, offset) ? IMB_ERR_BURST_OOO : is_checked ? check_job_of_burst(job) : 0;
    if (error != 0) {
        job->status = IMB_STATUS_INVALID_ARGS;
        jobs[0] = job;
    }
    return error;
}

static int check_burst(IMB_MGR *m, uint32_t n, IMB_JOB **jobs, bool is_checked) {
    int error = 0, offset = m->next_job;
    if (jobs == NULL)
        return IMB_ERR_NULL_BURST;
    if (n > IMB_MAX_BURST_SIZE)
        return IMB_ERR_BURST_SIZE;
    if (n > places_left(m))
        return IMB_ERR_QUEUE_SPACE;
    for (uint32_t i = 0; i < n && error == 0; i++, offset = offset_behind(offset))
        error = check_place(m, jobs, jobs[i], offset, is_checked);
    return error;
}

static uint32_t submit(IMB_MGR *m, uint32_t n, IMB_JOB **jobs, bool is_checked) {
    int error = dropin_of(m) == NULL ? IMB_ERR_NULL_MBMGR : check_burst(m, n, jobs, is_checked);
    if (error != 0) {
        set_error(m, error);
        return 0;
    }
    ring_submit_burst(m, n, is_checked);
    uint32_t given = ring_completed_burst(m, n, jobs);
    restart(m);
    return given;
}

static uint32_t submit_burst(IMB_MGR *m, const uint32_t n, IMB_JOB **jobs) {
    return submit(m, n, jobs, true);
}

static uint32_t submit_unchecked_burst(IMB_MGR *m, const uint32_t n, IMB_JOB **jobs) {
    return submit(m, n, jobs, false);
}

static uint32_t flush_burst(IMB_MGR *m, const uint32_t n, IMB_JOB **jobs) {
    if (dropin_of(m) == NULL)
        return 0;
    if (jobs == NULL) {
        set_error(m, IMB_ERR_NULL_BURST);
        return 0;
    }
    uint32_t given = ring_flush_burst(m, n, jobs);
    restart(m);
    return given;
}

/* ---- of the application's array ---- */

/* The algorithms of a burst, which the call tells and its jobs needn't. */
struct call {
    IMB_CIPHER_MODE cipher;
    IMB_CIPHER_DIRECTION dir;
    IMB_KEY_SIZE_BYTES key_len;
    IMB_HASH_ALG hash;
    IMB_CHAIN_ORDER order;
};

static IMB_JOB job_of_call(const IMB_JOB *job, const struct call *call) {
    IMB_JOB copy = *job;
    copy.cipher_mode = call->cipher;
    copy.hash_alg = call->hash;
    copy.chain_order = call->order;
    if (call->cipher != IMB_CIPHER_NULL) {
        copy.cipher_direction = call->dir;
        copy.key_len_in_bytes = call->key_len;
    }
    return copy;
}

/* A wrong job of a checked burst: none is done then. */
static bool has_wrong_job(IMB_MGR *m, IMB_JOB *jobs, uint32_t n, const struct call *call) {
    for (uint32_t i = 0; i < n; i++) {
        IMB_JOB job = job_of_call(&jobs[i], call);
        int error = check_job(&job, true);
        if (error != 0) {
            set_error(m, error);
            jobs[i].status = IMB_STATUS_INVALID_ARGS;
            return true;
        }
    }
    return false;
}

/* The queue is full: the earliest jobs are finished. */
static void make_place(IMB_MGR *m, struct queue *queue, struct part *part) {
    IMB_JOB *given[MOST_IN_PART];
    part_hand_over(m, queue, part);
    (void)queue_flush_burst(m->aes128_ooo, queue, MOST_IN_PART, given);
}

static uint32_t do_burst(IMB_MGR *m, IMB_JOB *jobs, uint32_t n, const struct call *call, bool is_checked) {
    struct dropin *d = m->aes128_ooo;
    struct part part;
    uint32_t done = 0;
    if (jobs == NULL) {
        set_error(m, IMB_ERR_NULL_BURST);
        return 0;
    }
    if (is_checked && has_wrong_job(m, jobs, n, call))
        return 0;
    finish_all(d);
    part_begin(&part);
    for (uint32_t i = 0; i < n; i++) {
        IMB_JOB job = job_of_call(&jobs[i], call);
        if (queue_len(&d->burst) == IMB_MAX_JOBS)
            make_place(m, &d->burst, &part);
        part_add(m, &d->burst, &part, &job, &jobs[i], is_checked);
    }
    part_hand_over(m, &d->burst, &part);
    queue_finish(d, &d->burst);
    queue_empty(&d->burst);
    for (uint32_t i = 0; i < n; i++)
        done += jobs[i].status == IMB_STATUS_COMPLETED;
    return done;
}

static uint32_t cipher_burst(IMB_MGR *m, IMB_JOB *jobs, uint32_t n, const struct call *call, bool is_checked) {
    if (dropin_of(m) == NULL)
        return 0;
    if (jobs != NULL && call->cipher != IMB_CIPHER_CBC && call->cipher != IMB_CIPHER_CNTR) {
        set_error(m, IMB_ERR_CIPH_MODE);
        return 0;
    }
    return do_burst(m, jobs, n, call, is_checked);
}

/* What a burst's direction is taken for, checked or not: CTR has one, and CBC deciphers by each code but the one to encipher. */
static IMB_CIPHER_DIRECTION dir_as_taken(IMB_CIPHER_MODE cipher, IMB_CIPHER_DIRECTION dir) {
    return cipher == IMB_CIPHER_CNTR || dir == IMB_DIR_ENCRYPT ? IMB_DIR_ENCRYPT : IMB_DIR_DECRYPT;
}

static uint32_t submit_cipher_burst(IMB_MGR *m, IMB_JOB *jobs, const uint32_t n, const IMB_CIPHER_MODE cipher,
                                    const IMB_CIPHER_DIRECTION dir, const IMB_KEY_SIZE_BYTES key_len) {
    struct call call = {cipher, dir_as_taken(cipher, dir), key_len, IMB_AUTH_NULL, IMB_ORDER_CIPHER_HASH};
    return cipher_burst(m, jobs, n, &call, true);
}

static uint32_t submit_unchecked_cipher_burst(IMB_MGR *m, IMB_JOB *jobs, const uint32_t n, const IMB_CIPHER_MODE cipher,
                                              const IMB_CIPHER_DIRECTION dir, const IMB_KEY_SIZE_BYTES key_len) {
    struct call call = {cipher, dir_as_taken(cipher, dir), key_len, IMB_AUTH_NULL, IMB_ORDER_CIPHER_HASH};
    return cipher_burst(m, jobs, n, &call, false);
}

/* Without an array intel-ipsec-mb 1.3 sets the error of the process alone. */
static uint32_t hash_burst(IMB_MGR *m, IMB_JOB *jobs, uint32_t n, IMB_HASH_ALG hash, bool is_checked) {
    struct call call = {IMB_CIPHER_NULL, IMB_DIR_ENCRYPT, IMB_KEY_128_BYTES, hash, IMB_ORDER_HASH_CIPHER};
    if (dropin_of(m) == NULL)
        return 0;
    if (jobs == NULL) {
        set_error(NULL, IMB_ERR_NULL_JOB);
        return 0;
    }
    if (!COMPAT_IS_BURST_HASH(hash)) {
        set_error(m, IMB_ERR_HASH_ALGO);
        return 0;
    }
    return do_burst(m, jobs, n, &call, is_checked);
}

static uint32_t submit_hash_burst(IMB_MGR *m, IMB_JOB *jobs, const uint32_t n, const IMB_HASH_ALG hash) {
    return hash_burst(m, jobs, n, hash, true);
}

static uint32_t submit_unchecked_hash_burst(IMB_MGR *m, IMB_JOB *jobs, const uint32_t n, const IMB_HASH_ALG hash) {
    return hash_burst(m, jobs, n, hash, false);
}

/* CCM alone has such bursts. */
uint32_t aead_burst(IMB_MGR *m, IMB_JOB *jobs, uint32_t n, IMB_CIPHER_MODE cipher, IMB_CIPHER_DIRECTION dir, IMB_KEY_SIZE_BYTES key_len,
                    bool is_checked) {
    struct call call = {cipher, dir, key_len, IMB_AUTH_AES_CCM, IMB_ORDER_HASH_CIPHER};
    if (dropin_of(m) == NULL)
        return 0;
    if (jobs != NULL && cipher != IMB_CIPHER_CCM) {
        set_error(m, IMB_ERR_CIPH_MODE);
        return 0;
    }
    return do_burst(m, jobs, n, &call, is_checked);
}

void set_burst_functions(IMB_MGR *m) {
    m->get_next_burst = next_burst;
    m->submit_burst = submit_burst;
    m->submit_burst_nocheck = submit_unchecked_burst;
    m->flush_burst = flush_burst;
    m->submit_cipher_burst = submit_cipher_burst;
    m->submit_cipher_burst_nocheck = submit_unchecked_cipher_burst;
    m->submit_hash_burst = submit_hash_burst;
    m->submit_hash_burst_nocheck = submit_unchecked_hash_burst;
}
