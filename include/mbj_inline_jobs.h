/* The bodies of the single jobs of mbj.h, which mbj_inline.h includes: how a job is handed out, passed to the library and given back. */
#ifndef MBJ_INLINE_JOBS_H
#define MBJ_INLINE_JOBS_H

#ifndef MBJ_H
#error "include mbj.h"
#endif

#ifdef __cplusplus
extern "C" {
#endif

static inline void mbj_make_blank_(MBJ_JOB *job) {
    job->cipher_mode = MBJ_CIPHER_UNSET;
    job->cipher_direction = MBJ_DIR_ENCRYPT;
    job->chain_order = MBJ_ORDER_CIPHER_HASH;
    job->hash_alg = MBJ_AUTH_UNSET;
    job->key = job->iv = job->auth_key = job->aad = job->packet = NULL;
    job->key_len_in_bytes = job->iv_len_in_bytes = job->auth_key_len_in_bytes = job->aad_len_in_bytes = job->packet_len_in_bytes = 0;
    job->dst = job->auth_tag_output = NULL;
    job->cipher_start_src_offset_in_bytes = job->msg_len_to_cipher_in_bytes = 0;
    job->hash_start_src_offset_in_bytes = job->msg_len_to_hash_in_bytes = 0;
    job->auth_tag_output_len_in_bytes = 0;
    job->user_data = job->user_data2 = NULL;
    job->status = MBJ_STATUS_BEING_PROCESSED;
    job->reason = MBJ_REASON_NONE;
    job->session = MBJ_NO_SESSION;
    job->expected_tag = NULL;
}

MBJ_API uint32_t mbj_get_next_burst(MBJ_MGR *m, uint32_t n, MBJ_JOB **jobs) {
    if (m == NULL)
        return 0;
    uint32_t left = MBJ_MAX_JOBS - (m->next - m->first), count = n < left ? n : left;
    m->error = left == 0 ? MBJ_ERR_FULL : MBJ_ERR_NONE;
    for (uint32_t i = 0; i < count; i++) {
        jobs[i] = &m->jobs[(m->next + i) % MBJ_MAX_JOBS];
        if (i >= m->lent)
            mbj_make_blank_(jobs[i]);
    }
    if (count > m->lent)
        m->lent = count;
    return count;
}

MBJ_API MBJ_JOB *mbj_get_next_job(MBJ_MGR *m) {
    MBJ_JOB *job = NULL;
    return mbj_get_next_burst(m, 1, &job) == 0 ? NULL : job;
}

static inline bool mbj_has_cipher_(const MBJ_JOB *job) {
    return job->cipher_mode != MBJ_CIPHER_NULL;
}

static inline bool mbj_has_iv_(const MBJ_JOB *job) {
    return mbj_has_cipher_(job) || job->hash_alg == MBJ_AUTH_AES_GMAC;
}

static inline bool mbj_has_aad_(const MBJ_JOB *job) {
    return job->cipher_mode == MBJ_CIPHER_GCM || job->cipher_mode == MBJ_CIPHER_CCM;
}

static inline bool mbj_has_auth_key_(const MBJ_JOB *job) {
    return (job->hash_alg >= MBJ_AUTH_HMAC_SHA_1 && job->hash_alg <= MBJ_AUTH_AES_CMAC_256) || job->hash_alg == MBJ_AUTH_AES_GMAC ||
           job->hash_alg >= MBJ_AUTH_HMAC_SHA_1_STATES;
}

static inline bool mbj_has_tag_(const MBJ_JOB *job) {
    return job->hash_alg != MBJ_AUTH_NULL;
}

static inline bool mbj_is_null_(bool is_used, const uint8_t *at, uint64_t len) {
    return is_used && at == NULL && len != 0;
}

/* Whether the job uses bytes that are at NULL. */
static inline bool mbj_has_null_(const MBJ_JOB *job) {
    return mbj_is_null_(true, job->packet, job->packet_len_in_bytes) ||
           mbj_is_null_(mbj_has_cipher_(job), job->key, job->key_len_in_bytes) ||
           mbj_is_null_(mbj_has_iv_(job), job->iv, job->iv_len_in_bytes) ||
           mbj_is_null_(mbj_has_cipher_(job), job->dst, job->msg_len_to_cipher_in_bytes) ||
           mbj_is_null_(mbj_has_aad_(job), job->aad, job->aad_len_in_bytes) ||
           mbj_is_null_(mbj_has_auth_key_(job), job->auth_key, job->auth_key_len_in_bytes) ||
           mbj_is_null_(mbj_has_tag_(job) && job->expected_tag == NULL, job->auth_tag_output, job->auth_tag_output_len_in_bytes);
}

static inline bool mbj_has_bad_code_(const MBJ_JOB *job) {
    return job->cipher_mode > MBJ_CIPHER_CCM || job->cipher_direction > MBJ_DIR_DECRYPT || job->chain_order > MBJ_ORDER_HASH_CIPHER ||
           job->hash_alg > MBJ_AUTH_HMAC_SHA_512_STATES;
}

/* The job interface's own reason for which the job is refused, or 0. */
static inline uint32_t mbj_own_reason_(const MBJ_JOB *job) {
    if (mbj_has_bad_code_(job))
        return MBJ_REASON_CODE;
    if (job->expected_tag != NULL && !mbj_has_tag_(job))
        return MBJ_REASON_NO_TAG;
    return mbj_has_null_(job) ? MBJ_REASON_NULL : MBJ_REASON_NONE;
}

/* No job takes this many bytes of anything: a longer length is passed as this one, and is refused. */
#define MBJ_TOO_LONG_ 65536

/* The bytes of a job, or none if it doesn't use them. */
static inline void mbj_raw_bytes_(struct mbj_bytes *bytes, bool is_used, const uint8_t *at, size_t len) {
    static const uint8_t none[1] = {0};
    bool is_some = is_used && len != 0;
    bytes->at = is_some ? at : none;
    bytes->len = !is_some ? 0 : len < MBJ_TOO_LONG_ ? len : MBJ_TOO_LONG_;
}

/* The job as the library takes it. A tag of more than 255 bytes is refused as one of 255 is. */
static inline void mbj_to_raw_(struct mbj_raw_job *raw, const MBJ_JOB *job) {
    raw->cipher = job->cipher_mode;
    raw->dir = job->cipher_direction;
    raw->order = job->chain_order;
    raw->auth = job->hash_alg;
    mbj_raw_bytes_(&raw->key, mbj_has_cipher_(job), job->key, job->key_len_in_bytes);
    mbj_raw_bytes_(&raw->iv, mbj_has_iv_(job), job->iv, job->iv_len_in_bytes);
    mbj_raw_bytes_(&raw->auth_key, mbj_has_auth_key_(job), job->auth_key, job->auth_key_len_in_bytes);
    mbj_raw_bytes_(&raw->aad, mbj_has_aad_(job), job->aad, job->aad_len_in_bytes);
    mbj_raw_bytes_(&raw->packet, true, job->packet, job->packet_len_in_bytes);
    raw->cipher_off = job->cipher_start_src_offset_in_bytes;
    raw->cipher_len = job->msg_len_to_cipher_in_bytes;
    raw->hash_off = job->hash_start_src_offset_in_bytes;
    raw->hash_len = job->msg_len_to_hash_in_bytes;
    raw->tag_len = (uint8_t)(job->auth_tag_output_len_in_bytes < 255 ? job->auth_tag_output_len_in_bytes : 255);
    raw->session = job->session;
}

/* A job that the library refuses, so that it comes back in its place: CBC with a key of no byte. */
static inline void mbj_raw_refused_(struct mbj_raw_job *raw) {
    raw->cipher = MBJ_CIPHER_CBC;
    raw->dir = MBJ_DIR_ENCRYPT;
    raw->order = MBJ_ORDER_CIPHER_HASH;
    raw->auth = MBJ_AUTH_NULL;
    mbj_raw_bytes_(&raw->key, false, NULL, 0);
    mbj_raw_bytes_(&raw->iv, false, NULL, 0);
    mbj_raw_bytes_(&raw->auth_key, false, NULL, 0);
    mbj_raw_bytes_(&raw->aad, false, NULL, 0);
    mbj_raw_bytes_(&raw->packet, false, NULL, 0);
    raw->cipher_off = raw->cipher_len = raw->hash_off = raw->hash_len = 0;
    raw->tag_len = 0;
    raw->session = MBJ_NO_SESSION;
}

/* Keeps where the job's result goes. A cipher range that passes the packet's end is refused, and needs no room. */
static inline void mbj_keep_slot_(struct mbj_slot *slot, const MBJ_JOB *job, uint32_t reason) {
    uint64_t off = job->cipher_start_src_offset_in_bytes, len = job->msg_len_to_cipher_in_bytes, end = job->packet_len_in_bytes;
    bool is_written = reason == MBJ_REASON_NONE && mbj_has_cipher_(job) && off <= end && len <= end - off;
    slot->dst = job->dst;
    slot->dst_len = is_written ? (size_t)len : 0;
    slot->tag = job->auth_tag_output;
    slot->tag_len = reason == MBJ_REASON_NONE && mbj_has_tag_(job) ? job->auth_tag_output_len_in_bytes : 0;
    slot->reason = reason;
    slot->is_expected = job->expected_tag != NULL;
    if (slot->is_expected && slot->tag_len <= MBJ_MAX_TAG_BYTES)
        memcpy(slot->expected, job->expected_tag, slot->tag_len);
}

/* The job at this place as the library takes it, and where its result goes. */
static inline void mbj_raw_place_(struct mbj_raw_job *raw, MBJ_MGR *m, uint32_t place) {
    const MBJ_JOB *job = &m->jobs[place];
    uint32_t reason = mbj_own_reason_(job);
    if (reason == MBJ_REASON_NONE)
        mbj_to_raw_(raw, job);
    else
        mbj_raw_refused_(raw);
    mbj_keep_slot_(&m->slots[place], job, reason);
}

/* Room for a job's result. Its tag goes beside the job's own first, since that may lie within what was ciphered. */
static inline void mbj_room_of_(struct mbj_raw_done *done, uint8_t *tag, const struct mbj_slot *slot) {
    done->dst.at = slot->dst_len != 0 ? slot->dst : tag;
    done->dst.len = slot->dst_len;
    done->tag.at = tag;
    done->tag.len = MBJ_MAX_TAG_BYTES;
}

/* Room for the result that is given back behind this many others. */
static inline void mbj_make_room_(struct mbj_raw_done *done, uint8_t *tag, const MBJ_MGR *m, uint32_t behind) {
    mbj_room_of_(done, tag, &m->slots[(m->first + behind) % MBJ_MAX_JOBS]);
}

static inline bool mbj_meets_(const struct mbj_room *room, const struct mbj_bytes *bytes) {
    uintptr_t room_at = (uintptr_t)room->at, at = (uintptr_t)bytes->at;
    return room_at < at + bytes->len && at < room_at + room->len;
}

/* Whether the job reads bytes of the room. A call doesn't write what it reads, and one that did both is made as two then. */
static inline bool mbj_reads_room_(const struct mbj_raw_job *raw, const struct mbj_room *room) {
    return room->len != 0 && (mbj_meets_(room, &raw->packet) || mbj_meets_(room, &raw->key) || mbj_meets_(room, &raw->iv) ||
                              mbj_meets_(room, &raw->auth_key) || mbj_meets_(room, &raw->aad));
}

/* Whether a job that was done has another tag than the one that was expected. */
static inline bool mbj_is_wrong_(const struct mbj_slot *slot, const struct mbj_raw_done *done) {
    return slot->is_expected && (done->tag_len != slot->tag_len || !mbj_is_same_tag(done->tag.at, slot->expected, slot->tag_len));
}

/* Ends the job whose result was given: what was ciphered is written, and now its tag, unless that is wrong. */
static inline void mbj_end_job_(MBJ_JOB *job, const struct mbj_slot *slot, const struct mbj_raw_done *done) {
    job->status = done->status == 0 ? MBJ_STATUS_COMPLETED : MBJ_STATUS_INVALID_ARGS;
    job->reason = slot->reason != MBJ_REASON_NONE ? slot->reason : done->reason;
    if (done->status == 0 && mbj_is_wrong_(slot, done)) {
        mbj_wipe(slot->dst, slot->dst_len);
        job->status = MBJ_STATUS_WRONG_TAG;
        job->reason = MBJ_ERR_TAG;
    } else if (slot->tag != NULL && done->tag_len != 0 && done->tag_len <= slot->tag_len) {
        memcpy(slot->tag, done->tag.at, done->tag_len);
    }
}

/* The earliest job, whose result was given. */
static inline MBJ_JOB *mbj_give_back_(MBJ_MGR *m, const struct mbj_raw_done *done) {
    uint32_t place = m->first++ % MBJ_MAX_JOBS;
    mbj_end_job_(&m->jobs[place], &m->slots[place], done);
    return &m->jobs[place];
}

/* The first n jobs that are handed out are submitted. */
static inline void mbj_mark_submitted_(MBJ_MGR *m, uint32_t n) {
    for (uint32_t i = 0; i < n; i++)
        m->jobs[(m->next + i) % MBJ_MAX_JOBS].status = MBJ_STATUS_BEING_PROCESSED;
    m->next += n;
    m->lent -= n;
}

/* The job stays handed out. */
static inline MBJ_JOB *mbj_not_submitted_(MBJ_MGR *m, MBJ_JOB *job, uint32_t refusal) {
    job->status = MBJ_STATUS_ERROR;
    m->error = refusal;
    return NULL;
}

MBJ_API MBJ_JOB *mbj_submit_job(MBJ_MGR *m) {
    if (m == NULL)
        return NULL;
    if (m->lent == 0) {
        m->error = MBJ_ERR_NO_JOB;
        return NULL;
    }
    uint32_t place = m->next % MBJ_MAX_JOBS;
    MBJ_JOB *job = &m->jobs[place];
    if (!mbj_is_made_(m))
        return mbj_not_submitted_(m, job, MBJ_ERR_NO_MANAGER);
    struct mbj_raw_job raw;
    struct mbj_raw_done done;
    uint8_t tag[MBJ_MAX_TAG_BYTES];
    uint32_t refusal;
    bool is_given;
    mbj_raw_place_(&raw, m, place);
    mbj_make_room_(&done, tag, m, 0);
    const struct mbj_heap *before = mbj_enter_(m->heap);
    if (!mbj_reads_room_(&raw, &done.dst)) {
        is_given = mbj_c_submit_job(&m->handle, &raw, &done, &refusal);
    } else {
        refusal = mbj_c_fill(&m->handle, &raw);
        is_given = refusal == MBJ_ERR_NONE && mbj_c_submit(&m->handle, &done, &refusal);
    }
    mbj_leave_(m->heap, before);
    if (refusal != MBJ_ERR_NONE)
        return mbj_not_submitted_(m, job, refusal);
    m->error = MBJ_ERR_NONE;
    mbj_mark_submitted_(m, 1);
    return is_given ? mbj_give_back_(m, &done) : NULL;
}

MBJ_API MBJ_JOB *mbj_get_completed_job(MBJ_MGR *m) {
    if (m == NULL)
        return NULL;
    m->error = MBJ_ERR_NONE;
    if (m->next == m->first)
        return NULL;
    struct mbj_raw_done done;
    uint8_t tag[MBJ_MAX_TAG_BYTES];
    mbj_make_room_(&done, tag, m, 0);
    return mbj_c_get_completed(&m->handle, &done, &m->error) ? mbj_give_back_(m, &done) : NULL;
}

MBJ_API MBJ_JOB *mbj_flush_job(MBJ_MGR *m) {
    if (m == NULL)
        return NULL;
    m->error = MBJ_ERR_NONE;
    if (m->next == m->first)
        return NULL;
    struct mbj_raw_done done;
    uint8_t tag[MBJ_MAX_TAG_BYTES];
    mbj_make_room_(&done, tag, m, 0);
    return mbj_c_flush(&m->handle, &done, &m->error) ? mbj_give_back_(m, &done) : NULL;
}

#ifdef __cplusplus
}
#endif
#endif
