/* A fuzzer over the header's calls. Jobs and calls are drawn from the bytes that libFuzzer makes. Each job is given to a second manager
 * too, which is flushed after each job: what the first one gives back, in order, is compared with that. Built with WITH_OPENSSL one
 * accepted job in a hundred is compared with OpenSSL. All bytes of a job stand in blocks of their own, as long as they are, so that
 * AddressSanitizer sees each access beyond them; those that are read are freed once the job is submitted. */
#include "check.h"

#ifdef WITH_OPENSSL
#include "peer.h"
#endif

#ifdef __cplusplus
extern "C"
#endif
int LLVMFuzzerTestOneInput(const uint8_t *bytes, size_t len);

enum { MAX_PACKET = 700, FEW = 8 };

/* ---- draws ---- */

/* The bytes that are left, and a state that turns each into many. */
struct source {
    const uint8_t *at;
    size_t len;
    uint32_t state;
};

static uint32_t draw_byte(struct source *s) {
    if (s->len == 0)
        return 0;
    s->len--;
    return *s->at++;
}

static uint32_t draw(struct source *s, uint32_t below) {
    uint32_t number = draw_byte(s);
    if (below > 256)
        number = number * 256 + draw_byte(s);
    return number % below;
}

static uint32_t draw_among(struct source *s, const uint32_t *numbers, uint32_t count) {
    return numbers[draw(s, count)];
}

static uint8_t *block(size_t len) {
    uint8_t *at = (uint8_t *)malloc(len != 0 ? len : 1);
    CHECK(at != NULL);
    return at;
}

/* Bytes that depend on the input. */
static uint8_t *draw_bytes(struct source *s, size_t len) {
    uint8_t *at = block(len);
    s->state += draw_byte(s) + 1;
    for (size_t i = 0; i < len; i++) {
        s->state = s->state * 1664525 + 1013904223;
        at[i] = (uint8_t)(s->state >> 24);
    }
    return at;
}

/* ---- jobs ---- */

/* A job that is out: where the first manager's results go, and what the second one gave. */
struct out {
    struct out *next;
    MBJ_JOB *job;
    uint8_t *packet, *dst, *tag, *want_dst, *want_tag;
    size_t dst_len, tag_len;
    bool is_in_place;
    enum mbj_status status;
    uint32_t reason;
};

static struct out *first_out, **last_out = &first_out;

/* Mostly an authentication that goes with the cipher. */
static void draw_pair(struct source *s, MBJ_JOB *job) {
    job->cipher_mode = draw(s, MBJ_CIPHER_CCM + 1);
    job->hash_alg = draw(s, MBJ_AUTH_SHA_512 + 1);
    if (draw(s, 4) == 0)
        return;
    if (job->cipher_mode == MBJ_CIPHER_GCM)
        job->hash_alg = MBJ_AUTH_GCM;
    else if (job->cipher_mode == MBJ_CIPHER_CCM)
        job->hash_alg = MBJ_AUTH_AES_CCM;
    else if (job->hash_alg == MBJ_AUTH_GCM || job->hash_alg == MBJ_AUTH_AES_CCM)
        job->hash_alg = MBJ_AUTH_HMAC_SHA_256;
    else if (job->hash_alg == MBJ_AUTH_AES_GMAC)
        job->cipher_mode = MBJ_CIPHER_NULL;
}

static void draw_codes(struct source *s, MBJ_JOB *job) {
    static const uint32_t bad[] = {MBJ_CIPHER_CCM + 1, MBJ_AUTH_HMAC_SHA_512_STATES + 1, 22, 255, 256, UINT32_MAX};
    draw_pair(s, job);
    job->cipher_direction = draw(s, 2);
    job->chain_order = draw(s, 2);
    uint32_t *const fields[] = {&job->cipher_mode, &job->cipher_direction, &job->chain_order, &job->hash_alg};
    if (draw(s, 32) == 0)
        *fields[draw(s, 4)] = draw_among(s, bad, 6);
}

static uint32_t draw_aes_key_len(struct source *s) {
    static const uint32_t keys[] = {16, 24, 32, 16, 24, 32, 16, 24, 32, 0, 17, 64};
    return draw_among(s, keys, 12);
}

/* The lengths below are mostly those that the job's codes take. */
static uint32_t draw_iv_len(struct source *s, const MBJ_JOB *job) {
    static const uint32_t ivs[] = {16, 12, 16, 12, 16, 12, 1, 0, 13, 60};
    bool is_any = draw(s, 8) == 0;
    if (!is_any && job->cipher_mode == MBJ_CIPHER_CBC)
        return 16;
    return !is_any && job->cipher_mode == MBJ_CIPHER_CCM ? 7 + draw(s, 7) : draw_among(s, ivs, 10);
}

static uint32_t draw_auth_key_len(struct source *s, const MBJ_JOB *job) {
    static const uint32_t auth_keys[] = {16, 32, 20, 0, 63, 64, 65, 127, 128, 129, 1024, 1025};
    bool is_any = draw(s, 8) == 0;
    if (!is_any && job->hash_alg == MBJ_AUTH_AES_GMAC)
        return draw_aes_key_len(s);
    if (!is_any && (job->hash_alg == MBJ_AUTH_AES_CMAC || job->hash_alg == MBJ_AUTH_AES_CMAC_256))
        return job->hash_alg == MBJ_AUTH_AES_CMAC ? 16 : 32;
    return draw_among(s, auth_keys, 12);
}

static uint32_t draw_tag_len(struct source *s, const MBJ_JOB *job) {
    static const uint32_t tags[] = {20, 28, 32, 48, 64, 16, 1, 12, 0, 65, 255, 300};
    bool is_any = draw(s, 8) == 0;
    if (!is_any && job->hash_alg == MBJ_AUTH_NULL)
        return 0;
    if (!is_any && job->hash_alg == MBJ_AUTH_AES_CCM)
        return 4 + 2 * draw(s, 7);
    return draw(s, 4) != 0 ? 1 + draw(s, 16) : draw_among(s, tags, 12);
}

static void draw_lengths(struct source *s, MBJ_JOB *job) {
    job->key_len_in_bytes = draw_aes_key_len(s);
    job->iv_len_in_bytes = draw_iv_len(s, job);
    job->auth_key_len_in_bytes = draw_auth_key_len(s, job);
    job->aad_len_in_bytes = draw(s, 64);
    job->auth_tag_output_len_in_bytes = draw_tag_len(s, job);
    job->packet_len_in_bytes = draw(s, MAX_PACKET);
}

/* A range within the packet, mostly. */
static void draw_range(struct source *s, size_t packet_len, uint32_t unit, uint64_t *off, uint64_t *len) {
    *off = draw(s, (uint32_t)packet_len + 1);
    *len = (packet_len - *off) / unit * unit;
    if (draw(s, 4) == 0)
        *len = *len / unit / 2 * unit;
    if (draw(s, 32) == 0)
        *len += draw(s, 256);
    if (draw(s, 64) == 0)
        *(draw(s, 2) == 0 ? off : len) += UINT64_C(1) << (32 + draw(s, 32));
}

static void draw_ranges(struct source *s, MBJ_JOB *job) {
    draw_range(s, job->packet_len_in_bytes, job->cipher_mode == MBJ_CIPHER_CBC ? 16 : 1, &job->cipher_start_src_offset_in_bytes,
               &job->msg_len_to_cipher_in_bytes);
    draw_range(s, job->packet_len_in_bytes, 1, &job->hash_start_src_offset_in_bytes, &job->msg_len_to_hash_in_bytes);
}

/* Room for what a job may write: none for a range that passes the packet's end, which is refused. */
static size_t room_for_range(const MBJ_JOB *job) {
    uint64_t off = job->cipher_start_src_offset_in_bytes, len = job->msg_len_to_cipher_in_bytes, end = job->packet_len_in_bytes;
    return off <= end && len <= end - off ? (size_t)len : 0;
}

static void draw_job(struct source *s, MBJ_JOB *job, struct out *out) {
    draw_codes(s, job);
    draw_lengths(s, job);
    draw_ranges(s, job);
    out->packet = draw_bytes(s, job->packet_len_in_bytes);
    out->dst_len = room_for_range(job);
    out->tag_len = job->auth_tag_output_len_in_bytes;
    out->is_in_place = out->dst_len != 0 && draw(s, 2) == 0;
    out->dst = out->is_in_place ? out->packet + job->cipher_start_src_offset_in_bytes : block(out->dst_len);
    out->tag = block(out->tag_len);
    memset(out->tag, 0xee, out->tag_len);
    if (!out->is_in_place)
        memset(out->dst, 0xee, out->dst_len);
    job->key = draw_bytes(s, job->key_len_in_bytes);
    job->iv = draw_bytes(s, job->iv_len_in_bytes);
    job->auth_key = draw_bytes(s, job->auth_key_len_in_bytes);
    job->aad = draw_bytes(s, job->aad_len_in_bytes);
    job->packet = out->packet;
    job->dst = out->dst;
    job->auth_tag_output = out->tag;
    job->user_data = out;
}

/* The bytes that a job reads, which are freed once it is submitted, also if a pointer to some of them is taken away from it. */
struct read {
    const uint8_t *bytes[4];
};

static struct read read_by(const MBJ_JOB *job) {
    struct read r = {{job->key, job->iv, job->auth_key, job->aad}};
    return r;
}

static void free_read(const struct read *r) {
    for (size_t i = 0; i < sizeof r->bytes / sizeof *r->bytes; i++)
        free((void *)(uintptr_t)r->bytes[i]);
}

static void draw_null(struct source *s, MBJ_JOB *job) {
    if (draw(s, 64) != 0)
        return;
    switch (draw(s, 7)) {
    case 0: job->key = NULL; return;
    case 1: job->iv = NULL; return;
    case 2: job->auth_key = NULL; return;
    case 3: job->aad = NULL; return;
    case 4: job->packet = NULL; return;
    case 5: job->dst = NULL; return;
    default: job->auth_tag_output = NULL; return;
    }
}

/* ---- both managers ---- */

static MBJ_MGR *lazy, *eager;

/* Does the job with the second manager, over room of its own. */
static void do_at_once(const MBJ_JOB *job, struct out *out) {
    MBJ_JOB *own = mbj_get_next_job(eager);
    CHECK(own != NULL);
    *own = *job;
    out->want_dst = block(out->dst_len);
    out->want_tag = block(out->tag_len);
    memcpy(out->want_dst, out->dst, out->dst_len);
    memset(out->want_tag, 0xee, out->tag_len);
    own->dst = job->dst != NULL ? out->want_dst : NULL;
    own->auth_tag_output = job->auth_tag_output != NULL ? out->want_tag : NULL;
    CHECK(finish(eager) == own && mbj_queue_size(eager) == 0);
    out->status = own->status;
    out->reason = own->reason;
    CHECK(out->status == MBJ_STATUS_COMPLETED ? out->reason == 0 : out->status == MBJ_STATUS_INVALID_ARGS && out->reason != 0);
}

/* The earliest job that is out is given back, with what the second manager gave. */
static void take(const MBJ_JOB *done) {
    struct out *out = first_out;
    CHECK(out != NULL && done == out->job && done->user_data == out && done->status == out->status && done->reason == out->reason);
    CHECK(memcmp(out->dst, out->want_dst, out->dst_len) == 0 && memcmp(out->tag, out->want_tag, out->tag_len) == 0);
    first_out = out->next;
    if (first_out == NULL)
        last_out = &first_out;
    if (!out->is_in_place)
        free(out->dst);
    free(out->packet);
    free(out->tag);
    free(out->want_dst);
    free(out->want_tag);
    free(out);
}

static void check_with_peer(const MBJ_JOB *job, const struct out *out) {
#ifdef WITH_OPENSSL
    static unsigned count;
    if (out->status == MBJ_STATUS_COMPLETED && count++ % 100 == 0)
        CHECK(peer_agrees(job, out->want_dst, out->want_tag));
#else
    (void)job;
    (void)out;
#endif
}

static void submit(struct source *s) {
    MBJ_JOB *job = mbj_get_next_job(lazy);
    if (job == NULL) {
        CHECK(mbj_get_errno(lazy) == MBJ_ERR_FULL && mbj_queue_size(lazy) == MBJ_MAX_JOBS);
        take(mbj_flush_job(lazy));
        job = mbj_get_next_job(lazy);
    }
    struct out *out = (struct out *)calloc(1, sizeof *out);
    CHECK(out != NULL);
    draw_job(s, job, out);
    struct read r = read_by(job);
    draw_null(s, job);
    do_at_once(job, out);
    check_with_peer(job, out);
    out->job = job;
    *last_out = out;
    last_out = &out->next;
    const MBJ_JOB *done = mbj_submit_job(lazy);
    CHECK(mbj_get_errno(lazy) == MBJ_ERR_NONE);
    free_read(&r);
    if (done != NULL)
        take(done);
}

static void call(struct source *s) {
    const MBJ_JOB *done;
    switch (draw(s, FEW)) {
    case 0:
        if ((done = mbj_get_completed_job(lazy)) != NULL)
            take(done);
        CHECK(mbj_get_errno(lazy) == MBJ_ERR_NONE);
        return;
    case 1:
        if ((done = mbj_flush_job(lazy)) != NULL)
            take(done);
        else
            CHECK(first_out == NULL && mbj_queue_size(lazy) == 0);
        return;
    case 2:
        CHECK(mbj_submit_job(lazy) == NULL && mbj_get_errno(lazy) == MBJ_ERR_NO_JOB);
        return;
    default:
        submit(s);
    }
}

int LLVMFuzzerTestOneInput(const uint8_t *bytes, size_t len) {
    struct source s = {bytes, len, 1};
    lazy = mbj_alloc_mgr();
    eager = mbj_alloc_mgr();
    CHECK(lazy != NULL && eager != NULL);
    while (s.len != 0)
        call(&s);
    for (const MBJ_JOB *done; (done = mbj_flush_job(lazy)) != NULL;)
        take(done);
    CHECK(first_out == NULL);
    mbj_free_mgr(lazy);
    mbj_free_mgr(eager);
    return 0;
}
