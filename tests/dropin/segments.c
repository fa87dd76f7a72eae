/* segments OTHER DROPIN [ROUNDS [SEED]]: gives two libraries the same jobs of GCM by lists of segments and in parts, with states that are
 * none too, and compares text, tag and status. Lists with a wrong segment go to the second library alone: they are refused, and nothing is
 * written. A part of a text whose context wasn't begun isn't left as it was. */
#include "library.h"

#include <stdio.h>
#include <string.h>

enum { MOST_TEXT = 2000, MOST_SEGMENTS = 9, WRONG_KINDS = 6 };

static struct library libraries[2];
static unsigned compared, differing;

/* A text, and how it is cut. */
struct text {
    IMB_CIPHER_DIRECTION dir;
    size_t key_len, iv_len, aad_len, tag_len, len, cuts[MOST_SEGMENTS + 1];
    unsigned segments, state;
    bool is_in_place;
    uint8_t key[32], iv[64], aad[64], bytes[MOST_TEXT];
};

/* What a library makes of it. */
struct made {
    DECLARE_ALIGNED(struct gcm_key_data key, 64);
    struct gcm_context_data context;
    struct IMB_SGL_IOV list[MOST_SEGMENTS];
    uint8_t in[MOST_TEXT], out[MOST_TEXT], tag[16];
    int status;
};

static struct text text;
static struct made made[2];

static void tell(const char *what) {
    if (differing++ < 10)
        printf("%s: direction %d, key %zu, IV %zu, %zu bytes in %u segments, state %u\n", what, (int)text.dir, text.key_len, text.iv_len,
               text.len, text.segments, text.state);
}

static void draw_text(void) {
    text.dir = draw_below(2) == 0 ? IMB_DIR_ENCRYPT : IMB_DIR_DECRYPT;
    text.key_len = 16 + 8 * draw_below(3);
    text.iv_len = draw_below(2) == 0 ? 12 : 1 + draw_below(sizeof text.iv);
    text.aad_len = draw_below(sizeof text.aad);
    text.tag_len = 1 + draw_below(16);
    text.len = draw_below(draw_below(3) == 0 ? MOST_TEXT : 100);
    text.segments = (unsigned)draw_below(MOST_SEGMENTS + 1);
    text.state = draw_below(2) == 0 ? IMB_SGL_ALL : IMB_SGL_ALL + 1 + (unsigned)draw_below(1000);
    text.is_in_place = draw_below(2) == 0;
    text.cuts[0] = 0;
    for (unsigned i = 1; i < text.segments; i++)
        text.cuts[i] = text.cuts[i - 1] + draw_below(text.len - text.cuts[i - 1] + 1);
    text.cuts[text.segments] = text.segments == 0 ? 0 : text.len;
    draw_bytes(text.key, sizeof text.key);
    draw_bytes(text.iv, sizeof text.iv);
    draw_bytes(text.aad, sizeof text.aad);
    draw_bytes(text.bytes, sizeof text.bytes);
}

/* A segment of no byte may have no place. */
static void prepare(int side) {
    struct made *m = &made[side];
    aes_gcm_pre_t const pre[] = {libraries[side].m->gcm128_pre, libraries[side].m->gcm192_pre, libraries[side].m->gcm256_pre};
    memset(m, 0, sizeof *m);
    pre[text.key_len / 8 - 2](text.key, &m->key);
    memcpy(m->in, text.bytes, sizeof m->in);
    if (text.is_in_place)
        memcpy(m->out, text.bytes, sizeof m->out);
    for (unsigned i = 0; i < text.segments; i++) {
        size_t off = text.cuts[i], len = text.cuts[i + 1] - off;
        m->list[i] = (struct IMB_SGL_IOV){(text.is_in_place ? m->out : m->in) + off, m->out + off, len};
        if (len == 0 && i % 2 == 0)
            m->list[i].in = m->list[i].out = NULL;
    }
}

static void fill(IMB_JOB *job, int side, unsigned state) {
    struct made *m = &made[side];
    memset(job, 0, sizeof *job);
    job->cipher_mode = IMB_CIPHER_GCM_SGL;
    job->hash_alg = IMB_AUTH_GCM_SGL;
    job->cipher_direction = text.dir;
    job->chain_order = IMB_ORDER_CIPHER_HASH;
    job->enc_keys = job->dec_keys = &m->key;
    job->key_len_in_bytes = text.key_len;
    job->iv = text.iv;
    job->iv_len_in_bytes = text.iv_len;
    job->u.GCM.aad = text.aad;
    job->u.GCM.aad_len_in_bytes = text.aad_len;
    job->u.GCM.ctx = &m->context;
    job->auth_tag_output = m->tag;
    job->auth_tag_output_len_in_bytes = text.tag_len;
    job->sgl_state = (IMB_SGL_STATE)state;
    job->sgl_io_segs = m->list;
    job->num_sgl_io_segs = text.segments;
}

/* Submits the job that was filled, and returns its status. */
static int submit(int side, bool is_checked) {
    IMB_MGR *m = libraries[side].m;
    const IMB_JOB *job = is_checked ? IMB_SUBMIT_JOB(m) : IMB_SUBMIT_JOB_NOCHECK(m);
    if (job == NULL)
        job = IMB_FLUSH_JOB(m);
    return job == NULL ? -1 : (int)job->status;
}

static void do_list(int side, bool is_checked) {
    prepare(side);
    fill(IMB_GET_NEXT_JOB(libraries[side].m), side, text.state);
    made[side].status = submit(side, is_checked);
}

static void do_parts(int side, bool is_checked) {
    IMB_MGR *m = libraries[side].m;
    prepare(side);
    fill(IMB_GET_NEXT_JOB(m), side, IMB_SGL_INIT);
    made[side].status = submit(side, is_checked);
    for (unsigned i = 0; i < text.segments; i++) {
        const struct IMB_SGL_IOV *segment = &made[side].list[i];
        IMB_JOB *job = IMB_GET_NEXT_JOB(m);
        fill(job, side, IMB_SGL_UPDATE);
        job->src = segment->in;
        job->dst = segment->out;
        job->msg_len_to_cipher_in_bytes = segment->len;
        made[side].status += 10 * submit(side, is_checked);
    }
    fill(IMB_GET_NEXT_JOB(m), side, IMB_SGL_COMPLETE);
    made[side].status += 1000 * submit(side, is_checked);
}

static void compare(const char *what) {
    compared++;
    if (made[0].status != made[1].status || memcmp(made[0].out, made[1].out, MOST_TEXT) != 0 || memcmp(made[0].tag, made[1].tag, 16) != 0)
        tell(what);
}

/* ---- wrong lists ---- */

/* A text of GCM has fewer than 2^39 - 256 bits (SP 800-38D, 5.2.1.1), which intel-ipsec-mb 1.3 takes for bytes. */
#define LIMIT (UINT64_C(1) << 39)

static void spoil(IMB_JOB *job, unsigned kind, unsigned at) {
    struct IMB_SGL_IOV *list = made[1].list;
    switch (kind) {
    case 0: list[at].in = NULL; break;
    case 1: list[at].out = NULL; break;
    case 2: list[at].len = UINT64_MAX; break;
    case 3: list[at].len = LIMIT; break;
    case 4: list[0].len = list[text.segments - 1].len = LIMIT / 2 + LIMIT / 4; break;
    default: job->sgl_io_segs = NULL; break;
    }
}

static void check_wrong_list(unsigned kind, bool is_checked) {
    static struct made before;
    do
        draw_text();
    while (text.segments < 2 || text.len < 200);
    prepare(1);
    unsigned at = (unsigned)draw_below(text.segments);
    while (text.cuts[at] == text.cuts[at + 1])
        at = (at + 1) % text.segments;
    IMB_JOB *job = IMB_GET_NEXT_JOB(libraries[1].m);
    fill(job, 1, text.state);
    spoil(job, kind, at);
    before = made[1];
    int status = submit(1, is_checked);
    compared++;
    if (status != IMB_STATUS_INVALID_ARGS || libraries[1].m->imb_errno == 0)
        tell("a wrong list isn't refused");
    if (memcmp(&before, &made[1], sizeof before) != 0)
        tell("a wrong list writes something");
}

/* ---- a context that wasn't begun ---- */

static void check_unbegun(bool is_in_place) {
    struct made *m = &made[1];
    draw_text();
    text.len = 16 + draw_below(MOST_TEXT - 16);
    text.is_in_place = is_in_place;
    prepare(1);
    aes_gcm_enc_dec_update_t const update[] = {libraries[1].m->gcm128_enc_update, libraries[1].m->gcm192_enc_update,
                                               libraries[1].m->gcm256_enc_update};
    update[text.key_len / 8 - 2](&m->key, &m->context, m->out, is_in_place ? m->out : m->in, text.len);
    compared++;
    if (libraries[1].error(NULL) == 0)
        tell("a context that wasn't begun isn't refused");
    for (size_t i = 0; i + 16 <= text.len; i++)
        if (memcmp(m->out + i, text.bytes + i, 16) == 0) {
            tell("a text whose context wasn't begun is left as it was");
            return;
        }
}

int main(int argc, char **argv) {
    unsigned rounds = argc > 3 ? (unsigned)atoi(argv[3]) : 2000;
    if (argc < 3)
        return 2;
    for (int i = 0; i < 2; i++)
        load_library(&libraries[i], argv[1 + i]);
    start_drawing(argc > 4 ? strtoull(argv[4], NULL, 0) : 1);
    for (unsigned i = 0; i < rounds; i++) {
        bool is_checked = i % 2 == 0;
        draw_text();
        for (int side = 0; side < 2; side++)
            do_list(side, is_checked);
        compare("a list differs");
        for (int side = 0; side < 2; side++)
            do_parts(side, is_checked);
        compare("a text in parts differs");
        check_wrong_list(i % WRONG_KINDS, draw_below(2) == 0);
        check_unbegun(is_checked);
    }
    printf("%u texts, %u differ\n", compared, differing);
    for (int i = 0; i < 2; i++)
        libraries[i].release(libraries[i].m);
    return differing != 0;
}
