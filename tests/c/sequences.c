/* Draws sequences of calls over jobs of every kind, with packets of 0 to 2,000 bytes: single submissions, bursts, looks at what is finished
 * and flushes. Writes each job as a line of a job file to the file that is named, and prints its result line, as mbjobs does:
 *
 *     sequences SEED COUNT FILE
 *
 * Jobs stay in lanes from one sequence to the next one, so that lanes which were left are used again. HMAC from stored states stands in the
 * file as HMAC from the key. tests/faults/reference.py says what has to be printed for the file. crates/mbj_sequence_tests draws the same
 * jobs and calls as this does with seed 1. */
#include "check.h"
#include "mbj_direct.h"

#include <inttypes.h>

enum { MOST_LEN = 2000, MOST_KEY = 200, MOST_AAD = 100, MOST_BURST = 8, STATES_BYTES = 128 };

/* ---- draws ---- */

static uint64_t state;

static uint32_t draw_byte(void) {
    state = state * UINT64_C(6364136223846793005) + UINT64_C(1442695040888963407);
    return (uint32_t)(state >> 56);
}

static uint32_t draw(uint32_t below) {
    uint32_t drawn = draw_byte();
    drawn = drawn << 8 | draw_byte();
    drawn = drawn << 8 | draw_byte();
    return drawn % below;
}

static void draw_bytes(uint8_t *at, size_t len) {
    for (size_t i = 0; i < len; i++)
        at[i] = (uint8_t)draw_byte();
}

/* ---- kinds of jobs ---- */

static const char *const ciphers[] = {"null", "cbc", "ctr", "gcm", "ccm"};

/* An authentication: its word, the bytes of its longest tag and of its key, MOST_KEY if it takes any key, and the hash whose states
 * are its key, or -1. */
struct auth {
    uint32_t code;
    const char *word;
    uint32_t tag_len, key_len;
    int states_of;
};

static const struct auth auths[] = {
    {MBJ_AUTH_NULL, "null", 0, 0, -1},
    {MBJ_AUTH_HMAC_SHA_1, "hmac-sha1", 20, MOST_KEY, -1},
    {MBJ_AUTH_HMAC_SHA_224, "hmac-sha224", 28, MOST_KEY, -1},
    {MBJ_AUTH_HMAC_SHA_256, "hmac-sha256", 32, MOST_KEY, -1},
    {MBJ_AUTH_HMAC_SHA_384, "hmac-sha384", 48, MOST_KEY, -1},
    {MBJ_AUTH_HMAC_SHA_512, "hmac-sha512", 64, MOST_KEY, -1},
    {MBJ_AUTH_AES_CMAC, "cmac128", 16, 16, -1},
    {MBJ_AUTH_AES_CMAC_256, "cmac256", 16, 32, -1},
    {MBJ_AUTH_SHA_1, "sha1", 20, 0, -1},
    {MBJ_AUTH_SHA_224, "sha224", 28, 0, -1},
    {MBJ_AUTH_SHA_256, "sha256", 32, 0, -1},
    {MBJ_AUTH_SHA_384, "sha384", 48, 0, -1},
    {MBJ_AUTH_SHA_512, "sha512", 64, 0, -1},
    {MBJ_AUTH_HMAC_SHA_1_STATES, "hmac-sha1", 20, MOST_KEY, MBJ_HASH_SHA_1},
    {MBJ_AUTH_HMAC_SHA_224_STATES, "hmac-sha224", 28, MOST_KEY, MBJ_HASH_SHA_224},
    {MBJ_AUTH_HMAC_SHA_256_STATES, "hmac-sha256", 32, MOST_KEY, MBJ_HASH_SHA_256},
    {MBJ_AUTH_HMAC_SHA_384_STATES, "hmac-sha384", 48, MOST_KEY, MBJ_HASH_SHA_384},
    {MBJ_AUTH_HMAC_SHA_512_STATES, "hmac-sha512", 64, MOST_KEY, MBJ_HASH_SHA_512},
};

static const struct auth gmac = {MBJ_AUTH_AES_GMAC, "gmac", 16, 16, -1};
static const struct auth of_gcm = {MBJ_AUTH_GCM, "gcm", 16, 0, -1};
static const struct auth of_ccm = {MBJ_AUTH_AES_CCM, "ccm", 16, 0, -1};

enum { AUTHS = sizeof auths / sizeof *auths };

/* A kind: a cipher, and an authentication that goes with it. */
struct kind {
    uint32_t cipher;
    const struct auth *auth;
};

static struct kind draw_kind(void) {
    struct kind kind;
    kind.cipher = draw(MBJ_CIPHER_CCM + 1);
    kind.auth = &auths[draw(AUTHS)];
    if (kind.cipher == MBJ_CIPHER_GCM)
        kind.auth = &of_gcm;
    if (kind.cipher == MBJ_CIPHER_CCM)
        kind.auth = &of_ccm;
    if (kind.cipher == MBJ_CIPHER_NULL && draw(8) == 0)
        kind.auth = &gmac;
    return kind;
}

/* ---- jobs ---- */

/* A job that is out, and all bytes that it has. */
struct out {
    struct kind kind;
    uint32_t dir, order, key_len, iv_len, off, len, auth_key_len, aad_len, hash_off, hash_len, tag_len, packet_len;
    uint8_t key[32], iv[MOST_AAD], auth_key[MOST_KEY], states[STATES_BYTES], aad[MOST_AAD], packet[MOST_LEN], tag[MBJ_MAX_TAG_BYTES];
};

static struct out outs[MBJ_MAX_JOBS];
static uint32_t submitted, given;

static uint32_t draw_iv_len(uint32_t cipher) {
    switch (cipher) {
    case MBJ_CIPHER_CBC: return 16;
    case MBJ_CIPHER_CNTR: return draw(2) == 0 ? 12 : 16;
    case MBJ_CIPHER_CCM: return 7 + draw(7);
    default: return draw(2) == 0 ? 12 : 1 + draw(MOST_AAD);
    }
}

static void draw_ranges(struct out *o) {
    o->packet_len = draw(MOST_LEN + 1);
    o->off = draw(o->packet_len + 1);
    o->len = o->packet_len - o->off - draw(o->packet_len - o->off + 1) / 4;
    if (o->kind.cipher == MBJ_CIPHER_CBC)
        o->len -= o->len % 16;
    o->hash_off = draw(o->packet_len + 1) / 4;
    o->hash_len = o->packet_len - o->hash_off - draw(o->packet_len - o->hash_off + 1) / 4;
}

/* One job in sixteen has a length or a place that its cipher or its authentication doesn't take, if it has one. */
static void draw_fault(struct out *o) {
    if (draw(16) != 0)
        return;
    switch (draw(5)) {
    case 0: o->key_len = 17; break;
    case 1: o->iv_len = 0; break;
    case 2: o->len++; break;
    case 3: o->hash_off = o->packet_len + 1; break;
    default: o->tag_len = 65;
    }
}

static void draw_job(struct out *o, struct kind kind) {
    const struct auth *auth = kind.auth;
    o->kind = kind;
    o->dir = draw(2);
    o->order = draw(2);
    o->key_len = 16 + 8 * draw(3);
    o->iv_len = draw_iv_len(kind.cipher);
    o->auth_key_len = auth == &gmac ? 16 + 8 * draw(3) : auth->key_len == MOST_KEY ? draw(MOST_KEY + 1) : auth->key_len;
    o->aad_len = draw(MOST_AAD + 1);
    o->tag_len = auth == &of_ccm ? 4 + 2 * draw(7) : auth->tag_len == 0 ? 0 : 1 + draw(auth->tag_len);
    draw_ranges(o);
    draw_fault(o);
    draw_bytes(o->key, sizeof o->key);
    draw_bytes(o->iv, o->iv_len);
    draw_bytes(o->auth_key, o->auth_key_len);
    draw_bytes(o->aad, o->aad_len);
    draw_bytes(o->packet, o->packet_len);
}

/* ---- files ---- */

static void write_bytes(FILE *file, const uint8_t *at, size_t len) {
    if (len == 0)
        fputc('-', file);
    for (size_t i = 0; i < len; i++)
        fprintf(file, "%02x", at[i]);
}

static void write_job(FILE *file, const struct out *o) {
    static const char *const dirs[] = {"enc", "dec"}, *const orders[] = {"ch", "hc"};
    fprintf(file, "%s %s %s ", ciphers[o->kind.cipher], dirs[o->dir], orders[o->order]);
    write_bytes(file, o->key, o->key_len);
    fputc(' ', file);
    write_bytes(file, o->iv, o->iv_len);
    fprintf(file, " %" PRIu32 " %" PRIu32 " %s ", o->off, o->len, o->kind.auth->word);
    write_bytes(file, o->auth_key, o->auth_key_len);
    fputc(' ', file);
    write_bytes(file, o->aad, o->aad_len);
    fprintf(file, " %" PRIu32 " %" PRIu32 " %" PRIu32 " ", o->hash_off, o->hash_len, o->tag_len);
    write_bytes(file, o->packet, o->packet_len);
    fputc('\n', file);
}

/* The jobs come back in the order in which they were submitted. */
static void print_result(const MBJ_JOB *job) {
    const struct out *o = &outs[given % MBJ_MAX_JOBS];
    CHECK(job->user_data == o && given != submitted);
    if (job->status == MBJ_STATUS_INVALID_ARGS) {
        printf("%" PRIu32 " invalid-args %" PRIu32 "\n", given, job->reason);
    } else {
        CHECK(is_done(job));
        printf("%" PRIu32 " ok ", given);
        write_bytes(stdout, o->packet, o->packet_len);
        printf(" ");
        write_bytes(stdout, o->tag, o->tag_len);
        printf("\n");
    }
    given++;
}

/* ---- calls ---- */

static void say_auth_key(MBJ_JOB *job, struct out *o) {
    static const size_t lens[] = {40, 64, 64, 128, 128};
    int hash = o->kind.auth->states_of;
    job->auth_key = o->auth_key;
    job->auth_key_len_in_bytes = o->auth_key_len;
    if (hash < 0)
        return;
    struct mbj_bytes key = {o->auth_key, o->auth_key_len};
    struct mbj_room room = {o->states, sizeof o->states};
    CHECK(mbj_hmac_states((uint32_t)hash, key, room) == MBJ_ERR_NONE);
    job->auth_key = o->states;
    job->auth_key_len_in_bytes = lens[hash];
}

static void fill(MBJ_JOB *job, FILE *file, struct kind favoured) {
    struct out *o = &outs[submitted++ % MBJ_MAX_JOBS];
    draw_job(o, draw(4) == 0 ? draw_kind() : favoured);
    write_job(file, o);
    job->cipher_mode = o->kind.cipher;
    job->cipher_direction = o->dir;
    job->chain_order = o->order;
    job->hash_alg = o->kind.auth->code;
    job->key = o->key;
    job->key_len_in_bytes = o->key_len;
    job->iv = o->iv;
    job->iv_len_in_bytes = o->iv_len;
    job->aad = o->aad;
    job->aad_len_in_bytes = o->aad_len;
    job->packet = o->packet;
    job->packet_len_in_bytes = o->packet_len;
    job->dst = o->packet + o->off;
    job->cipher_start_src_offset_in_bytes = o->off;
    job->msg_len_to_cipher_in_bytes = o->len;
    job->hash_start_src_offset_in_bytes = o->hash_off;
    job->msg_len_to_hash_in_bytes = o->hash_len;
    job->auth_tag_output = o->tag;
    job->auth_tag_output_len_in_bytes = o->tag_len;
    job->user_data = o;
    say_auth_key(job, o);
}

static void take(const MBJ_JOB *job) {
    if (job != NULL)
        print_result(job);
}

static void take_each(MBJ_JOB *const *jobs, uint32_t count) {
    for (uint32_t i = 0; i < count; i++)
        print_result(jobs[i]);
}

static void submit_burst(MBJ_MGR *m, FILE *file, struct kind favoured) {
    MBJ_JOB *jobs[MOST_BURST];
    uint32_t count = mbj_get_next_burst(m, 1 + draw(MOST_BURST), jobs);
    for (uint32_t i = 0; i < count; i++)
        fill(jobs[i], file, favoured);
    take_each(jobs, mbj_submit_burst(m, count, jobs, jobs));
    CHECK(mbj_get_errno(m) == MBJ_ERR_NONE);
}

static void flush_burst(MBJ_MGR *m, uint32_t most) {
    MBJ_JOB *jobs[MOST_BURST];
    take_each(jobs, mbj_flush_burst(m, 1 + draw(most), jobs));
}

static void step(MBJ_MGR *m, FILE *file, struct kind favoured) {
    switch (draw(8)) {
    case 0: take(mbj_flush_job(m)); break;
    case 1: take(mbj_get_completed_job(m)); break;
    case 2: submit_burst(m, file, favoured); break;
    case 3: flush_burst(m, MOST_BURST); break;
    default:
        if (mbj_queue_size(m) == MBJ_MAX_JOBS)
            take(mbj_flush_job(m));
        fill(mbj_get_next_job(m), file, favoured);
        take(mbj_submit_job(m));
        CHECK(mbj_get_errno(m) == MBJ_ERR_NONE);
    }
}

static void drain(MBJ_MGR *m) {
    for (const MBJ_JOB *job; (job = mbj_flush_job(m)) != NULL;)
        print_result(job);
}

/* Every second sequence leaves what is out to the next one. */
static void run_sequence(MBJ_MGR *m, FILE *file) {
    struct kind favoured = draw_kind();
    for (uint32_t steps = 2 + draw(14); steps != 0; steps--)
        step(m, file, favoured);
    if (draw(2) == 0)
        drain(m);
}

int main(int argc, char **argv) {
    CHECK(argc == 4);
    state = strtoull(argv[1], NULL, 10);
    FILE *file = fopen(argv[3], "w");
    MBJ_MGR *m = mbj_alloc_mgr();
    CHECK(file != NULL && m != NULL);
    for (unsigned long count = strtoul(argv[2], NULL, 10); count != 0; count--)
        run_sequence(m, file);
    drain(m);
    CHECK(given == submitted && mbj_queue_size(m) == 0);
    mbj_free_mgr(m);
    CHECK(fclose(file) == 0);
    return 0;
}
