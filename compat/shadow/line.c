/* What the proved library was given of a sample is what a job file's line says: so the drop-in's own functions fill it in. */
#include "line.h"
#include "again.h"
#include "algorithms.h"
#include "at_once.h"
#include "raw_form.h"
#include "raw_key.h"
#include "tables.h"
#include "take.h"

#include <stdlib.h>
#include <string.h>

void put_bytes(FILE *file, const void *at, size_t len) {
    const uint8_t *bytes = at;
    if (len == 0)
        fputc('-', file);
    for (size_t i = 0; i < len; i++)
        fprintf(file, "%02x", bytes[i]);
}

/* ---- words ---- */

static const char *const cipher_words[] = {
    [MBJ_CIPHER_NULL] = "null", [MBJ_CIPHER_CBC] = "cbc", [MBJ_CIPHER_CNTR] = "ctr", [MBJ_CIPHER_GCM] = "gcm", [MBJ_CIPHER_CCM] = "ccm"};

static const char *const auth_words[] = {
    [MBJ_AUTH_NULL] = "null",
    [MBJ_AUTH_HMAC_SHA_1_STATES] = "hmac-sha1-states",
    [MBJ_AUTH_HMAC_SHA_224_STATES] = "hmac-sha224-states",
    [MBJ_AUTH_HMAC_SHA_256_STATES] = "hmac-sha256-states",
    [MBJ_AUTH_HMAC_SHA_384_STATES] = "hmac-sha384-states",
    [MBJ_AUTH_HMAC_SHA_512_STATES] = "hmac-sha512-states",
    [MBJ_AUTH_SHA_1] = "sha1",
    [MBJ_AUTH_SHA_224] = "sha224",
    [MBJ_AUTH_SHA_256] = "sha256",
    [MBJ_AUTH_SHA_384] = "sha384",
    [MBJ_AUTH_SHA_512] = "sha512",
    [MBJ_AUTH_AES_GMAC] = "gmac",
    [MBJ_AUTH_GCM] = "gcm",
    [MBJ_AUTH_AES_CCM] = "ccm",
    [MBJ_AUTH_AES_CMAC] = "cmac128",
    [MBJ_AUTH_AES_CMAC_256] = "cmac256",
};

static void put_field(FILE *file, struct mbj_bytes bytes) {
    fputc(' ', file);
    put_bytes(file, bytes.at, bytes.len);
}

static void put_line(FILE *file, const struct mbj_raw_job *raw) {
    fprintf(file, "%s %s %s", cipher_words[raw->cipher], raw->dir == MBJ_DIR_ENCRYPT ? "enc" : "dec",
            raw->order == MBJ_ORDER_CIPHER_HASH ? "ch" : "hc");
    put_field(file, raw->key);
    put_field(file, raw->iv);
    fprintf(file, " %llu %llu %s", (unsigned long long)raw->cipher_off, (unsigned long long)raw->cipher_len, auth_words[raw->auth]);
    put_field(file, raw->auth_key);
    put_field(file, raw->aad);
    fprintf(file, " %llu %llu %u", (unsigned long long)raw->hash_off, (unsigned long long)raw->hash_len, raw->tag_len);
    put_field(file, raw->packet);
    fputc('\n', file);
}

/* ---- direct calls ---- */

static struct mbj_bytes bytes_in(const struct sample *sample, struct range range) {
    return bytes_at(bytes_of(sample, range), range.len);
}

static struct mbj_bytes key_in(const struct sample *sample) {
    return bytes_at(input_of(sample, INPUT_KEY), 16 + 8 * (size_t)(sample->which % KEY_SIZES));
}

static void fill_gcm(struct mbj_raw_job *raw, const struct sample *sample) {
    raw->cipher = MBJ_CIPHER_GCM;
    raw->auth = MBJ_AUTH_GCM;
    raw->dir = sample->dir == IMB_DIR_ENCRYPT ? MBJ_DIR_ENCRYPT : MBJ_DIR_DECRYPT;
    raw->key = key_in(sample);
    raw->aad = bytes_in(sample, sample->inputs[INPUT_AAD]);
    raw->packet = bytes_at(bytes_of(sample, sample->image), sample->text.len);
    raw->cipher_len = sample->text.len;
}

static void fill_gmac(struct mbj_raw_job *raw, const struct sample *sample) {
    raw->auth = MBJ_AUTH_AES_GMAC;
    raw->auth_key = key_in(sample);
    raw->packet = bytes_in(sample, sample->inputs[INPUT_AAD]);
    raw->hash_len = raw->packet.len;
}

static void fill_digest(struct mbj_raw_job *raw, const struct sample *sample) {
    static const uint8_t auths[HASHES] = {MBJ_AUTH_SHA_1, MBJ_AUTH_SHA_224, MBJ_AUTH_SHA_256, MBJ_AUTH_SHA_384, MBJ_AUTH_SHA_512};
    raw->auth = auths[sample->which];
    raw->packet = bytes_in(sample, sample->inputs[INPUT_AAD]);
    raw->hash_len = raw->packet.len;
}

static bool put_line_of_call(FILE *file, const struct sample *sample) {
    struct mbj_raw_job raw;
    struct raw_form form;
    fill_nothing(&form, &raw);
    raw.iv = bytes_in(sample, sample->inputs[INPUT_IV]);
    raw.tag_len = (uint8_t)(sample->kind == KIND_DIGEST ? sample->text.len : sample->tag.len);
    switch (sample->kind) {
    case KIND_GCM:
    case KIND_GCM_IN_PARTS: fill_gcm(&raw, sample); break;
    case KIND_GMAC_IN_PARTS: fill_gmac(&raw, sample); break;
    case KIND_DIGEST: fill_digest(&raw, sample); break;
    default: return false;
    }
    if (raw.packet.len > PACKET_BYTES || raw.aad.len > PACKET_BYTES || raw.iv.len > PACKET_BYTES)
        return false;
    put_line(file, &raw);
    return true;
}

/* ---- jobs ---- */

/* A line has no lengths in bits, no counter that wraps within 32 bits, no packet that is longer, and no tag that is ciphered itself. */
static bool put_line_of_job(FILE *file, const struct sample *sample, struct dropin *d, uint8_t *image) {
    struct mbj_raw_job raw;
    struct raw_form form;
    IMB_JOB job;
    job_of_sample(&job, sample, image);
    if (is_done_at_once(&job) || cipher_open_bits(&job) != 0 || hash_open_bits(&job) != 0)
        return false;
    fill_nothing(&form, &raw);
    bool is_filled = true;
    if (cipher_of(&job)->partner != 0) {
        fill_aead(&form, &job);
    } else {
        fill_cipher(d, &form, &job);
        fill_hash(&form, &job);
        is_filled = fill_ranges(d, &form, &job);
    }
    if (is_filled)
        put_line(file, form.raw);
    forget_form(d, &form);
    leave_key(d, form.found);
    return is_filled;
}

bool put_job_line(FILE *file, const struct sample *sample) {
    if (sample->kind != KIND_JOB)
        return put_line_of_call(file, sample);
    IMB_MGR *m = empty_proved_manager();
    uint8_t *image = sample->is_unsent || m == NULL ? NULL : malloc((size_t)sample->image.len + 1);
    if (image == NULL)
        return false;
    memcpy(image, bytes_of(sample, sample->image), sample->image.len);
    bool is_put = put_line_of_job(file, sample, m->aes128_ooo, image);
    wipe(image, sample->image.len);
    free(image);
    return is_put;
}
