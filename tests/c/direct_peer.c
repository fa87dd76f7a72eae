/* Compares the calls without a manager with OpenSSL: digests, texts by GCM whole and cut at every place, and texts by CCM. Link with
 * -lcrypto. */
#include "check.h"
#include "mbj_direct.h"

#include <openssl/evp.h>

enum { TEXT_ROOM = 1100, CUT_TEXT = 40, TAG_BYTES = 16, TRIES = 300, MOST_PARTS = 8 };

/* The same sequence in each run. */
static uint64_t drawn = 1;

static uint8_t draw(void) {
    drawn = drawn * 6364136223846793005u + 1442695040888963407u;
    return (uint8_t)(drawn >> 56);
}

static size_t draw_below(size_t end) {
    return (draw() * 256u + draw()) % end;
}

static void draw_bytes(uint8_t *out, size_t len) {
    for (size_t i = 0; i < len; i++)
        out[i] = draw();
}

static struct mbj_bytes bytes_at(const uint8_t *at, size_t len) {
    struct mbj_bytes bytes = {at, len};
    return bytes;
}

static struct mbj_room room_at(uint8_t *at, size_t len) {
    struct mbj_room room = {at, len};
    return room;
}

/* What is sealed: the lengths and the bytes. */
struct sealing {
    size_t key_len, iv_len, aad_len, len;
    uint8_t key[32], iv[70], aad[40], text[TEXT_ROOM];
};

static struct sealing draw_sealing(size_t iv_len, size_t len) {
    struct sealing s;
    s.key_len = 16 + 8 * draw_below(3);
    s.iv_len = iv_len;
    s.aad_len = draw_below(sizeof s.aad + 1);
    s.len = len;
    draw_bytes(s.key, s.key_len);
    draw_bytes(s.iv, iv_len);
    draw_bytes(s.aad, s.aad_len);
    draw_bytes(s.text, len);
    return s;
}

/* ---- what OpenSSL makes of it ---- */

static const EVP_CIPHER *gcm_of(size_t key_len) {
    return key_len == 16 ? EVP_aes_128_gcm() : key_len == 24 ? EVP_aes_192_gcm() : EVP_aes_256_gcm();
}

static const EVP_CIPHER *ccm_of(size_t key_len) {
    return key_len == 16 ? EVP_aes_128_ccm() : key_len == 24 ? EVP_aes_192_ccm() : EVP_aes_256_ccm();
}

static void peer_gcm(const struct sealing *s, uint8_t *out, uint8_t *tag) {
    EVP_CIPHER_CTX *c = EVP_CIPHER_CTX_new();
    int len;
    CHECK(c != NULL && EVP_EncryptInit_ex(c, gcm_of(s->key_len), NULL, NULL, NULL));
    CHECK(EVP_CIPHER_CTX_ctrl(c, EVP_CTRL_GCM_SET_IVLEN, (int)s->iv_len, NULL) && EVP_EncryptInit_ex(c, NULL, NULL, s->key, s->iv));
    CHECK(EVP_EncryptUpdate(c, NULL, &len, s->aad, (int)s->aad_len) && EVP_EncryptUpdate(c, out, &len, s->text, (int)s->len));
    CHECK(EVP_EncryptFinal_ex(c, out + len, &len) && EVP_CIPHER_CTX_ctrl(c, EVP_CTRL_GCM_GET_TAG, TAG_BYTES, tag));
    EVP_CIPHER_CTX_free(c);
}

static void peer_gmac(const struct sealing *s, const uint8_t *bytes, size_t bytes_len, uint8_t *tag) {
    EVP_CIPHER_CTX *c = EVP_CIPHER_CTX_new();
    uint8_t none[TAG_BYTES];
    int len;
    CHECK(c != NULL && EVP_EncryptInit_ex(c, gcm_of(s->key_len), NULL, NULL, NULL));
    CHECK(EVP_CIPHER_CTX_ctrl(c, EVP_CTRL_GCM_SET_IVLEN, (int)s->iv_len, NULL) && EVP_EncryptInit_ex(c, NULL, NULL, s->key, s->iv));
    CHECK(EVP_EncryptUpdate(c, NULL, &len, bytes, (int)bytes_len) && EVP_EncryptFinal_ex(c, none, &len));
    CHECK(EVP_CIPHER_CTX_ctrl(c, EVP_CTRL_GCM_GET_TAG, TAG_BYTES, tag));
    EVP_CIPHER_CTX_free(c);
}

static void peer_ccm(const struct sealing *s, size_t tag_len, uint8_t *out, uint8_t *tag) {
    EVP_CIPHER_CTX *c = EVP_CIPHER_CTX_new();
    int len;
    CHECK(c != NULL && EVP_EncryptInit_ex(c, ccm_of(s->key_len), NULL, NULL, NULL));
    CHECK(EVP_CIPHER_CTX_ctrl(c, EVP_CTRL_CCM_SET_IVLEN, (int)s->iv_len, NULL));
    CHECK(EVP_CIPHER_CTX_ctrl(c, EVP_CTRL_CCM_SET_TAG, (int)tag_len, NULL) && EVP_EncryptInit_ex(c, NULL, NULL, s->key, s->iv));
    CHECK(EVP_EncryptUpdate(c, NULL, &len, NULL, (int)s->len) && EVP_EncryptUpdate(c, NULL, &len, s->aad, (int)s->aad_len));
    CHECK(EVP_EncryptUpdate(c, out, &len, s->text, (int)s->len));
    CHECK(EVP_EncryptFinal_ex(c, out + len, &len) && EVP_CIPHER_CTX_ctrl(c, EVP_CTRL_CCM_GET_TAG, (int)tag_len, tag));
    EVP_CIPHER_CTX_free(c);
}

/* ---- the comparisons ---- */

static void compare_digest(uint32_t hash, const EVP_MD *md) {
    uint8_t text[TEXT_ROOM], out[MBJ_MAX_TAG_BYTES], wanted[MBJ_MAX_TAG_BYTES];
    unsigned len;
    for (size_t text_len = 0; text_len < 300; text_len++) {
        draw_bytes(text, text_len);
        CHECK(EVP_Digest(text, text_len, wanted, &len, md, NULL));
        CHECK(mbj_digest(hash, bytes_at(text, text_len), room_at(out, sizeof out)) == MBJ_ERR_NONE && memcmp(out, wanted, len) == 0);
    }
    CHECK(mbj_digest(hash, bytes_at(text, 1), room_at(out, len - 1)) == MBJ_ERR_NO_ROOM);
}

static void compare_gcm(size_t iv_len, size_t len) {
    struct sealing s = draw_sealing(iv_len, len);
    uint8_t wanted[TEXT_ROOM], wanted_tag[TAG_BYTES], text[TEXT_ROOM], tag[TAG_BYTES];
    size_t tag_len = 1 + draw_below(TAG_BYTES);
    struct mbj_bytes key = bytes_at(s.key, s.key_len), iv = bytes_at(s.iv, s.iv_len), aad = bytes_at(s.aad, s.aad_len);
    peer_gcm(&s, wanted, wanted_tag);
    memcpy(text, s.text, len);
    CHECK(mbj_gcm_seal(key, iv, aad, room_at(text, len), room_at(tag, tag_len)) == MBJ_ERR_NONE);
    CHECK(memcmp(text, wanted, len) == 0 && memcmp(tag, wanted_tag, tag_len) == 0);
    CHECK(mbj_gcm_decrypt_unverified(key, iv, aad, room_at(text, len), room_at(tag, tag_len)) == MBJ_ERR_NONE);
    CHECK(memcmp(text, s.text, len) == 0 && memcmp(tag, wanted_tag, tag_len) == 0);
    memcpy(text, wanted, len);
    CHECK(mbj_gcm_open(key, iv, aad, room_at(text, len), bytes_at(wanted_tag, tag_len)) == MBJ_ERR_NONE);
    CHECK(memcmp(text, s.text, len) == 0);
    memcpy(text, wanted, len);
    wanted_tag[draw_below(tag_len)] ^= (uint8_t)(1u << draw_below(8));
    CHECK(mbj_gcm_open(key, iv, aad, room_at(text, len), bytes_at(wanted_tag, tag_len)) == MBJ_ERR_TAG && is_all(text, len, 0));
}

/* The parts end at these places, and the last one at the end. */
static void compare_parts(const struct sealing *s, uint32_t dir, const size_t *ends, size_t many) {
    uint8_t wanted[TEXT_ROOM], wanted_tag[TAG_BYTES], text[TEXT_ROOM], tag[TAG_BYTES];
    struct mbj_gcm_state state;
    size_t start = 0;
    peer_gcm(s, wanted, wanted_tag);
    memcpy(text, dir == MBJ_DIR_ENCRYPT ? s->text : wanted, s->len);
    struct mbj_bytes key = bytes_at(s->key, s->key_len), iv = bytes_at(s->iv, s->iv_len), aad = bytes_at(s->aad, s->aad_len);
    CHECK(mbj_gcm_init(&state, dir, key, iv, aad) == MBJ_ERR_NONE);
    for (size_t i = 0; i <= many; i++) {
        size_t end = i < many ? ends[i] : s->len;
        CHECK(mbj_gcm_update(&state, room_at(text + start, end - start)) == MBJ_ERR_NONE);
        start = end;
    }
    CHECK(mbj_gcm_finish(&state, room_at(tag, TAG_BYTES)) == MBJ_ERR_NONE && memcmp(tag, wanted_tag, TAG_BYTES) == 0);
    CHECK(memcmp(text, dir == MBJ_DIR_ENCRYPT ? wanted : s->text, s->len) == 0);
    CHECK(is_all((const uint8_t *)&state, sizeof state, 0));
    CHECK(mbj_gcm_update(&state, room_at(text, s->len)) == MBJ_ERR_NO_STATE);
    CHECK(mbj_gcm_finish(&state, room_at(tag, TAG_BYTES)) == MBJ_ERR_NO_STATE);
}

/* A text of 40 bytes is cut once and twice, at every place. */
static void cut_everywhere(uint32_t dir) {
    struct sealing s = draw_sealing(12, CUT_TEXT);
    for (size_t first = 0; first <= CUT_TEXT; first++)
        for (size_t second = first; second <= CUT_TEXT; second++) {
            size_t ends[] = {first, second};
            compare_parts(&s, dir, ends, 1);
            compare_parts(&s, dir, ends, 2);
        }
}

/* Longer texts are cut where it falls, and from IVs of any length. */
static void cut_anywhere(uint32_t dir) {
    size_t len = draw_below(TEXT_ROOM), many = draw_below(MOST_PARTS), ends[MOST_PARTS], end = 0;
    struct sealing s = draw_sealing(1 + draw_below(sizeof s.iv), len);
    for (size_t i = 0; i < many; i++)
        ends[i] = end += draw_below(len - end + 1);
    compare_parts(&s, dir, ends, many);
}

static void compare_ccm(size_t len) {
    struct sealing s = draw_sealing(7 + draw_below(7), len);
    uint8_t wanted[TEXT_ROOM], wanted_tag[TAG_BYTES], text[TEXT_ROOM], tag[TAG_BYTES];
    size_t tag_len = 4 + 2 * draw_below(7);
    struct mbj_bytes key = bytes_at(s.key, s.key_len), nonce = bytes_at(s.iv, s.iv_len), aad = bytes_at(s.aad, s.aad_len);
    peer_ccm(&s, tag_len, wanted, wanted_tag);
    memcpy(text, s.text, len);
    CHECK(mbj_ccm_seal(key, nonce, aad, room_at(text, len), room_at(tag, tag_len)) == MBJ_ERR_NONE);
    CHECK(memcmp(text, wanted, len) == 0 && memcmp(tag, wanted_tag, tag_len) == 0);
    CHECK(mbj_ccm_decrypt_unverified(key, nonce, aad, room_at(text, len), room_at(tag, tag_len)) == MBJ_ERR_NONE);
    CHECK(memcmp(text, s.text, len) == 0 && memcmp(tag, wanted_tag, tag_len) == 0);
    memcpy(text, wanted, len);
    CHECK(mbj_ccm_open(key, nonce, aad, room_at(text, len), bytes_at(wanted_tag, tag_len)) == MBJ_ERR_NONE);
    CHECK(memcmp(text, s.text, len) == 0);
    memcpy(text, wanted, len);
    wanted_tag[draw_below(tag_len)] ^= (uint8_t)(1u << draw_below(8));
    CHECK(mbj_ccm_open(key, nonce, aad, room_at(text, len), bytes_at(wanted_tag, tag_len)) == MBJ_ERR_TAG && is_all(text, len, 0));
}

/* GMAC is GCM of no text: data in parts, which end where it falls. */
static void compare_gmac(size_t len) {
    struct sealing s = draw_sealing(1 + draw_below(60), 0);
    uint8_t bytes[TEXT_ROOM], wanted[TAG_BYTES], tag[TAG_BYTES];
    struct mbj_gmac_state state;
    draw_bytes(bytes, len);
    CHECK(mbj_gmac_init(&state, bytes_at(s.key, s.key_len), bytes_at(s.iv, s.iv_len)) == MBJ_ERR_NONE);
    for (size_t start = 0, part; start < len; start += part) {
        part = 1 + draw_below(len - start);
        CHECK(mbj_gmac_update(&state, bytes_at(bytes + start, part)) == MBJ_ERR_NONE);
    }
    CHECK(mbj_gmac_finish(&state, room_at(tag, TAG_BYTES)) == MBJ_ERR_NONE);
    peer_gmac(&s, bytes, len, wanted);
    CHECK(memcmp(tag, wanted, TAG_BYTES) == 0 && mbj_gmac_update(&state, bytes_at(bytes, len)) == MBJ_ERR_NO_STATE);
}

int main(void) {
    compare_digest(MBJ_HASH_SHA_1, EVP_sha1());
    compare_digest(MBJ_HASH_SHA_224, EVP_sha224());
    compare_digest(MBJ_HASH_SHA_256, EVP_sha256());
    compare_digest(MBJ_HASH_SHA_384, EVP_sha384());
    compare_digest(MBJ_HASH_SHA_512, EVP_sha512());
    cut_everywhere(MBJ_DIR_ENCRYPT);
    cut_everywhere(MBJ_DIR_DECRYPT);
    for (int i = 0; i < TRIES; i++) {
        compare_gcm(1 + draw_below(60), draw_below(TEXT_ROOM));
        cut_anywhere(MBJ_DIR_ENCRYPT);
        cut_anywhere(MBJ_DIR_DECRYPT);
        compare_ccm(1 + draw_below(TEXT_ROOM - 1));
        compare_gmac(draw_below(TEXT_ROOM));
    }
    return 0;
}
