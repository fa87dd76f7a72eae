#include "sample.h"

#include <stdio.h>
#include <string.h>

struct drawn drawn;

static const int ciphers[] = {IMB_CIPHER_NULL, IMB_CIPHER_CBC, IMB_CIPHER_CNTR, IMB_CIPHER_CNTR_BITLEN, IMB_CIPHER_GCM, IMB_CIPHER_CCM};

static const int hashes[] = {
    IMB_AUTH_NULL,       IMB_AUTH_HMAC_SHA_1, IMB_AUTH_HMAC_SHA_224,    IMB_AUTH_HMAC_SHA_256, IMB_AUTH_HMAC_SHA_384, IMB_AUTH_HMAC_SHA_512,
    IMB_AUTH_SHA_1,      IMB_AUTH_SHA_224,    IMB_AUTH_SHA_256,         IMB_AUTH_SHA_384,      IMB_AUTH_SHA_512,      IMB_AUTH_AES_CMAC,
    IMB_AUTH_AES_CMAC_256, IMB_AUTH_AES_CMAC_BITLEN, IMB_AUTH_AES_GMAC_128, IMB_AUTH_AES_GMAC_192, IMB_AUTH_AES_GMAC_256};

/* A text of CMAC with a length in bits has up to 65,534 bits in 1.3, and as many bytes in 2.0, where the longest ones are drawn too. */
enum { MOST_CMAC_BYTES = IS_VERSION_2 ? 65000 : 8000 };

#define ANY_OF(array) array[draw_below(sizeof array / sizeof *array)]

static bool is_hmac(int hash) {
    return hash >= IMB_AUTH_HMAC_SHA_1 && hash <= IMB_AUTH_HMAC_SHA_512;
}

static bool is_digest(int hash) {
    return hash >= IMB_AUTH_SHA_1 && hash <= IMB_AUTH_SHA_512;
}

static bool is_cmac(int hash) {
    return hash == IMB_AUTH_AES_CMAC || hash == IMB_AUTH_AES_CMAC_256 || hash == IMB_AUTH_AES_CMAC_BITLEN;
}

static bool is_gmac(int hash) {
    return hash >= IMB_AUTH_AES_GMAC_128 && hash <= IMB_AUTH_AES_GMAC_256;
}

static bool is_aead(const struct sample *sample) {
    return sample->cipher == IMB_CIPHER_GCM || sample->cipher == IMB_CIPHER_CCM;
}

static bool in_bits(const struct sample *sample) {
    return sample->cipher == IMB_CIPHER_CNTR_BITLEN;
}

/* ---- algorithms and lengths ---- */

static void draw_codes(struct sample *sample) {
    sample->cipher = ANY_OF(ciphers);
    sample->hash = ANY_OF(hashes);
    sample->dir = IMB_DIR_ENCRYPT + (int)draw_below(2);
    sample->order = draw_below(8) == 0 ? (int)draw_below(5) : IMB_ORDER_CIPHER_HASH + (int)draw_below(2);
    sample->key_len = 16 + 8 * draw_below(3);
    if (sample->cipher == IMB_CIPHER_GCM)
        sample->hash = IMB_AUTH_AES_GMAC;
    if (sample->cipher == IMB_CIPHER_CCM) {
        sample->hash = IMB_AUTH_AES_CCM;
        sample->order = sample->dir == IMB_DIR_ENCRYPT ? IMB_ORDER_HASH_CIPHER : IMB_ORDER_CIPHER_HASH;
        sample->key_len = 16 + 16 * draw_below(2);
    }
}

/* The length of the cipher's text and of its IV. */
static void draw_cipher(struct sample *sample, size_t most, bool may_be_long) {
    bool is_long = may_be_long && draw_below(2) == 0;
    switch (sample->cipher) {
    case IMB_CIPHER_CBC:
        sample->cipher_len = 16 * (1 + draw_below(most / 16));
        if (is_long && sample->dir == IMB_DIR_DECRYPT)
            sample->cipher_len = 65536 + 16 * draw_below(9000);
        sample->iv_len = 16;
        break;
    case IMB_CIPHER_CNTR:
        sample->cipher_len = is_long ? 65536 + draw_below(100000) : 1 + draw_below(most);
        sample->iv_len = draw_below(2) == 0 ? 12 : 16;
        break;
    case IMB_CIPHER_CNTR_BITLEN:
        sample->cipher_len = 1 + draw_below(8 * most);
        sample->iv_len = 16;
        break;
    case IMB_CIPHER_GCM:
        sample->cipher_len = is_long ? 65536 + draw_below(100000) : draw_below(most);
        sample->iv_len = draw_below(2) == 0 ? 12 : 1 + draw_below(60);
        sample->aad_len = draw_below(64);
        break;
    case IMB_CIPHER_CCM:
        sample->cipher_len = draw_below(most);
        sample->iv_len = 7 + draw_below(7);
        sample->aad_len = draw_below(47);
        break;
    default: break;
    }
    if (sample->iv_len == 16 && draw_below(8) == 0) {
        drawn.wrapping++;
        if (draw_below(4) != 0)
            memset(sample->iv + 12, 0xff, 3 + draw_below(2));
        else
            memset(sample->iv + 8, 0xff, 8);
    }
}

static size_t tag_len_of(int hash) {
    static const size_t digests[] = {20, 28, 32, 48, 64}, truncated[] = {12, 14, 16, 24, 32};
    if (is_hmac(hash))
        return draw_below(2) == 0 ? digests[hash - IMB_AUTH_HMAC_SHA_1] : truncated[hash - IMB_AUTH_HMAC_SHA_1];
    if (is_digest(hash))
        return digests[hash - IMB_AUTH_SHA_1];
    if (hash == IMB_AUTH_AES_CCM)
        return 4 + 2 * draw_below(7);
    return hash == IMB_AUTH_NULL ? 0 : hash == IMB_AUTH_AES_CMAC_BITLEN ? 4 : 1 + draw_below(16);
}

static void draw_hash(struct sample *sample, size_t most) {
    sample->tag_len = tag_len_of(sample->hash);
    if (sample->hash == IMB_AUTH_AES_CCM)
        sample->hash_len = sample->cipher_len;
    else if (sample->hash == IMB_AUTH_AES_CMAC_BITLEN && IS_VERSION_2 && draw_below(16) == 0)
        sample->hash_len = 8 * 65534 - draw_below(8 * 40);
    else if (sample->hash == IMB_AUTH_AES_CMAC_BITLEN)
        sample->hash_len = 1 + draw_below(8 * (most < MOST_CMAC_BYTES ? most : MOST_CMAC_BYTES));
    else if (sample->hash != IMB_AUTH_NULL && !is_aead(sample))
        sample->hash_len = (is_hmac(sample->hash) ? 1 : 0) + draw_below(most);
}

static size_t cipher_bytes(const struct sample *sample) {
    return in_bits(sample) ? (sample->cipher_len + 7) / 8 : sample->cipher_len;
}

static size_t hash_bytes(const struct sample *sample) {
    return sample->hash == IMB_AUTH_AES_CMAC_BITLEN ? (sample->hash_len + 7) / 8 : sample->hash_len;
}

/* ---- places ---- */

static bool overlap(size_t a, size_t a_len, size_t b, size_t b_len) {
    return a_len != 0 && b_len != 0 && a < b + b_len && b < a + a_len;
}

/* A tag may lie among what is ciphered, and not over what it authenticates: when it was written would show. */
static void place_tag(struct sample *sample, size_t hashed, size_t behind) {
    size_t len = cipher_bytes(sample);
    bool is_within = draw_below(4) == 0 && len >= 80 && sample->cipher != IMB_CIPHER_CCM;
    sample->tag = is_within ? sample->dst + draw_below(len - 64) : behind;
    if (overlap(hashed, hash_bytes(sample), sample->tag, sample->tag_len))
        sample->tag = behind;
    drawn.ciphered_tags += sample->tag != behind;
}

/* The memory has a part for the source, one for the destination, and one for the tag. What is hashed lies about what is ciphered, before or
 * after, or anywhere: its offset may be below 0, which is told modulo 2^64. */
static void place(struct sample *sample) {
    size_t len = cipher_bytes(sample), gap = len + hash_bytes(sample) + 128, behind = 3 * gap;
    sample->src = draw_below(64);
    sample->cipher_off = draw_below(gap - len);
    sample->dst = draw_below(3) == 0 ? gap + 64 + draw_below(gap - 64) : sample->src + sample->cipher_off;
    sample->memory = behind + 128;
    drawn.elsewhere += sample->dst != sample->src + sample->cipher_off;
    size_t near = draw_below(2) == 0 ? sample->src + sample->cipher_off : sample->dst;
    size_t hashed = near > 20 ? near - draw_below(20) : near;
    if (draw_below(4) == 0)
        hashed = draw_below(behind - hash_bytes(sample));
    sample->hash_off = hashed - sample->src;
    if (sample->cipher == IMB_CIPHER_CCM)
        sample->hash_off = sample->cipher_off;
    place_tag(sample, hashed, behind);
}

/* ---- faults ---- */

static void spoil(struct sample *sample) {
    size_t behind = sample->memory - 128;
    drawn.faulty++;
    sample->is_faulty = true;
    switch (draw_below(6)) {
    case 0: sample->key_len = 17; break;
    case 1: sample->iv_len = sample->cipher == IMB_CIPHER_GCM ? 0 : 14; break;
    case 2: sample->tag_len = 65, sample->tag = behind; break;
    case 3: sample->dir = 0; break;
    case 4: sample->cipher_len += sample->cipher == IMB_CIPHER_CBC || sample->cipher == IMB_CIPHER_CCM; break;
    default: sample->hash_len = sample->cipher == IMB_CIPHER_NULL && is_hmac(sample->hash) ? 65535 : sample->hash_len; break;
    }
}

void draw_sample(struct sample *sample) {
    bool is_long = draw_below(200) == 0;
    size_t most = is_long ? 65000 : draw_below(3) != 0 ? 300 : 2000;
    memset(sample, 0, sizeof *sample);
    draw_codes(sample);
    draw_bytes(sample->key, sizeof sample->key);
    draw_bytes(sample->auth_key, sizeof sample->auth_key);
    draw_bytes(sample->iv, sizeof sample->iv);
    draw_bytes(sample->aad, sizeof sample->aad);
    draw_cipher(sample, most, is_long);
    draw_hash(sample, most);
    place(sample);
    drawn.jobs++;
    drawn.long_ones += cipher_bytes(sample) > 65535;
    if (draw_below(30) == 0)
        spoil(sample);
}

/* ---- jobs ---- */

static void expand(IMB_MGR *m, const uint8_t *key, size_t len, void *encryption, void *decryption, struct gcm_key_data *gcm) {
    if (len == 24) {
        IMB_AES_KEYEXP_192(m, key, encryption, decryption);
        IMB_AES192_GCM_PRE(m, key, gcm);
    } else if (len == 32) {
        IMB_AES_KEYEXP_256(m, key, encryption, decryption);
        IMB_AES256_GCM_PRE(m, key, gcm);
    } else {
        IMB_AES_KEYEXP_128(m, key, encryption, decryption);
        IMB_AES128_GCM_PRE(m, key, gcm);
    }
}

static void fill_hmac(IMB_MGR *m, IMB_JOB *job, struct keys *keys, const struct sample *sample) {
    hash_one_block_t const state_of[] = {m->sha1_one_block, m->sha224_one_block, m->sha256_one_block, m->sha384_one_block,
                                         m->sha512_one_block};
    static const uint8_t pads[2] = {0x36, 0x5c}; /* RFC 2104, 2 */
    uint8_t padded[128];
    for (int side = 0; side < 2; side++) {
        for (size_t i = 0; i < sizeof padded; i++)
            padded[i] = sample->auth_key[i] ^ pads[side];
        state_of[sample->hash - IMB_AUTH_HMAC_SHA_1](padded, keys->states[side]);
    }
    job->u.HMAC._hashed_auth_key_xor_ipad = keys->states[0];
    job->u.HMAC._hashed_auth_key_xor_opad = keys->states[1];
}

static void fill_cmac(IMB_MGR *m, IMB_JOB *job, struct keys *keys, const struct sample *sample) {
    DECLARE_ALIGNED(uint8_t unused[240], 16);
    if (sample->hash == IMB_AUTH_AES_CMAC_256) {
        IMB_AES_KEYEXP_256(m, sample->auth_key, keys->cmac, unused);
        IMB_AES_CMAC_SUBKEY_GEN_256(m, keys->cmac, keys->subkeys[0], keys->subkeys[1]);
    } else {
        IMB_AES_KEYEXP_128(m, sample->auth_key, keys->cmac, unused);
        IMB_AES_CMAC_SUBKEY_GEN_128(m, keys->cmac, keys->subkeys[0], keys->subkeys[1]);
    }
    job->u.CMAC._key_expanded = keys->cmac;
    job->u.CMAC._skey1 = keys->subkeys[0];
    job->u.CMAC._skey2 = keys->subkeys[1];
}

static void fill_gmac(IMB_MGR *m, IMB_JOB *job, struct keys *keys, const struct sample *sample) {
    DECLARE_ALIGNED(uint8_t unused[2][240], 16);
    size_t key_len = 16 + 8 * (size_t)(sample->hash - IMB_AUTH_AES_GMAC_128);
    expand(m, sample->auth_key, key_len, unused[0], unused[1], &keys->gmac);
    job->u.GMAC._key = &keys->gmac;
    job->u.GMAC._iv = sample->iv;
    job->u.GMAC.iv_len_in_bytes = 12;
}

static void fill_hash(IMB_MGR *m, IMB_JOB *job, struct keys *keys, const struct sample *sample) {
    if (is_hmac(sample->hash)) {
        fill_hmac(m, job, keys, sample);
    } else if (is_cmac(sample->hash)) {
        fill_cmac(m, job, keys, sample);
    } else if (is_gmac(sample->hash)) {
        fill_gmac(m, job, keys, sample);
    } else if (sample->cipher == IMB_CIPHER_GCM) {
        job->u.GCM.aad = sample->aad;
        job->u.GCM.aad_len_in_bytes = sample->aad_len;
    } else if (sample->cipher == IMB_CIPHER_CCM) {
        job->u.CCM.aad = sample->aad;
        job->u.CCM.aad_len_in_bytes = sample->aad_len;
    }
}

void fill_job(IMB_MGR *m, IMB_JOB *job, struct keys *keys, const struct sample *sample, uint8_t *memory) {
    bool is_gcm = sample->cipher == IMB_CIPHER_GCM;
    expand(m, sample->key, sample->key_len, keys->encryption, keys->decryption, &keys->gcm);
    memset(job, 0, sizeof *job);
    job->cipher_mode = (IMB_CIPHER_MODE)sample->cipher;
    job->cipher_direction = (IMB_CIPHER_DIRECTION)sample->dir;
    job->hash_alg = (IMB_HASH_ALG)sample->hash;
    job->chain_order = (IMB_CHAIN_ORDER)sample->order;
    job->enc_keys = is_gcm ? (const void *)&keys->gcm : keys->encryption;
    job->dec_keys = is_gcm ? (const void *)&keys->gcm : keys->decryption;
    job->key_len_in_bytes = sample->key_len;
    job->src = memory + sample->src;
    job->dst = memory + sample->dst;
    job->cipher_start_src_offset_in_bytes = sample->cipher_off;
    job->msg_len_to_cipher_in_bytes = sample->cipher_len;
    job->hash_start_src_offset_in_bytes = sample->hash_off;
    job->msg_len_to_hash_in_bytes = sample->hash_len;
    job->iv = sample->iv;
    job->iv_len_in_bytes = sample->iv_len;
    job->auth_tag_output = memory + sample->tag;
    job->auth_tag_output_len_in_bytes = sample->tag_len;
    fill_hash(m, job, keys, sample);
}

void print_sample(const struct sample *s) {
    printf("cipher %d dir %d order %d key %zu iv %zu aad %zu src %zu+%zu len %lu dst %zu; ", s->cipher, s->dir, s->order, s->key_len,
           s->iv_len, s->aad_len, s->src, s->cipher_off, s->cipher_len, s->dst);
    printf("hash %d at %ld len %lu tag %zu len %zu; memory %zu\n", s->hash, (long)s->hash_off, s->hash_len, s->tag, s->tag_len, s->memory);
}
