#include "odd.h"

/* What intel-ipsec-mb makes of each value is in docs/FROM_IPSEC_MB.md. If it takes the value for a right one, both libraries have to
 * write the same bytes. If it would read or write what the job hasn't, the drop-in has to refuse. */

static bool is_cipher(const struct sample *sample, int cipher) {
    return sample->cipher == cipher;
}

static bool is_aead(const struct sample *sample) {
    return is_cipher(sample, IMB_CIPHER_GCM) || is_cipher(sample, IMB_CIPHER_CCM);
}

static bool is_ctr(const struct sample *sample) {
    return is_cipher(sample, IMB_CIPHER_CNTR) || is_cipher(sample, IMB_CIPHER_CNTR_BITLEN);
}

static bool has_cipher(const struct sample *sample) {
    return !is_cipher(sample, IMB_CIPHER_NULL);
}

static bool is_hmac(const struct sample *sample) {
    return sample->hash >= IMB_AUTH_HMAC_SHA_1 && sample->hash <= IMB_AUTH_HMAC_SHA_512;
}

static bool is_digest(const struct sample *sample) {
    return sample->hash >= IMB_AUTH_SHA_1 && sample->hash <= IMB_AUTH_SHA_512;
}

static size_t whole_tag(const struct sample *sample) {
    static const size_t digests[] = {20, 28, 32, 48, 64};
    int number = is_hmac(sample) ? sample->hash - IMB_AUTH_HMAC_SHA_1 : sample->hash - IMB_AUTH_SHA_1;
    return is_hmac(sample) || is_digest(sample) ? digests[number] : 16;
}

/* Any code but those of a direction or an order. */
static uint64_t draw_no_code(void) {
    return draw_below(4) == 0 ? 0 : 3 + draw_below(1000);
}

/* 2.0 takes odd numbers for the direction to encipher, and 1.3 none but its code. */
static bool is_taken_as(uint64_t dir, const struct sample *sample) {
    return sample->dir == (IS_VERSION_2 && dir % 2 == 1 ? IMB_DIR_ENCRYPT : IMB_DIR_DECRYPT);
}

static void draw_code(struct odd *odd, const struct sample *sample) {
    bool is_dir = has_cipher(sample) && draw_below(2) == 0;
    odd->value = draw_no_code();
    if (is_dir && is_taken_as(odd->value, sample))
        odd->field = ODD_DIR;
    odd->is_refused = odd->field == ODD_DIR && is_cipher(sample, IMB_CIPHER_CCM);
    if (!is_dir && sample->order == IMB_ORDER_HASH_CIPHER)
        odd->field = ODD_ORDER;
}

/* 2.0 takes a length for the next one that has whole words of 8 bytes, but for the longest key alone by CCM. 1.3 takes those above the key
 * before the longest one for that. */
static void draw_key_len(struct odd *odd, const struct sample *sample) {
    bool is_ccm = is_cipher(sample, IMB_CIPHER_CCM);
    uint64_t below = IS_VERSION_2 ? sample->key_len - 8 : is_ccm ? 16 : 24, above = IS_VERSION_2 ? sample->key_len : 32;
    if (!has_cipher(sample))
        return;
    odd->field = ODD_KEY_LEN;
    odd->is_refused = (sample->key_len != 32 && (!IS_VERSION_2 || is_ccm)) || draw_below(3) == 0;
    odd->value = below + 1 + draw_below(above - below - 1);
    if (odd->is_refused)
        odd->value = draw_below(3) == 0 ? 33 + draw_below(1000) : draw_below(IS_VERSION_2 ? 9 : 16);
}

static void draw_iv_len(struct odd *odd, const struct sample *sample) {
    bool is_short = is_ctr(sample) || is_cipher(sample, IMB_CIPHER_CBC);
    if (!has_cipher(sample))
        return;
    odd->field = ODD_IV_LEN;
    odd->is_refused = !is_short || draw_below(3) == 0;
    odd->value = draw_below(16);
    if (odd->is_refused)
        odd->value = is_cipher(sample, IMB_CIPHER_GCM) ? 0 : is_short || draw_below(2) == 0 ? 17 + draw_below(1000) : draw_below(7);
}

/* Intel's code deciphers beyond the text by CBC if that has a length of no whole blocks and the key 24 bytes. */
static void draw_cipher_len(struct odd *odd, const struct sample *sample) {
    bool is_encryption = sample->dir == IMB_DIR_ENCRYPT, is_cbc = is_cipher(sample, IMB_CIPHER_CBC);
    odd->value = 0;
    if (is_cbc && draw_below(3) != 0) {
        odd->is_refused = draw_below(4) == 0;
        odd->value = odd->is_refused ? 1 + draw_below(15) : sample->cipher_len + 1 + draw_below(15);
        if (!is_encryption && sample->key_len == 24 && !odd->is_refused)
            return;
    } else if (is_cbc) {
        odd->is_refused = !is_encryption || draw_below(2) == 0;
        odd->value = odd->is_refused && is_encryption ? 65536 + draw_below(UINT64_C(1) << 40) : 0;
    } else if (is_cipher(sample, IMB_CIPHER_CCM)) {
        odd->is_refused = true;
        odd->value = sample->cipher_len + 1 + draw_below(100);
    } else if (!is_ctr(sample)) {
        return;
    }
    odd->field = ODD_CIPHER_LEN;
}

static void draw_tag_len(struct odd *odd, const struct sample *sample) {
    size_t whole = whole_tag(sample);
    if (sample->hash == IMB_AUTH_NULL || sample->tag != sample->memory - 128)
        return;
    odd->field = ODD_TAG_LEN;
    odd->is_refused = is_aead(sample) || draw_below(3) == 0 || !(is_hmac(sample) || is_digest(sample));
    odd->value = odd->is_refused ? (draw_below(2) == 0 ? 0 : whole + 1 + draw_below(1000)) : 1 + draw_below(whole);
    odd->own_tag_len = odd->value;
}

/* By HMAC of no byte Intel's code gives a wrong tag, and wrong ones to jobs beside it: so that isn't drawn. */
static void draw_hash_len(struct odd *odd, const struct sample *sample) {
    bool is_cmac = sample->hash == IMB_AUTH_AES_CMAC || sample->hash == IMB_AUTH_AES_CMAC_256 || sample->hash == IMB_AUTH_AES_CMAC_BITLEN;
    if (!is_hmac(sample) && !is_cmac)
        return;
    odd->field = ODD_HASH_LEN;
    odd->is_refused = true;
    odd->value = 65535 + draw_below(UINT64_C(1) << 40);
}

/* A cipher that is none, or that goes with another authentication. */
static void draw_pair(struct odd *odd, const struct sample *sample) {
    odd->field = is_cipher(sample, IMB_CIPHER_CCM) && draw_below(2) == 0 ? ODD_AAD_LEN : ODD_CODE;
    odd->is_refused = true;
    odd->value = draw_below(2) == 0 ? 0 : IMB_CIPHER_NUM + draw_below(1000);
    if (odd->field == ODD_AAD_LEN)
        odd->value = 47 + draw_below(1000);
}

void draw_odd(struct odd *odd, const struct sample *sample) {
    static void (*const draw_field[])(struct odd *, const struct sample *) = {
        draw_code, draw_key_len, draw_iv_len, draw_cipher_len, draw_tag_len, draw_hash_len, draw_pair};
    *odd = (struct odd){.field = ODD_NONE, .own_tag_len = sample->tag_len};
    draw_field[draw_below(sizeof draw_field / sizeof *draw_field)](odd, sample);
    if (odd->field == ODD_NONE)
        odd->is_refused = false;
}

void make_odd(IMB_JOB *job, const struct odd *odd) {
    switch (odd->field) {
    case ODD_NONE: break;
    case ODD_DIR: job->cipher_direction = (IMB_CIPHER_DIRECTION)odd->value; break;
    case ODD_ORDER: job->chain_order = (IMB_CHAIN_ORDER)odd->value; break;
    case ODD_KEY_LEN: job->key_len_in_bytes = odd->value; break;
    case ODD_IV_LEN: job->iv_len_in_bytes = odd->value; break;
    case ODD_CIPHER_LEN: job->msg_len_to_cipher_in_bytes = odd->value; break;
    case ODD_TAG_LEN: job->auth_tag_output_len_in_bytes = odd->value; break;
    case ODD_HASH_LEN: job->msg_len_to_hash_in_bytes = odd->value; break;
    case ODD_CODE: job->cipher_mode = (IMB_CIPHER_MODE)odd->value; break;
    case ODD_AAD_LEN: job->u.CCM.aad_len_in_bytes = odd->value; break;
    }
}
