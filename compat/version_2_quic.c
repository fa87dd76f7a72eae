/* Packets of QUIC by GCM, which intel-ipsec-mb 2.0 has and 1.3 hasn't. What the call refuses, and with which error, is as its library does
 * it. */
#include "algorithms.h"
#include "errors.h"
#include "gcm.h"
#include "ring.h"

#include <string.h>

/* Packets under one key: an array for each of their fields. */
struct packets {
    const struct gcm_key_data *key;
    IMB_KEY_SIZE_BYTES key_len;
    IMB_CIPHER_DIRECTION dir;
    void **dst;
    const void *const *src;
    const uint64_t *lens;
    const void *const *ivs, *const *aads;
    uint64_t aad_len;
    void **tags;
    uint64_t tag_len, n;
};

static int error_of_arrays(const struct packets *packets) {
    if (packets->key == NULL)
        return IMB_ERR_NULL_EXP_KEY;
    if (packets->dst == NULL || packets->src == NULL)
        return packets->dst == NULL ? IMB_ERR_NULL_DST : IMB_ERR_NULL_SRC;
    if (packets->lens == NULL)
        return IMB_ERR_CIPH_LEN;
    if (packets->ivs == NULL)
        return IMB_ERR_NULL_IV;
    if (packets->aads == NULL)
        return IMB_ERR_NULL_AAD;
    return packets->tags == NULL ? IMB_ERR_NULL_AUTH : 0;
}

/* What is NULL in one of the packets, or 0. What has no byte has no place. */
static int error_of_packet(const struct packets *packets, uint64_t i) {
    uint64_t len = packets->lens[i];
    if (len != 0 && (packets->dst[i] == NULL || packets->src[i] == NULL))
        return packets->dst[i] == NULL ? IMB_ERR_NULL_DST : IMB_ERR_NULL_SRC;
    if (packets->ivs[i] == NULL)
        return IMB_ERR_NULL_IV;
    if (packets->aad_len != 0 && packets->aads[i] == NULL)
        return IMB_ERR_NULL_AAD;
    if (packets->tags[i] == NULL)
        return IMB_ERR_NULL_AUTH;
    return len > MOST_GCM_BYTES ? IMB_ERR_CIPH_LEN : 0;
}

/* All packets are looked at before the first one is done. There are no keys of 24 bytes in QUIC. */
static int error_of_packets(const struct packets *packets) {
    int error = error_of_arrays(packets);
    if (error == 0 && packets->key_len != 16 && packets->key_len != 32)
        error = IMB_ERR_KEY_LEN;
    if (error == 0 && packets->dir != IMB_DIR_ENCRYPT && packets->dir != IMB_DIR_DECRYPT)
        error = IMB_ERR_JOB_CIPH_DIR;
    if (error == 0 && (packets->tag_len == 0 || packets->tag_len > GCM_TAG_BYTES))
        error = IMB_ERR_AUTH_TAG_LEN;
    for (uint64_t i = 0; i < packets->n && error == 0; i++)
        error = error_of_packet(packets, i);
    return error;
}

/* If the proved code refuses a packet its text is filled with zeros: nothing that was to be ciphered is left there. */
static int change_packet(const struct packets *packets, uint64_t i) {
    struct gcm_text text = {
        .dir = packets->dir == IMB_DIR_ENCRYPT ? MBJ_DIR_ENCRYPT : MBJ_DIR_DECRYPT,
        .key = bytes_at(packets->key->expanded_keys, packets->key_len),
        .iv = bytes_at(packets->ivs[i], IMB_GCM_IV_DATA_LEN),
        .aad = bytes_at(packets->aads[i], packets->aad_len),
        .out = packets->dst[i],
        .in = packets->src[i],
        .len = packets->lens[i],
        .tag = packets->tags[i],
        .tag_len = packets->tag_len,
    };
    int error = error_of_refusal(gcm_whole(&text));
    if (error != 0 && text.len != 0)
        memset(text.out, 0, text.len);
    return error;
}

IMB_DLL_EXPORT void imb_quic_aes_gcm(IMB_MGR *m, const struct gcm_key_data *key, const IMB_KEY_SIZE_BYTES key_len,
                                     const IMB_CIPHER_DIRECTION dir, void *dst[], const void *const src[], const uint64_t lens[],
                                     const void *const ivs[], const void *const aads[], const uint64_t aad_len, void *tags[],
                                     const uint64_t tag_len, const uint64_t n) {
    struct packets packets = {key, key_len, dir, dst, src, lens, ivs, aads, aad_len, tags, tag_len, n};
    if (dropin_of(m) == NULL)
        return;
    int error = error_of_packets(&packets);
    if (error == 0)
        for (uint64_t i = 0; i < n; i++) {
            int refusal = change_packet(&packets, i);
            error = error != 0 ? error : refusal;
        }
    set_error(m, error);
}
