/* The direct calls of GCM in the manager's table. */
#include "algorithms.h"
#include "errors.h"
#include "gcm.h"

#include <string.h>

/* ---- what each call does, for a key of so many bytes ---- */

/* The calls return nothing. So a text that is refused by the proved code, as with a context that wasn't begun, isn't left as it was, but
 * filled with zeros. */

static int error_of_text(const void *out, const void *in, uint64_t len) {
    if (len != 0 && out == NULL)
        return IMB_ERR_NULL_DST;
    if (len != 0 && in == NULL)
        return IMB_ERR_NULL_SRC;
    return len > MOST_GCM_BYTES ? IMB_ERR_CIPH_LEN : 0;
}

static int error_of_context(const struct gcm_key_data *key, const struct gcm_context_data *context) {
    if (key == NULL)
        return IMB_ERR_NULL_EXP_KEY;
    return context == NULL ? IMB_ERR_NULL_CTX : 0;
}

static int error_of_begin(const uint8_t *iv, uint64_t iv_len, const uint8_t *aad, uint64_t aad_len) {
    if (iv == NULL)
        return IMB_ERR_NULL_IV;
    if (iv_len == 0)
        return IMB_ERR_IV_LEN;
    return aad == NULL && aad_len != 0 ? IMB_ERR_NULL_AAD : 0;
}

static int error_of_tag(const uint8_t *tag, uint64_t tag_len) {
    if (tag == NULL)
        return IMB_ERR_NULL_AUTH;
    return tag_len == 0 || tag_len > GCM_TAG_BYTES ? IMB_ERR_AUTH_TAG_LEN : 0;
}

/* The first of errors that isn't 0. */
static int first_error(int first, int second, int third, int fourth) {
    return first != 0 ? first : second != 0 ? second : third != 0 ? third : fourth;
}

static void put_key(const void *key, size_t len, struct gcm_key_data *data) {
    if (key == NULL || data == NULL)
        direct_error(key == NULL ? IMB_ERR_NULL_KEY : IMB_ERR_NULL_EXP_KEY);
    else
        direct_error(error_of_refusal(put_schedules(key, len, data->expanded_keys, NULL)));
}

static void whole(uint32_t dir, size_t key_len, const struct gcm_key_data *key, struct gcm_context_data *context, uint8_t *out,
                  const uint8_t *in, uint64_t len, const uint8_t *iv, const uint8_t *aad, uint64_t aad_len, uint8_t *tag,
                  uint64_t tag_len) {
    int error = first_error(error_of_context(key, context), error_of_text(out, in, len),
                            error_of_begin(iv, IMB_GCM_IV_DATA_LEN, aad, aad_len), error_of_tag(tag, tag_len));
    if (!direct_error(error))
        return;
    struct mbj_bytes key_bytes = bytes_at(key->expanded_keys, key_len), iv_bytes = bytes_at(iv, IMB_GCM_IV_DATA_LEN);
    struct gcm_text text = {dir, key_bytes, iv_bytes, bytes_at(aad, aad_len), out, in, len, tag, tag_len};
    if (!direct_error(error_of_refusal(gcm_whole(&text))) && len != 0)
        memset(out, 0, len);
}

static void begin(size_t key_len, const struct gcm_key_data *key, struct gcm_context_data *context, const uint8_t *iv, uint64_t iv_len,
                  const uint8_t *aad, uint64_t aad_len) {
    if (direct_error(first_error(error_of_context(key, context), error_of_begin(iv, iv_len, aad, aad_len), 0, 0)))
        direct_error(error_of_refusal(gcm_begin(context, key, key_len, bytes_at(iv, iv_len), bytes_at(aad, aad_len))));
}

static void part(uint32_t dir, size_t key_len, const struct gcm_key_data *key, struct gcm_context_data *context, uint8_t *out,
                 const uint8_t *in, uint64_t len) {
    if (!direct_error(first_error(error_of_context(key, context), error_of_text(out, in, len), 0, 0)))
        return;
    if (!direct_error(error_of_refusal(gcm_part(context, key, key_len, dir, out, in, len))) && len != 0)
        memset(out, 0, len);
}

static void finish(size_t key_len, const struct gcm_key_data *key, struct gcm_context_data *context, uint8_t *tag, uint64_t tag_len) {
    if (direct_error(first_error(error_of_context(key, context), error_of_tag(tag, tag_len), 0, 0)))
        direct_error(error_of_refusal(gcm_end(context, key, key_len, tag, tag_len)));
}

/* ---- the calls ---- */

/* The tables of hash keys in gcm_key_data aren't used, and aren't filled. */
#define CALLS(bits)                                                                                                                        \
    static void gcm_key_##bits(const void *key, struct gcm_key_data *data) {                                                               \
        put_key(key, bits / 8, data);                                                                                                      \
    }                                                                                                                                      \
    static void gcm_precompute_##bits(struct gcm_key_data *data) {                                                                         \
        direct_error(data == NULL ? IMB_ERR_NULL_EXP_KEY : 0);                                                                             \
    }                                                                                                                                      \
    static void seal_##bits(const struct gcm_key_data *key, struct gcm_context_data *context, uint8_t *out, const uint8_t *in,             \
                            uint64_t len, const uint8_t *iv, const uint8_t *aad, uint64_t aad_len, uint8_t *tag, uint64_t tag_len) {       \
        whole(MBJ_DIR_ENCRYPT, bits / 8, key, context, out, in, len, iv, aad, aad_len, tag, tag_len);                                      \
    }                                                                                                                                      \
    static void open_##bits(const struct gcm_key_data *key, struct gcm_context_data *context, uint8_t *out, const uint8_t *in,             \
                            uint64_t len, const uint8_t *iv, const uint8_t *aad, uint64_t aad_len, uint8_t *tag, uint64_t tag_len) {       \
        whole(MBJ_DIR_DECRYPT, bits / 8, key, context, out, in, len, iv, aad, aad_len, tag, tag_len);                                      \
    }                                                                                                                                      \
    static void begin_##bits(const struct gcm_key_data *key, struct gcm_context_data *context, const uint8_t *iv, const uint8_t *aad,      \
                             uint64_t aad_len) {                                                                                           \
        begin(bits / 8, key, context, iv, IMB_GCM_IV_DATA_LEN, aad, aad_len);                                                              \
    }                                                                                                                                      \
    static void begin_with_iv_##bits(const struct gcm_key_data *key, struct gcm_context_data *context, const uint8_t *iv,                  \
                                     const uint64_t iv_len, const uint8_t *aad, const uint64_t aad_len) {                                  \
        begin(bits / 8, key, context, iv, iv_len, aad, aad_len);                                                                           \
    }                                                                                                                                      \
    static void seal_part_##bits(const struct gcm_key_data *key, struct gcm_context_data *context, uint8_t *out,                           \
                                 const uint8_t *in, uint64_t len) {                                                                        \
        part(MBJ_DIR_ENCRYPT, bits / 8, key, context, out, in, len);                                                                       \
    }                                                                                                                                      \
    static void open_part_##bits(const struct gcm_key_data *key, struct gcm_context_data *context, uint8_t *out,                           \
                                 const uint8_t *in, uint64_t len) {                                                                        \
        part(MBJ_DIR_DECRYPT, bits / 8, key, context, out, in, len);                                                                       \
    }                                                                                                                                      \
    static void finish_##bits(const struct gcm_key_data *key, struct gcm_context_data *context, uint8_t *tag, uint64_t tag_len) {          \
        finish(bits / 8, key, context, tag, tag_len);                                                                                      \
    }
COMPAT_KEY_SIZES(CALLS)

/* The header declares these by name too, for some architectures, which all do the same. */
#define NAME(theirs, ours) IMB_DLL_EXPORT __typeof__(ours) theirs __attribute__((alias(#ours)));
#define NAMES(bits, arch)                                                                                                                  \
    NAME(aes_gcm_pre_##bits##_##arch, gcm_key_##bits)                                                                                      \
    NAME(aes_gcm_precomp_##bits##_##arch, gcm_precompute_##bits)                                                                           \
    NAME(aes_gcm_enc_##bits##_##arch, seal_##bits)                                                                                         \
    NAME(aes_gcm_dec_##bits##_##arch, open_##bits)                                                                                         \
    NAME(aes_gcm_init_##bits##_##arch, begin_##bits)                                                                                       \
    NAME(aes_gcm_enc_##bits##_update_##arch, seal_part_##bits)                                                                             \
    NAME(aes_gcm_dec_##bits##_update_##arch, open_part_##bits)                                                                             \
    NAME(aes_gcm_enc_##bits##_finalize_##arch, finish_##bits)                                                                              \
    NAME(aes_gcm_dec_##bits##_finalize_##arch, finish_##bits)
#define ALL_NAMES(bits) COMPAT_GCM_ARCHITECTURES(NAMES, bits)
COMPAT_KEY_SIZES(ALL_NAMES)

#define SET(bits)                                                                                                                          \
    m->gcm##bits##_pre = gcm_key_##bits;                                                                                                   \
    m->gcm##bits##_precomp = gcm_precompute_##bits;                                                                                        \
    m->gcm##bits##_enc = seal_##bits;                                                                                                      \
    m->gcm##bits##_dec = open_##bits;                                                                                                      \
    m->gcm##bits##_init = begin_##bits;                                                                                                    \
    m->gcm##bits##_init_var_iv = begin_with_iv_##bits;                                                                                     \
    m->gcm##bits##_enc_update = seal_part_##bits;                                                                                          \
    m->gcm##bits##_dec_update = open_part_##bits;                                                                                          \
    m->gcm##bits##_enc_finalize = finish_##bits;                                                                                           \
    m->gcm##bits##_dec_finalize = finish_##bits;

void set_gcm_functions(IMB_MGR *m) {
    COMPAT_KEY_SIZES(SET)
}
