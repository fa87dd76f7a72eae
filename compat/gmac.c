/* GMAC of data that comes in parts. A context holds the state of the exports, which is plain bytes and holds no key: so a copy of a context
 * goes on by itself, and one that is begun and never ended leaves nothing behind. */
#include "errors.h"
#include "gcm.h"

#include <string.h>

_Static_assert(sizeof(struct mbj_gmac_state) <= sizeof(struct gcm_context_data), "a context has room for a state");

static void load(struct mbj_gmac_state *state, const struct gcm_context_data *context) {
    memcpy(state, context, sizeof *state);
}

/* What is behind the state stays zero. */
static void store(struct gcm_context_data *context, struct mbj_gmac_state *state) {
    memset(context, 0, sizeof *context);
    memcpy(context, state, sizeof *state);
    wipe(state, sizeof *state);
}

/* Which of the pointers is NULL, or 0; the last one is told by this error. */
static int null_of(const void *key, const void *context, const void *last, int error_of_last) {
    if (key == NULL)
        return IMB_ERR_NULL_EXP_KEY;
    if (context == NULL)
        return IMB_ERR_NULL_CTX;
    return last == NULL ? error_of_last : 0;
}

/* ---- what each call does, for a key of so many bytes ---- */

/* A context that isn't begun is none: the calls that follow are refused. */
static void begin(size_t key_len, const struct gcm_key_data *key, struct gcm_context_data *context, const uint8_t *iv, uint64_t iv_len) {
    COMPAT_ALIGNED_FRAME struct mbj_gmac_state state;
    int error = null_of(key, context, iv, IMB_ERR_NULL_IV);
    if (error == 0 && (iv_len == 0 || iv_len > MBJ_MAX_IV_BYTES))
        error = IMB_ERR_IV_LEN;
    if (!direct_error(error))
        return;
    memset(&state, 0, sizeof state);
    direct_error(error_of_refusal(proved.mbj_gmac_init(&state, bytes_at(key->expanded_keys, key_len), bytes_at(iv, iv_len))));
    store(context, &state);
}

static void part(const struct gcm_key_data *key, struct gcm_context_data *context, const uint8_t *in, uint64_t len) {
    COMPAT_ALIGNED_FRAME struct mbj_gmac_state state;
    if (!direct_error(null_of(key, context, len == 0 ? (const void *)&len : in, IMB_ERR_NULL_SRC)))
        return;
    load(&state, context);
    direct_error(error_of_refusal(proved.mbj_gmac_update(&state, bytes_at(in, len))));
    store(context, &state);
}

static void finish(const struct gcm_key_data *key, struct gcm_context_data *context, uint8_t *tag, uint64_t tag_len) {
    COMPAT_ALIGNED_FRAME struct mbj_gmac_state state;
    uint8_t whole[GCM_TAG_BYTES];
    int error = null_of(key, context, tag, IMB_ERR_NULL_AUTH);
    if (error == 0 && (tag_len == 0 || tag_len > GCM_TAG_BYTES))
        error = IMB_ERR_AUTH_TAG_LEN;
    if (!direct_error(error))
        return;
    load(&state, context);
    if (direct_error(error_of_refusal(proved.mbj_gmac_finish(&state, room_at(whole, tag_len)))))
        memcpy(tag, whole, tag_len);
    store(context, &state);
}

#define CALLS(bits)                                                                                                                        \
    static void begin_##bits(const struct gcm_key_data *key, struct gcm_context_data *context, const uint8_t *iv, const uint64_t iv_len) { \
        begin(bits / 8, key, context, iv, iv_len);                                                                                         \
    }
COMPAT_KEY_SIZES(CALLS)

#define SET(bits)                                                                                                                          \
    m->gmac##bits##_init = begin_##bits;                                                                                                   \
    m->gmac##bits##_update = part;                                                                                                         \
    m->gmac##bits##_finalize = finish;

void set_gmac_functions(IMB_MGR *m) {
    COMPAT_KEY_SIZES(SET)
}
