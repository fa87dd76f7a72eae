/* direct OTHER DROPIN [ROUNDS [SEED]]: makes the same direct calls of two libraries, and compares what they write and which errors they
 * set. Then each call is made with each of its pointers NULL. */
#include "library.h"

#include <stddef.h>
#include <stdio.h>
#include <string.h>

enum { MOST_TEXT = 3000, MOST_PARTS = 8 };

static struct library libraries[2];
static unsigned compared, differing;

static void compare(const char *what, const void *a, const void *b, size_t len) {
    compared++;
    if (memcmp(a, b, len) != 0 && differing++ < 10)
        printf("%s differs\n", what);
}

/* ---- keys and hashes ---- */

static keyexp_t keyexp_of(const IMB_MGR *m, size_t len) {
    return len == 16 ? m->keyexp_128 : len == 24 ? m->keyexp_192 : m->keyexp_256;
}

static void compare_schedules(void) {
    DECLARE_ALIGNED(uint8_t schedules[2][2][240], 16);
    DECLARE_ALIGNED(uint8_t subkeys[2][4][16], 16);
    uint8_t key[32];
    draw_bytes(key, sizeof key);
    for (size_t len = 16; len <= 32; len += 8) {
        memset(schedules, 0, sizeof schedules);
        for (int i = 0; i < 2; i++)
            keyexp_of(libraries[i].m, len)(key, schedules[i][0], schedules[i][1]);
        compare("a schedule", schedules[0], schedules[1], sizeof schedules[0]);
        for (int i = 0; i < 2 && len == 16; i++)
            libraries[i].m->cmac_subkey_gen_128(schedules[i][0], subkeys[i][0], subkeys[i][1]);
        for (int i = 0; i < 2 && len == 32; i++)
            libraries[i].m->cmac_subkey_gen_256(schedules[i][0], subkeys[i][2], subkeys[i][3]);
    }
    compare("a subkey", subkeys[0], subkeys[1], sizeof subkeys[0]);
}

static void compare_hashes(void) {
    static uint8_t text[MOST_TEXT];
    uint8_t out[2][10][64] = {{{0}}};
    size_t len = draw_below(4) == 0 ? draw_below(3) : draw_below(MOST_TEXT);
    draw_bytes(text, sizeof text);
    for (int i = 0; i < 2; i++) {
        const IMB_MGR *m = libraries[i].m;
        hash_one_block_t const block[] = {m->sha1_one_block, m->sha224_one_block, m->sha256_one_block, m->sha384_one_block,
                                          m->sha512_one_block};
        hash_fn_t const digest[] = {m->sha1, m->sha224, m->sha256, m->sha384, m->sha512};
        for (int k = 0; k < 5; k++) {
            block[k](text, out[i][2 * k]);
            digest[k](text, len, out[i][2 * k + 1]);
        }
    }
    compare("a state or a digest", out[0], out[1], sizeof out[0]);
}

/* ---- GCM ---- */

struct gcm_calls {
    aes_gcm_pre_t pre;
    aes_gcm_enc_dec_t whole[2];
    aes_gcm_init_t init;
    aes_gcm_init_var_iv_t init_iv;
    aes_gcm_enc_dec_update_t update[2];
    aes_gcm_enc_dec_finalize_t finalize[2];
    aes_gmac_init_t gmac_init;
    aes_gmac_update_t gmac_update;
    aes_gmac_finalize_t gmac_finalize;
};

#define CALLS(bits)                                                                                                                        \
    {                                                                                                                                      \
        m->gcm##bits##_pre, {m->gcm##bits##_enc, m->gcm##bits##_dec}, m->gcm##bits##_init, m->gcm##bits##_init_var_iv,                     \
            {m->gcm##bits##_enc_update, m->gcm##bits##_dec_update}, {m->gcm##bits##_enc_finalize, m->gcm##bits##_dec_finalize},            \
            m->gmac##bits##_init, m->gmac##bits##_update, m->gmac##bits##_finalize                                                         \
    }

static struct gcm_calls calls_of(const IMB_MGR *m, unsigned size) {
    const struct gcm_calls calls[] = {CALLS(128), CALLS(192), CALLS(256)};
    return calls[size];
}

/* A text, and how it is cut. */
struct text {
    unsigned size, dir, parts;
    size_t len, aad_len, iv_len, tag_len, cuts[MOST_PARTS + 1];
    bool is_in_place;
    uint8_t key[32], iv[64], aad[256], bytes[MOST_TEXT];
};

static void draw_text(struct text *text) {
    text->size = (unsigned)draw_below(3);
    text->dir = (unsigned)draw_below(2);
    text->len = draw_below(draw_below(3) == 0 ? MOST_TEXT : 100);
    text->aad_len = draw_below(sizeof text->aad);
    text->iv_len = draw_below(2) == 0 ? 12 : 1 + draw_below(sizeof text->iv);
    text->tag_len = 1 + draw_below(16);
    text->is_in_place = draw_below(2) == 0;
    text->parts = 1 + (unsigned)draw_below(MOST_PARTS);
    text->cuts[0] = 0;
    for (unsigned i = 1; i < text->parts; i++)
        text->cuts[i] = text->cuts[i - 1] + draw_below(text->len - text->cuts[i - 1] + 1);
    text->cuts[text->parts] = text->len;
    draw_bytes(text->key, sizeof text->key);
    draw_bytes(text->iv, sizeof text->iv);
    draw_bytes(text->aad, sizeof text->aad);
    draw_bytes(text->bytes, text->len);
}

/* What a library makes of a text: whole, in parts, and its GMAC in parts. */
struct made {
    uint8_t whole[MOST_TEXT], parts[MOST_TEXT], tags[3][16];
};

static void do_parts(const struct gcm_calls *calls, const struct gcm_key_data *key, const struct text *text, struct made *made) {
    struct gcm_context_data context;
    const uint8_t *in = text->is_in_place ? made->parts : text->bytes;
    memcpy(made->parts, text->bytes, text->len);
    if (text->iv_len == 12)
        calls->init(key, &context, text->iv, text->aad, text->aad_len);
    else
        calls->init_iv(key, &context, text->iv, text->iv_len, text->aad, text->aad_len);
    for (unsigned i = 0; i < text->parts; i++)
        calls->update[text->dir](key, &context, made->parts + text->cuts[i], in + text->cuts[i], text->cuts[i + 1] - text->cuts[i]);
    calls->finalize[text->dir](key, &context, made->tags[1], text->tag_len);
}

static void do_gmac(const struct gcm_calls *calls, const struct gcm_key_data *key, const struct text *text, struct made *made) {
    struct gcm_context_data context;
    calls->gmac_init(key, &context, text->iv, text->iv_len);
    for (unsigned i = 0; i < text->parts; i++)
        calls->gmac_update(key, &context, text->bytes + text->cuts[i], text->cuts[i + 1] - text->cuts[i]);
    calls->gmac_finalize(key, &context, made->tags[2], text->tag_len);
}

static void do_text(const struct gcm_calls *calls, const struct text *text, struct made *made) {
    DECLARE_ALIGNED(static struct gcm_key_data key, 64);
    struct gcm_context_data context;
    memset(made, 0, sizeof *made);
    calls->pre(text->key, &key);
    memcpy(made->whole, text->bytes, text->len);
    calls->whole[text->dir](&key, &context, made->whole, text->is_in_place ? made->whole : text->bytes, text->len, text->iv, text->aad,
                            text->aad_len, made->tags[0], text->tag_len);
    do_parts(calls, &key, text, made);
    do_gmac(calls, &key, text, made);
}

static void compare_gcm(void) {
    static struct text text;
    static struct made made[2];
    draw_text(&text);
    for (int i = 0; i < 2; i++) {
        struct gcm_calls calls = calls_of(libraries[i].m, text.size);
        do_text(&calls, &text, &made[i]);
    }
    compare("a text of GCM", made[0].whole, made[1].whole, text.len);
    compare("a text of GCM in parts", made[0].parts, made[1].parts, text.len);
    compare("a tag of GCM", made[0].tags[0], made[1].tags[0], 16);
    compare("a tag of GCM in parts", made[0].tags[1], made[1].tags[1], 16);
    compare("a tag of GMAC in parts", made[0].tags[2], made[1].tags[2], 16);
}

/* ---- wrong arguments ---- */

/* Compares the error that the last call left. */
static void compare_errors(const char *call, int argument, const int *errors) {
    compared++;
    if (errors[0] != errors[1] && differing++ < 10)
        printf("the error of %s without argument %d differs: %d and %d\n", call, argument, errors[0], errors[1]);
}

static uint8_t bytes[4][256];
DECLARE_ALIGNED(static struct gcm_key_data gcm_key, 64);
static struct gcm_context_data gcm_context;

#define NOT(place, at) (argument == (place) ? NULL : (at))

/* Makes a call, without its argument of that number, by both libraries: first right, and then wrong. */
#define WITHOUT(call, arguments, ...) EACH(call, 0, arguments, __VA_ARGS__)
#define EACH(call, first, arguments, ...)                                                                                                  \
    for (int argument = (first); argument <= (arguments); argument++) {                                                                    \
        int errors[2];                                                                                                                     \
        for (int i = 0; i < 2; i++) {                                                                                                      \
            IMB_MGR *m = libraries[i].m;                                                                                                   \
            m->gcm128_pre(bytes[3], &gcm_key);                                                                                             \
            m->gcm128_init(&gcm_key, &gcm_context, bytes[0], bytes[1], 16);                                                                \
            m->call(__VA_ARGS__);                                                                                                          \
            errors[i] = libraries[i].error(NULL);                                                                                          \
        }                                                                                                                                  \
        compare_errors(#call, argument, errors);                                                                                           \
    }

static void compare_wrong_calls(void) {
    WITHOUT(keyexp_128, 3, NOT(1, bytes[0]), NOT(2, bytes[1]), NOT(3, bytes[2]))
    WITHOUT(keyexp_256, 3, NOT(1, bytes[0]), NOT(2, bytes[1]), NOT(3, bytes[2]))
    WITHOUT(cmac_subkey_gen_128, 3, NOT(1, bytes[0]), NOT(2, bytes[1]), NOT(3, bytes[2]))
    WITHOUT(cmac_subkey_gen_256, 3, NOT(1, bytes[0]), NOT(2, bytes[1]), NOT(3, bytes[2]))
    WITHOUT(sha1_one_block, 2, NOT(1, bytes[0]), NOT(2, bytes[1]))
    WITHOUT(sha512_one_block, 2, NOT(1, bytes[0]), NOT(2, bytes[1]))
    WITHOUT(sha1, 2, NOT(1, bytes[0]), 64, NOT(2, bytes[1]))
    WITHOUT(sha384, 2, NOT(1, bytes[0]), 0, NOT(2, bytes[1]))
    WITHOUT(gcm128_pre, 2, NOT(1, bytes[0]), NOT(2, &gcm_key))
    WITHOUT(gcm128_precomp, 1, NOT(1, &gcm_key))
    WITHOUT(gcm128_enc, 7, NOT(1, &gcm_key), NOT(2, &gcm_context), NOT(3, bytes[0]), NOT(4, bytes[0]),
            argument == 0 ? (UINT64_C(1) << 39) - 256 : 16, NOT(5, bytes[1]), NOT(6, bytes[2]), 16, NOT(7, bytes[3]), 16)
    WITHOUT(gcm128_dec, 7, NOT(1, &gcm_key), NOT(2, &gcm_context), NOT(3, bytes[0]), NOT(4, bytes[0]), 16, NOT(5, bytes[1]),
            NOT(6, bytes[2]), 16, NOT(7, bytes[3]), (uint64_t)(argument == 0 ? 17 : 16))
    WITHOUT(gcm128_init, 4, NOT(1, &gcm_key), NOT(2, &gcm_context), NOT(3, bytes[0]), NOT(4, bytes[1]), 16)
    WITHOUT(gcm128_init_var_iv, 4, NOT(1, &gcm_key), NOT(2, &gcm_context), NOT(3, bytes[0]), (uint64_t)(argument == 0 ? 0 : 16),
            NOT(4, bytes[1]), 16)
    WITHOUT(gcm128_enc_update, 4, NOT(1, &gcm_key), NOT(2, &gcm_context), NOT(3, bytes[0]), NOT(4, bytes[0]), 16)
    WITHOUT(gcm128_dec_finalize, 3, NOT(1, &gcm_key), NOT(2, &gcm_context), NOT(3, bytes[0]), (uint64_t)(argument == 0 ? 0 : 16))
    EACH(gmac128_init, 1, 3, NOT(1, &gcm_key), NOT(2, &gcm_context), NOT(3, bytes[0]), 12)
}

/* Whether a pointer of the table is one of the application's. */
static bool is_given(const IMB_MGR *m, void *const *pointer) {
#if IS_VERSION_2
    return pointer == (const void *)&m->self_test_cb_fn || pointer == (const void *)&m->self_test_cb_arg;
#else
    return m == NULL || pointer == NULL;
#endif
}

/* No other pointer of the table is NULL: absent.c has what isn't here. */
static void check_table(void) {
    IMB_MGR *m = libraries[1].m;
    void *const *functions = (void *const *)(const void *)&m->get_next_job;
    for (size_t i = 0; i < (offsetof(IMB_MGR, earliest_job) - offsetof(IMB_MGR, get_next_job)) / sizeof *functions; i++)
        if (functions[i] == NULL && !is_given(m, &functions[i])) {
            printf("function %zu of the table is NULL\n", i);
            differing++;
        }
}

int main(int argc, char **argv) {
    unsigned rounds = argc > 3 ? (unsigned)atoi(argv[3]) : 2000;
    if (argc < 3)
        return 2;
    for (int i = 0; i < 2; i++)
        load_library(&libraries[i], argv[1 + i]);
    start_drawing(argc > 4 ? strtoull(argv[4], NULL, 0) : 1);
    for (unsigned i = 0; i < rounds; i++) {
        compare_schedules();
        compare_hashes();
        compare_gcm();
    }
    compare_wrong_calls();
    check_table();
    printf("%u results compared, %u differ\n", compared, differing);
    for (int i = 0; i < 2; i++)
        libraries[i].release(libraries[i].m);
    return differing != 0;
}
