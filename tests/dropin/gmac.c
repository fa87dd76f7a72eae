/* gmac OTHER DROPIN: a context of GMAC in parts is plain data. Copies of it go on by themselves and have the tags that the other library
 * gives them, wherever they are made, and one that is begun and never ended leaves nothing on the heap. */
#include "library.h"

#include <malloc.h>
#include <stdio.h>
#include <stdlib.h>
#include <string.h>

enum { LEN = 75, TAG = 16, GIVEN_UP = 1000, SIZES = 3 };

static struct library libraries[2];

struct calls {
    aes_gcm_pre_t pre;
    aes_gmac_init_t init;
    aes_gmac_update_t update;
    aes_gmac_finalize_t finalize;
};

#define CALLS(bits) {m->gcm##bits##_pre, m->gmac##bits##_init, m->gmac##bits##_update, m->gmac##bits##_finalize}

static struct calls calls_of(const IMB_MGR *m, size_t size) {
    const struct calls calls[SIZES] = {CALLS(128), CALLS(192), CALLS(256)};
    return calls[size];
}

/* A key, an IV and data, of which a context has taken as many bytes as `cut` when it is copied. */
struct sample {
    uint8_t key[32], iv[64], bytes[LEN], tail[LEN];
    size_t iv_len, cut;
};

static void draw_sample(struct sample *sample) {
    draw_bytes(sample->key, sizeof sample->key);
    draw_bytes(sample->iv, sizeof sample->iv);
    draw_bytes(sample->bytes, sizeof sample->bytes);
    draw_bytes(sample->tail, sizeof sample->tail);
    sample->iv_len = draw_below(2) == 0 ? 12 : 1 + draw_below(sizeof sample->iv);
}

/* The tags of the data, of what is copied and goes on otherwise, and of what is copied and ends there. */
static void do_copies(const struct calls *calls, const struct sample *sample, uint8_t tags[3][TAG]) {
    DECLARE_ALIGNED(static struct gcm_key_data key, 64);
    struct gcm_context_data context, copies[2];
    calls->pre(sample->key, &key);
    calls->init(&key, &context, sample->iv, sample->iv_len);
    calls->update(&key, &context, sample->bytes, sample->cut);
    copies[0] = copies[1] = context;
    calls->finalize(&key, &copies[1], tags[2], TAG);
    calls->update(&key, &context, sample->bytes + sample->cut, LEN - sample->cut);
    calls->update(&key, &copies[0], sample->tail, LEN - sample->cut);
    calls->finalize(&key, &context, tags[0], TAG);
    calls->finalize(&key, &copies[0], tags[1], TAG);
}

static bool copies_are_the_same(size_t size) {
    uint8_t tags[2][3][TAG];
    struct sample sample;
    draw_sample(&sample);
    for (sample.cut = 0; sample.cut <= LEN; sample.cut++) {
        for (int i = 0; i < 2; i++) {
            struct calls calls = calls_of(libraries[i].m, size);
            do_copies(&calls, &sample, tags[i]);
        }
        if (memcmp(tags[0], tags[1], sizeof tags[0]) != 0)
            return false;
    }
    return true;
}

/* The bytes of the heap that are in use. */
static size_t in_use(void) {
    return mallinfo2().uordblks;
}

static bool given_up_contexts_are_free(size_t size) {
    DECLARE_ALIGNED(static struct gcm_key_data key, 64);
    struct calls calls = calls_of(libraries[1].m, size);
    struct gcm_context_data context;
    struct sample sample;
    draw_sample(&sample);
    calls.pre(sample.key, &key);
    size_t before = in_use();
    for (int i = 0; i < GIVEN_UP; i++) {
        calls.init(&key, &context, sample.iv, sample.iv_len);
        calls.update(&key, &context, sample.bytes, LEN);
    }
    return in_use() == before;
}

int main(int count, char **words) {
    if (count != 3)
        return 2;
    load_library(&libraries[0], words[1]);
    load_library(&libraries[1], words[2]);
    start_drawing(1);
    for (size_t size = 0; size < SIZES; size++) {
        if (!copies_are_the_same(size)) {
            printf("copies of a context with a key of %zu bytes have other tags\n", 16 + 8 * size);
            return 1;
        }
        if (!given_up_contexts_are_free(size)) {
            puts("a context that is given up stays on the heap");
            return 1;
        }
    }
    return 0;
}
