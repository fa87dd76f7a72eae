/* quic OTHER DROPIN: compares what two libraries do with packets of QUIC by GCM, a call that intel-ipsec-mb 2.0 has added: drawn packets in
 * place and elsewhere, with each pointer NULL, and with wrong lengths. In 1.3 there is nothing to compare. */
#include "library.h"

#include <stdio.h>
#include <string.h>

#if IS_VERSION_2

#include <dlfcn.h>

enum { MOST_PACKETS = 40, MOST_LEN = 300, MOST_TAG = 16 };

static struct library libraries[2];
static __typeof__(&imb_quic_aes_gcm) calls[2];
static unsigned compared, differing;

static void compare(const char *what, long number, long theirs, long ours) {
    compared++;
    if (theirs != ours && differing++ < 30)
        printf("%s (%ld): %ld and %ld\n", what, number, theirs, ours);
}

struct packets {
    uint8_t in[MOST_PACKETS][MOST_LEN], out[MOST_PACKETS][MOST_LEN];
    uint8_t iv[MOST_PACKETS][12], aad[MOST_PACKETS][64], tag[MOST_PACKETS][MOST_TAG];
    void *dst[MOST_PACKETS], *tags[MOST_PACKETS];
    const void *src[MOST_PACKETS], *ivs[MOST_PACKETS], *aads[MOST_PACKETS];
    uint64_t lens[MOST_PACKETS];
    int error;
};

static struct packets packets[2];

/* `missing` is the number of what isn't given, from 1 on: first a pointer of the packet `at`, and then whole arrays. Without lengths the
 * first library ends the process. */
static void do_packets(int side, const struct gcm_key_data *key, size_t key_len, int dir, size_t aad_len, size_t tag_len, uint64_t n,
                       int missing, uint64_t at) {
    struct packets *p = &packets[side];
    void **arrays[] = {p->dst, (void **)p->src, (void **)p->ivs, (void **)p->aads, p->tags};
    IMB_FLUSH_JOB(libraries[side].m); /* the first library leaves an error as it was if it finds none */
    if (missing >= 1 && missing <= 5 && at < n)
        arrays[missing - 1][at] = NULL;
    calls[side](libraries[side].m, missing == 6 ? NULL : key, (IMB_KEY_SIZE_BYTES)key_len, (IMB_CIPHER_DIRECTION)dir,
                     missing == 7 ? NULL : p->dst, missing == 8 ? NULL : p->src, p->lens, missing == 9 ? NULL : p->ivs,
                     missing == 10 ? NULL : p->aads, aad_len, missing == 11 ? NULL : p->tags, tag_len, n);
    p->error = libraries[side].error(libraries[side].m);
}

static void draw_packets(uint64_t n, bool is_in_place) {
    for (uint64_t i = 0; i < n; i++) {
        draw_bytes(packets[0].in[i], MOST_LEN);
        draw_bytes(packets[0].iv[i], 12);
        draw_bytes(packets[0].aad[i], 64);
        packets[0].lens[i] = draw_below(4) == 0 ? 0 : draw_below(MOST_LEN + 1);
    }
    packets[1] = packets[0];
    for (int side = 0; side < 2; side++) {
        struct packets *p = &packets[side];
        memset(p->out, 0, sizeof p->out);
        memset(p->tag, 0, sizeof p->tag);
        for (uint64_t i = 0; i < n; i++) {
            p->src[i] = p->in[i];
            p->dst[i] = is_in_place ? p->in[i] : p->out[i];
            p->ivs[i] = p->iv[i];
            p->aads[i] = p->aad[i];
            p->tags[i] = p->tag[i];
        }
    }
}

static void make_keys(int side, const uint8_t *key, size_t key_len, struct gcm_key_data *data) {
    IMB_MGR *m = libraries[side].m;
    if (key_len == 32)
        IMB_AES256_GCM_PRE(m, key, data);
    else
        IMB_AES128_GCM_PRE(m, key, data);
}

static void compare_packets(int round) {
    DECLARE_ALIGNED(static struct gcm_key_data data[2], 64);
    uint8_t key[32];
    uint64_t n = draw_below(MOST_PACKETS + 1);
    size_t key_len = draw_below(2) == 0 ? 16 : 32, aad_len = draw_below(4) * draw_below(22), tag_len = 1 + draw_below(MOST_TAG);
    int dir = IMB_DIR_ENCRYPT + (int)draw_below(2), missing = round % 4 == 0 ? 1 + round / 4 % 11 : 0;
    uint64_t at = n == 0 ? 0 : draw_below(n);
    draw_bytes(key, sizeof key);
    draw_packets(n, draw_below(2) == 0);
    for (int side = 0; side < 2; side++) {
        make_keys(side, key, key_len, &data[side]);
        do_packets(side, &data[side], key_len, dir, aad_len, tag_len, n, missing, at);
    }
    compare("the error of packets of QUIC", missing, packets[0].error, packets[1].error);
    compare("packets of QUIC in place", missing, 0, memcmp(packets[0].in, packets[1].in, sizeof packets[0].in));
    compare("packets of QUIC", missing, 0, memcmp(packets[0].out, packets[1].out, sizeof packets[0].out));
    compare("tags of QUIC", missing, 0, memcmp(packets[0].tag, packets[1].tag, sizeof packets[0].tag));
}

static void compare_wrong_packets(void) {
    static const struct {
        size_t key_len, tag_len;
        int dir;
    } wrong[] = {{24, 16, 1}, {0, 16, 1}, {17, 16, 2}, {16, 0, 1}, {16, 17, 1}, {16, 16, 0}, {16, 16, 3}};
    DECLARE_ALIGNED(static struct gcm_key_data data, 64);
    for (size_t i = 0; i < sizeof wrong / sizeof *wrong; i++) {
        draw_packets(3, false);
        for (int side = 0; side < 2; side++)
            do_packets(side, &data, wrong[i].key_len, wrong[i].dir, 16, wrong[i].tag_len, 3, 0, 0);
        compare("the error of wrong packets of QUIC", (long)i, packets[0].error, packets[1].error);
    }
}

int main(int argc, char **argv) {
    if (argc < 3)
        return 2;
    start_drawing(1);
    for (int side = 0; side < 2; side++) {
        load_library(&libraries[side], argv[1 + side]);
        *(void **)&calls[side] = dlsym(libraries[side].loaded, "imb_quic_aes_gcm");
    }
    for (int round = 0; round < 2000; round++)
        compare_packets(round);
    compare_wrong_packets();
    printf("%u things compared, %u differ\n", compared, differing);
    for (int side = 0; side < 2; side++)
        libraries[side].release(libraries[side].m);
    return differing != 0;
}

#else

int main(void) {
    puts("nothing was added in 1.3");
    return 0;
}

#endif
