/* intel-ipsec-mb, by its job interface; nothing if the bench is built without it. */
#include "bench.h"

#ifndef WITH_IPSEC_MB

const struct library *theirs(size_t *count) {
    *count = 0;
    return NULL;
}

#else

#define NO_COMPAT_IMB_API_053 /* no short names */
#include <intel-ipsec-mb.h>
#include <stdio.h>
#include <stdlib.h>
#include <string.h>

static const IMB_CIPHER_MODE ciphers[] = {IMB_CIPHER_NULL, IMB_CIPHER_CBC, IMB_CIPHER_CNTR, IMB_CIPHER_GCM, IMB_CIPHER_CCM, IMB_CIPHER_CBC};

static const IMB_HASH_ALG auths[] = {IMB_AUTH_NULL,         IMB_AUTH_HMAC_SHA_1,   IMB_AUTH_HMAC_SHA_224, IMB_AUTH_HMAC_SHA_256,
                                     IMB_AUTH_HMAC_SHA_384, IMB_AUTH_HMAC_SHA_512, IMB_AUTH_AES_CMAC,     IMB_AUTH_AES_GMAC_128,
                                     IMB_AUTH_SHA_1,        IMB_AUTH_SHA_224,      IMB_AUTH_SHA_256,      IMB_AUTH_SHA_384,
                                     IMB_AUTH_SHA_512,      IMB_AUTH_HMAC_SHA_1,   IMB_AUTH_HMAC_SHA_224, IMB_AUTH_HMAC_SHA_256,
                                     IMB_AUTH_HMAC_SHA_384, IMB_AUTH_HMAC_SHA_512, IMB_AUTH_AES_GMAC,     IMB_AUTH_AES_CCM};

/* A manager, and what its job interface needs of keys, which is made before any job is timed. */
struct started {
    DECLARE_ALIGNED(uint32_t enc[60], 16);
    DECLARE_ALIGNED(uint32_t dec[60], 16);
    DECLARE_ALIGNED(uint32_t mac[60], 16);
    DECLARE_ALIGNED(struct gcm_key_data gcm, 64);
    DECLARE_ALIGNED(uint8_t inner[TAG_ROOM], 16);
    DECLARE_ALIGNED(uint8_t outer[TAG_ROOM], 16);
    DECLARE_ALIGNED(uint8_t first_subkey[16], 16);
    DECLARE_ALIGNED(uint8_t second_subkey[16], 16);
    IMB_MGR *m;
};

/* ---- keys ---- */

/* The hash of one block: the key xored with a pad. */
static void hash_pad(IMB_MGR *m, const struct work *work, uint8_t pad, uint8_t *hash) {
    uint8_t block[128];
    memset(block, pad, sizeof block);
    for (size_t i = 0; i < tag_len(work); i++)
        block[i] ^= keys.hmac[i];
    switch (auths[work->auth]) {
    case IMB_AUTH_HMAC_SHA_1: IMB_SHA1_ONE_BLOCK(m, block, hash); return;
    case IMB_AUTH_HMAC_SHA_224: IMB_SHA224_ONE_BLOCK(m, block, hash); return;
    case IMB_AUTH_HMAC_SHA_256: IMB_SHA256_ONE_BLOCK(m, block, hash); return;
    case IMB_AUTH_HMAC_SHA_384: IMB_SHA384_ONE_BLOCK(m, block, hash); return;
    default: IMB_SHA512_ONE_BLOCK(m, block, hash); return;
    }
}

static void expand_keys(struct started *s, const struct work *work) {
    IMB_AES_KEYEXP_128(s->m, keys.aes, s->enc, s->dec);
    if (work->auth == GCM_TAG || work->auth == GMAC) {
        IMB_AES128_GCM_PRE(s->m, keys.aes, &s->gcm);
    } else if (work->auth == CMAC) {
        IMB_AES_KEYEXP_128(s->m, keys.aes, s->mac, s->dec);
        IMB_AES_CMAC_SUBKEY_GEN_128(s->m, s->mac, s->first_subkey, s->second_subkey);
    } else if (is_hmac(work->auth)) {
        hash_pad(s->m, work, 0x36, s->inner);
        hash_pad(s->m, work, 0x5c, s->outer);
    }
}

/* ---- managers ---- */

struct architecture {
    const char *name;
    uint64_t flags;
    void (*init)(IMB_MGR *);
};

static const struct architecture architectures[] = {
    {"sse", 0, init_mb_mgr_sse},
    {"avx2", 0, init_mb_mgr_avx2},
    {"no-aesni", IMB_FLAG_AESNI_OFF, init_mb_mgr_sse},
};

enum { ARCHITECTURES = sizeof architectures / sizeof *architectures };

static IMB_MGR *make_manager(const struct architecture *a) {
    IMB_MGR *m = alloc_mb_mgr(a->flags);
    if (m != NULL)
        a->init(m);
    if (m == NULL || imb_get_errno(m) == 0)
        return m;
    free_mb_mgr(m);
    return NULL;
}

static void *start(const struct library *library, const struct work *work) {
    const struct architecture *a = architectures;
    while (strcmp(a->name, library->name) != 0)
        a++;
    struct started *s = (struct started *)aligned_alloc(64, (sizeof *s + 63) / 64 * 64);
    if (s == NULL || (s->m = make_manager(a)) == NULL)
        give_up("no manager of intel-ipsec-mb");
    expand_keys(s, work);
    return s;
}

static void end(void *started) {
    free_mb_mgr(((struct started *)started)->m);
    free(started);
}

/* ---- jobs ---- */

static void fill_auth(IMB_JOB *job, const struct started *s, const struct work *work) {
    if (work->auth == GCM_TAG) {
        job->enc_keys = &s->gcm;
        job->dec_keys = &s->gcm;
        job->u.GCM.aad = keys.aad;
        job->u.GCM.aad_len_in_bytes = sizeof keys.aad;
    } else if (work->auth == CCM_TAG) {
        job->u.CCM.aad = keys.aad;
        job->u.CCM.aad_len_in_bytes = sizeof keys.aad;
    } else if (work->auth == GMAC) {
        job->u.GMAC._key = &s->gcm;
        job->u.GMAC._iv = keys.iv;
        job->u.GMAC.iv_len_in_bytes = iv_len(work);
    } else if (work->auth == CMAC) {
        job->u.CMAC._key_expanded = s->mac;
        job->u.CMAC._skey1 = s->first_subkey;
        job->u.CMAC._skey2 = s->second_subkey;
    } else if (is_hmac(work->auth)) {
        job->u.HMAC._hashed_auth_key_xor_ipad = s->inner;
        job->u.HMAC._hashed_auth_key_xor_opad = s->outer;
    }
}

static void fill(IMB_JOB *job, const struct started *s, const struct work *work, struct batch *batch, size_t i) {
    job->src = batch->packets[i];
    job->dst = batch->packets[i];
    job->cipher_mode = ciphers[work->cipher];
    job->hash_alg = auths[work->auth];
    job->cipher_direction = work->cipher == CBC_DEC ? IMB_DIR_DECRYPT : IMB_DIR_ENCRYPT;
    job->chain_order = work->cipher == CCM ? IMB_ORDER_HASH_CIPHER : IMB_ORDER_CIPHER_HASH; /* CCM's tag is over the text in clear */
    job->cipher_start_src_offset_in_bytes = 0;
    job->hash_start_src_offset_in_bytes = 0;
    job->msg_len_to_cipher_in_bytes = batch->lens[i];
    job->msg_len_to_hash_in_bytes = batch->lens[i];
    job->auth_tag_output = batch->tags[i];
    job->auth_tag_output_len_in_bytes = tag_len(work);
    job->key_len_in_bytes = sizeof keys.aes;
    job->iv = keys.iv;
    job->iv_len_in_bytes = iv_len(work);
    job->enc_keys = s->enc;
    job->dec_keys = s->dec;
    fill_auth(job, s, work);
}

static size_t take(const IMB_JOB *done) {
    if (done->status != IMB_STATUS_COMPLETED)
        give_up("intel-ipsec-mb refused a job");
    return 1;
}

static size_t flush_all(const struct started *s) {
    size_t given = 0;
    for (const IMB_JOB *done; (done = IMB_FLUSH_JOB(s->m)) != NULL;)
        given += take(done);
    return given;
}

static void pass(void *started, const struct work *work, struct batch *batch) {
    const struct started *s = (const struct started *)started;
    size_t given = 0;
    for (size_t i = 0; i < BATCH; i++) {
        fill(IMB_GET_NEXT_JOB(s->m), s, work, batch, i);
        for (const IMB_JOB *done = IMB_SUBMIT_JOB(s->m); done != NULL; done = IMB_GET_COMPLETED_JOB(s->m))
            given += take(done);
        if ((i + 1) % work->flush_after == 0)
            given += flush_all(s);
    }
    if (given + flush_all(s) != BATCH)
        give_up("intel-ipsec-mb lacks jobs");
}

const struct library *theirs(size_t *count) {
    static struct library offered[ARCHITECTURES];
    *count = 0;
    for (size_t i = 0; i < ARCHITECTURES; i++) {
        struct library library = {architectures[i].name, start, pass, end};
        IMB_MGR *m = make_manager(&architectures[i]);
        if (m == NULL) {
            fprintf(stderr, "bench: this intel-ipsec-mb doesn't offer %s\n", architectures[i].name);
            continue;
        }
        free_mb_mgr(m);
        offered[(*count)++] = library;
    }
    return offered;
}

#endif
