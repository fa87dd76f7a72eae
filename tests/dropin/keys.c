/* keys: once a job is back and the program has wiped what it gave, neither its raw key nor its packet lies in memory that the library
 * wrote: the manager's, and that of the process's heap, also if it was freed. Lanes of the proved code that keep the key of their last
 * job are given jobs with another key first. The stack isn't searched. This program is linked to the library. */
#define _GNU_SOURCE
#define NO_COMPAT_IMB_API_053
#include <intel-ipsec-mb.h>
#include <stdbool.h>
#include <stdio.h>
#include <string.h>

enum { MOST_LEN = 60000, MOST_JOBS = 200, LANE_JOBS = 64, SEEN = 16, TURN = 0x5a };

/* What the program itself gives, which is left out of the search. */
static struct {
    DECLARE_ALIGNED(uint8_t encryption[240], 64);
    DECLARE_ALIGNED(uint8_t decryption[240], 64);
    DECLARE_ALIGNED(uint8_t subkeys[2][16], 16);
    DECLARE_ALIGNED(struct gcm_key_data gcm, 64);
    uint8_t iv[16], packet[MOST_LEN], out[MOST_LEN], tag[64];
} own;

/* What is searched, each byte turned, so that it isn't found here. */
static uint8_t turned_key[32], turned_text[SEEN];

static const struct algorithms {
    const char *name;
    IMB_CIPHER_MODE cipher;
    IMB_HASH_ALG hash;
    IMB_CIPHER_DIRECTION dir;
    size_t key_len, iv_len;
    bool keeps; /* lanes keep the key of their last job */
} cases[] = {
    {"CBC-128, encryption", IMB_CIPHER_CBC, IMB_AUTH_NULL, IMB_DIR_ENCRYPT, 16, 16, true},
    {"CBC-256, encryption", IMB_CIPHER_CBC, IMB_AUTH_NULL, IMB_DIR_ENCRYPT, 32, 16, true},
    {"CBC-128, decryption", IMB_CIPHER_CBC, IMB_AUTH_NULL, IMB_DIR_DECRYPT, 16, 16, false},
    {"CBC-192, decryption", IMB_CIPHER_CBC, IMB_AUTH_NULL, IMB_DIR_DECRYPT, 24, 16, false},
    {"CBC-256, decryption", IMB_CIPHER_CBC, IMB_AUTH_NULL, IMB_DIR_DECRYPT, 32, 16, false},
    {"CTR-256", IMB_CIPHER_CNTR, IMB_AUTH_NULL, IMB_DIR_ENCRYPT, 32, 16, false},
    {"CTR-256 and CMAC", IMB_CIPHER_CNTR, IMB_AUTH_AES_CMAC_256, IMB_DIR_ENCRYPT, 32, 16, true},
    {"CMAC-256", IMB_CIPHER_NULL, IMB_AUTH_AES_CMAC_256, IMB_DIR_ENCRYPT, 32, 16, true},
    {"GCM-256", IMB_CIPHER_GCM, IMB_AUTH_AES_GMAC, IMB_DIR_ENCRYPT, 32, 12, false},
    {"CCM-256", IMB_CIPHER_CCM, IMB_AUTH_AES_CCM, IMB_DIR_ENCRYPT, 32, 13, true},
    {"GMAC-256", IMB_CIPHER_NULL, IMB_AUTH_AES_GMAC_256, IMB_DIR_ENCRYPT, 32, 12, false},
};

static void make_keys(IMB_MGR *m, size_t len, unsigned seed) {
    uint8_t key[32];
    for (size_t i = 0; i < sizeof key; i++)
        key[i] = (uint8_t)(0x51 + 11 * i + 29 * seed);
    if (len == 16) {
        IMB_AES_KEYEXP_128(m, key, own.encryption, own.decryption);
        IMB_AES128_GCM_PRE(m, key, &own.gcm);
    } else if (len == 24) {
        IMB_AES_KEYEXP_192(m, key, own.encryption, own.decryption);
        IMB_AES192_GCM_PRE(m, key, &own.gcm);
    } else {
        IMB_AES_KEYEXP_256(m, key, own.encryption, own.decryption);
        IMB_AES256_GCM_PRE(m, key, &own.gcm);
        IMB_AES_CMAC_SUBKEY_GEN_256(m, own.encryption, own.subkeys[0], own.subkeys[1]);
    }
    imb_clear_mem(key, sizeof key);
}

static void make_packet(unsigned seed) {
    for (size_t i = 0; i < sizeof own.packet; i++)
        own.packet[i] = (uint8_t)(i * i >> 3 ^ i ^ (seed << 4));
}

/* A schedule of encryption begins with the key (FIPS 197, 5.2). */
static void note_searched(void) {
    for (size_t i = 0; i < sizeof turned_key; i++)
        turned_key[i] = own.encryption[i] ^ TURN;
    for (size_t i = 0; i < sizeof turned_text; i++)
        turned_text[i] = own.packet[32 + i] ^ TURN;
}

static void fill(IMB_JOB *job, const struct algorithms *a, size_t len, bool is_apart) {
    memset(job, 0, sizeof *job);
    job->cipher_mode = a->cipher;
    job->cipher_direction = a->dir;
    job->chain_order = a->cipher == IMB_CIPHER_CCM ? IMB_ORDER_HASH_CIPHER : IMB_ORDER_CIPHER_HASH;
    job->hash_alg = a->hash;
    job->enc_keys = a->cipher == IMB_CIPHER_GCM ? (void *)&own.gcm : own.encryption;
    job->dec_keys = a->cipher == IMB_CIPHER_GCM ? (void *)&own.gcm : own.decryption;
    job->key_len_in_bytes = a->key_len;
    job->iv = own.iv;
    job->iv_len_in_bytes = a->iv_len;
    job->src = own.packet;
    job->dst = is_apart ? own.out : own.packet;
    job->msg_len_to_cipher_in_bytes = job->msg_len_to_hash_in_bytes = len;
    job->auth_tag_output = own.tag;
    job->auth_tag_output_len_in_bytes = 16;
    if (a->hash == IMB_AUTH_AES_CMAC_256) {
        job->u.CMAC._key_expanded = own.encryption;
        job->u.CMAC._skey1 = own.subkeys[0];
        job->u.CMAC._skey2 = own.subkeys[1];
    } else if (a->hash == IMB_AUTH_AES_GMAC_256) {
        job->u.GMAC._key = &own.gcm;
        job->u.GMAC._iv = own.iv;
        job->u.GMAC.iv_len_in_bytes = 12;
    }
}

/* ---- the search ---- */

static bool is_at(const uint8_t *at, const uint8_t *turned, size_t len) {
    for (size_t i = 0; i < len; i++)
        if (at[i] != (turned[i] ^ TURN))
            return false;
    return true;
}

static bool is_own(const uint8_t *at) {
    return at >= (const uint8_t *)&own && at < (const uint8_t *)(&own + 1);
}

static unsigned count_in(const uint8_t *from, const uint8_t *to, const uint8_t *turned, size_t len) {
    unsigned count = 0;
    for (const uint8_t *at = from; at + len <= to; at++)
        if (*at == (*turned ^ TURN) && !is_own(at))
            count += is_at(at, turned, len);
    return count;
}

/* All that the process may write, but for the stack. */
static unsigned count_everywhere(const uint8_t *turned, size_t len) {
    FILE *maps = fopen("/proc/self/maps", "r");
    char line[512], rights[8];
    unsigned long from, to;
    unsigned count = 0;
    while (maps != NULL && fgets(line, sizeof line, maps) != NULL)
        if (sscanf(line, "%lx-%lx %7s", &from, &to, rights) == 3 && strncmp(rights, "rw", 2) == 0 && strstr(line, "[stack") == NULL)
            count += count_in((const uint8_t *)from, (const uint8_t *)to, turned, len);
    if (maps == NULL || fclose(maps) != 0)
        exit(2);
    return count;
}

static void wipe_own(void) {
    imb_clear_mem(&own, sizeof own);
}

/* Returns how many jobs are done. */
static unsigned do_jobs(IMB_MGR *m, const struct algorithms *a, unsigned jobs, size_t len) {
    unsigned back = 0;
    for (unsigned i = 0; i < jobs; i++) {
        fill(IMB_GET_NEXT_JOB(m), a, len, i != jobs - 1);
        for (const IMB_JOB *job = IMB_SUBMIT_JOB(m); job != NULL; job = IMB_GET_COMPLETED_JOB(m))
            back += job->status == IMB_STATUS_COMPLETED;
    }
    for (const IMB_JOB *job; (job = IMB_FLUSH_JOB(m)) != NULL;)
        back += job->status == IMB_STATUS_COMPLETED;
    return back;
}

static void overwrite_lanes(IMB_MGR *m, const struct algorithms *a, unsigned seed) {
    make_keys(m, a->key_len, seed + 128);
    make_packet(seed + 7);
    do_jobs(m, a, LANE_JOBS, 64);
    wipe_own();
}

/* Both ends of the key are looked for, since a block that is free begins with what its heap notes. */
static unsigned check(const struct algorithms *a, unsigned jobs, size_t len, bool is_freed, unsigned seed) {
    IMB_MGR *m = alloc_mb_mgr(0);
    init_mb_mgr_auto(m, NULL);
    make_keys(m, a->key_len, seed);
    make_packet(seed);
    note_searched();
    unsigned back = do_jobs(m, a, jobs, len);
    wipe_own();
    if (!is_freed && a->keeps)
        overwrite_lanes(m, a, seed);
    if (is_freed)
        free_mb_mgr(m);
    unsigned keys = count_everywhere(turned_key, SEEN) + count_everywhere(turned_key + a->key_len - SEEN, SEEN);
    unsigned texts = count_everywhere(turned_text, SEEN);
    if (back != jobs || keys != 0 || texts != 0)
        printf("%s, %u jobs of %zu bytes%s: %u came back; the key lies at %u places, the text at %u\n", a->name, jobs, len,
               is_freed ? ", freed" : "", back, keys, texts);
    if (!is_freed)
        free_mb_mgr(m);
    return back != jobs || keys != 0 || texts != 0;
}

int main(void) {
    static const struct {
        unsigned jobs;
        size_t len;
    } loads[] = {{1, 64}, {5, 1504}, {MOST_JOBS, 4992}, {60, 59984}};
    unsigned wrong = 0, checked = 0;
    for (size_t i = 0; i < sizeof cases / sizeof *cases; i++)
        for (size_t k = 0; k < sizeof loads / sizeof *loads; k++)
            for (int is_freed = 0; is_freed < 2; is_freed++)
                wrong += check(&cases[i], loads[k].jobs, loads[k].len, is_freed, checked++);
    printf("%u loads, %u leave something\n", checked, wrong);
    return wrong != 0;
}
