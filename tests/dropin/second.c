/* A second process, started by exec, so that the library lies at another address, takes a manager over in shared memory at the same
 * address, jobs in it included, and submits others. This program is linked to the library. */
#define _GNU_SOURCE
#define NO_COMPAT_IMB_API_053
#include <fcntl.h>
#include <intel-ipsec-mb.h>
#include <stdbool.h>
#include <stdio.h>
#include <stdlib.h>
#include <string.h>
#include <sys/mman.h>
#include <sys/wait.h>
#include <unistd.h>

enum { FIRST_JOBS = 200, SECOND_JOBS = 80, LEN = 128, MOST_TAG = 64, PAGE = 4096 };

#define ZONE ((void *)0x100000000000)

/* Behind the manager, for both processes. */
struct shared {
    DECLARE_ALIGNED(uint8_t encryption[240], 64);
    DECLARE_ALIGNED(uint8_t decryption[240], 64);
    uint8_t iv[16], states[2][64], texts[FIRST_JOBS + SECOND_JOBS][LEN], tags[FIRST_JOBS + SECOND_JOBS][MOST_TAG];
    void *library;
    unsigned back, wrong;
};

static size_t zone_len(void) {
    return (imb_get_mb_mgr_size() + PAGE - 1) / PAGE * PAGE;
}

static struct shared *map_zone(int file) {
    uint8_t *at = mmap(ZONE, zone_len() + sizeof(struct shared), PROT_READ | PROT_WRITE, MAP_SHARED | MAP_FIXED_NOREPLACE, file, 0);
    if (at != ZONE) {
        perror("mmap");
        exit(2);
    }
    return (struct shared *)(void *)(at + zone_len());
}

static void make_keys(IMB_MGR *m, struct shared *shared) {
    uint8_t key[64] = {1};
    IMB_AES_KEYEXP_128(m, key, shared->encryption, shared->decryption);
    memset(key, 0x36, sizeof key);
    IMB_SHA1_ONE_BLOCK(m, key, shared->states[0]);
    memset(key, 0x5c, sizeof key);
    IMB_SHA1_ONE_BLOCK(m, key, shared->states[1]);
}

static void fill(IMB_JOB *job, struct shared *shared, unsigned number) {
    bool is_hmac = number % 3 != 0;
    memset(job, 0, sizeof *job);
    job->cipher_mode = number % 4 == 3 ? IMB_CIPHER_CNTR : IMB_CIPHER_CBC;
    job->cipher_direction = number % 5 == 4 ? IMB_DIR_DECRYPT : IMB_DIR_ENCRYPT;
    job->chain_order = IMB_ORDER_CIPHER_HASH;
    job->hash_alg = is_hmac ? IMB_AUTH_HMAC_SHA_1 : IMB_AUTH_SHA_512;
    job->enc_keys = shared->encryption;
    job->dec_keys = shared->decryption;
    job->key_len_in_bytes = 16;
    job->iv = shared->iv;
    job->iv_len_in_bytes = sizeof shared->iv;
    job->src = job->dst = shared->texts[number];
    job->msg_len_to_cipher_in_bytes = 16 * (1 + number % 8);
    job->msg_len_to_hash_in_bytes = LEN;
    job->auth_tag_output = shared->tags[number];
    job->auth_tag_output_len_in_bytes = is_hmac ? 12 : MOST_TAG;
    job->u.HMAC._hashed_auth_key_xor_ipad = shared->states[0];
    job->u.HMAC._hashed_auth_key_xor_opad = shared->states[1];
}

static void take(struct shared *shared, const IMB_JOB *job) {
    shared->back++;
    shared->wrong += job->status != IMB_STATUS_COMPLETED;
}

static void submit(IMB_MGR *m, struct shared *shared, unsigned from, unsigned n) {
    for (unsigned i = from; i < from + n; i++) {
        fill(IMB_GET_NEXT_JOB(m), shared, i);
        for (const IMB_JOB *job = IMB_SUBMIT_JOB(m); job != NULL; job = IMB_GET_COMPLETED_JOB(m))
            take(shared, job);
    }
}

static void flush(IMB_MGR *m, struct shared *shared) {
    for (const IMB_JOB *job; (job = IMB_FLUSH_JOB(m)) != NULL;)
        take(shared, job);
}

static int second(int file) {
    struct shared *shared = map_zone(file);
    IMB_MGR *m = imb_set_pointers_mb_mgr(ZONE, 0, 0);
    if (m == NULL || shared->library == (void *)alloc_mb_mgr)
        return m == NULL ? 3 : 4; /* if addresses aren't drawn, nothing is shown */
    submit(m, shared, FIRST_JOBS, SECOND_JOBS);
    flush(m, shared);
    return 0;
}

/* The same jobs by one process alone. */
static bool is_same_alone(const struct shared *shared) {
    static struct shared own;
    IMB_MGR *m = alloc_mb_mgr(0);
    init_mb_mgr_auto(m, NULL);
    make_keys(m, &own);
    submit(m, &own, 0, FIRST_JOBS + SECOND_JOBS);
    flush(m, &own);
    free_mb_mgr(m);
    return memcmp(own.texts, shared->texts, sizeof own.texts) == 0 && memcmp(own.tags, shared->tags, sizeof own.tags) == 0;
}

int main(int argc, char **argv) {
    char number[20];
    int status = -1;
    if (argc > 1)
        return second(atoi(argv[1]));
    int file = memfd_create("zone", 0);
    if (file < 0 || ftruncate(file, (off_t)(zone_len() + sizeof(struct shared))) != 0)
        return 2;
    struct shared *shared = map_zone(file);
    IMB_MGR *m = imb_set_pointers_mb_mgr(ZONE, 0, 1);
    init_mb_mgr_auto(m, NULL);
    shared->library = (void *)alloc_mb_mgr;
    make_keys(m, shared);
    submit(m, shared, 0, FIRST_JOBS);
    unsigned waiting = IMB_QUEUE_SIZE(m);
    snprintf(number, sizeof number, "%d", file);
    pid_t child = fork();
    if (child == 0) {
        execl("/proc/self/exe", argv[0], number, (char *)NULL);
        _exit(9);
    }
    waitpid(child, &status, 0);
    printf("%u jobs waited, and %u came back, %u wrong; the second process ended with %d\n", waiting, shared->back, shared->wrong, status);
    return status != 0 || waiting == 0 || shared->back != FIRST_JOBS + SECOND_JOBS || shared->wrong != 0 || !is_same_alone(shared);
}
