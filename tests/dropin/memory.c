/* Where a manager's memory lies: in the zone that the application gave, so that freeing the zone frees all; what doesn't fit there is taken
 * from the process's heap until the job is given back; and a second process goes on with a manager in shared memory. This program is linked
 * to the library. */
#define _GNU_SOURCE
#define NO_COMPAT_IMB_API_053
#include <intel-ipsec-mb.h>
#include <stdbool.h>
#include <stdio.h>
#include <string.h>
#include <sys/mman.h>
#include <sys/wait.h>
#include <unistd.h>

enum { JOBS = IMB_MAX_JOBS, MARGIN = 4096, MARK = 0x5a };

DECLARE_ALIGNED(static uint8_t encryption[240], 16);
DECLARE_ALIGNED(static uint8_t decryption[240], 16);
static uint8_t states[2][64], texts[JOBS][60000], tags[JOBS][32];

/* The library's blocks of the heap are counted: these functions are called in place of glibc's. */
void *__libc_malloc(size_t len);
void __libc_free(void *at);

static size_t blocks;
static bool is_heap_empty;

void *malloc(size_t len) {
    if (is_heap_empty)
        return NULL;
    blocks++;
    return __libc_malloc(len);
}

void free(void *at) {
    blocks -= at != NULL;
    __libc_free(at);
}

static void expect(bool is_so, const char *what) {
    if (!is_so) {
        printf("it isn't so that %s\n", what);
        exit(1);
    }
}

/* The first job is of another kind than the others: it waits for lanes, and those behind it can't be given back. */
static void fill(IMB_JOB *job, unsigned number, size_t len) {
    static const uint8_t iv[16];
    memset(job, 0, sizeof *job);
    memset(texts[number], (int)number, len);
    job->cipher_mode = IMB_CIPHER_CBC;
    job->cipher_direction = IMB_DIR_ENCRYPT;
    job->hash_alg = IMB_AUTH_HMAC_SHA_256;
    job->chain_order = IMB_ORDER_CIPHER_HASH;
    job->enc_keys = encryption;
    job->dec_keys = decryption;
    job->key_len_in_bytes = 16;
    job->iv = iv;
    job->iv_len_in_bytes = sizeof iv;
    job->src = job->dst = texts[number];
    job->msg_len_to_cipher_in_bytes = job->msg_len_to_hash_in_bytes = len / 16 * 16;
    job->auth_tag_output = tags[number];
    job->auth_tag_output_len_in_bytes = 32;
    job->u.HMAC._hashed_auth_key_xor_ipad = states[0];
    job->u.HMAC._hashed_auth_key_xor_opad = states[1];
    if (number == 0) {
        job->cipher_mode = IMB_CIPHER_NULL;
        job->hash_alg = IMB_AUTH_HMAC_SHA_1;
        job->auth_tag_output_len_in_bytes = 20;
    }
}

static void make_keys(IMB_MGR *m) {
    uint8_t key[64] = {0};
    IMB_AES_KEYEXP_128(m, key, encryption, decryption);
    memset(key, 0x36, sizeof key);
    IMB_SHA256_ONE_BLOCK(m, key, states[0]);
    memset(key, 0x5c, sizeof key);
    IMB_SHA256_ONE_BLOCK(m, key, states[1]);
}

static unsigned submit(IMB_MGR *m, unsigned n, size_t len) {
    unsigned back = 0;
    for (unsigned i = 0; i < n; i++) {
        fill(IMB_GET_NEXT_JOB(m), i, len);
        for (IMB_JOB *job = IMB_SUBMIT_JOB_NOCHECK(m); job != NULL; job = IMB_GET_COMPLETED_JOB(m))
            back += job->status == IMB_STATUS_COMPLETED;
    }
    return back;
}

static unsigned flush(IMB_MGR *m) {
    unsigned back = 0;
    for (IMB_JOB *job; (job = IMB_FLUSH_JOB(m)) != NULL;)
        back += job->status == IMB_STATUS_COMPLETED;
    return back;
}

/* A zone with a margin on both sides, which begins this many bytes behind a page. */
static uint8_t *map_zone(size_t off) {
    size_t len = imb_get_mb_mgr_size() + 2 * MARGIN + off;
    uint8_t *at = mmap(NULL, len, PROT_READ | PROT_WRITE, MAP_SHARED | MAP_ANONYMOUS, -1, 0);
    expect(at != MAP_FAILED, "there is memory for a zone");
    memset(at, MARK, len);
    return at + MARGIN + off;
}

static bool has_margins(const uint8_t *zone) {
    const uint8_t *behind = zone + imb_get_mb_mgr_size();
    for (size_t i = 0; i < MARGIN; i++)
        if (zone[-1 - (long)i] != MARK || behind[i] != MARK)
            return false;
    return true;
}

static void unmap_zone(uint8_t *zone, size_t off) {
    munmap(zone - MARGIN - off, imb_get_mb_mgr_size() + 2 * MARGIN + off);
}

static IMB_MGR *make(uint8_t *zone) {
    IMB_MGR *m = imb_set_pointers_mb_mgr(zone, 0, 1);
    expect(m == (IMB_MGR *)(void *)zone, "a manager is made at the front of the zone");
    init_mb_mgr_auto(m, NULL);
    make_keys(m);
    return m;
}

/* All that 256 jobs of 1,500 bytes need is in the zone, and nothing beside it is written. */
static void check_zone(size_t off) {
    size_t before = blocks;
    uint8_t *zone = map_zone(off);
    IMB_MGR *m = make(zone);
    expect(blocks == before, "a manager takes nothing from the heap");
    expect(submit(m, JOBS - 1, 1500) == 0 && IMB_QUEUE_SIZE(m) == JOBS - 1, "no job is given back before the first one");
    expect(blocks == before, "jobs of 1,500 bytes take nothing from the heap");
    expect(flush(m) == JOBS - 1, "each job comes back");
    submit(m, JOBS / 2, 1500);
    expect(has_margins(zone), "nothing beside the zone is written");
    unmap_zone(zone, off);
    expect(blocks == before, "freeing the zone frees all, also with jobs in it");
}

static void check_overflow(void) {
    uint8_t *zone = map_zone(0);
    IMB_MGR *m = make(zone);
    size_t before = blocks, most = before;
    unsigned back = 0;
    for (unsigned i = 0; i < 4; i++) {
        back += submit(m, JOBS, sizeof texts[0]);
        most = blocks > most ? blocks : most;
        back += flush(m);
    }
    expect(back == 4 * JOBS, "each long job comes back");
    expect(most > before, "long jobs take memory of the heap");
    expect(has_margins(zone), "nothing beside the zone is written for long jobs");
    expect(blocks == before, "what long jobs took is given back with them");
    printf("%zu blocks of the heap at most for long jobs\n", most - before);
    unmap_zone(zone, 0);
}

/* If the heap is empty too, a job comes back in its place as one that failed, and none is lost. */
static void check_want_of_memory(void) {
    uint8_t *zone = map_zone(0);
    IMB_MGR *m = make(zone);
    unsigned back = 0, failed = 0;
    is_heap_empty = true;
    unsigned done = submit(m, JOBS - 1, sizeof texts[0]);
    for (IMB_JOB *job; (job = IMB_FLUSH_JOB(m)) != NULL; back++) {
        failed += job->status == IMB_STATUS_INTERNAL_ERROR;
        done += job->status == IMB_STATUS_COMPLETED;
    }
    is_heap_empty = false;
    expect(back == JOBS - 1 && failed > 0 && done > 0 && done + failed == back, "jobs for which memory runs out come back as failed");
    expect(submit(m, 5, 64) + flush(m) == 5, "the manager goes on after that");
    unmap_zone(zone, 0);
}

/* A manager that is set up again has no job, and the jobs that were out write nothing. */
static void check_set_up_again(void) {
    uint8_t *zone = map_zone(0);
    IMB_MGR *m = make(zone);
    submit(m, 3, 64);
    memset(texts, 1, sizeof texts);
    init_mb_mgr_auto(m, NULL);
    expect(IMB_QUEUE_SIZE(m) == 0 && IMB_FLUSH_JOB(m) == NULL, "a manager that is set up again is empty");
    for (unsigned i = 0; i < 3; i++)
        expect(texts[i][0] == 1, "jobs that were given up write nothing");
    expect(submit(m, 5, 64) + flush(m) == 5, "it takes jobs again");
    unmap_zone(zone, 0);
}

/* The child does the jobs that its parent submitted, and submits others, which the parent flushes. */
static void check_second_process(void) {
    uint8_t *zone = map_zone(0);
    IMB_MGR *m = make(zone);
    int status = -1;
    submit(m, 3, 64);
    pid_t child = fork();
    if (child == 0) {
        m = imb_set_pointers_mb_mgr(zone, 0, 0);
        unsigned back = flush(m);
        submit(m, 2, 64);
        _exit(back == 3 ? 0 : 1);
    }
    expect(child > 0 && waitpid(child, &status, 0) == child && status == 0, "a second process flushes the jobs of the first one");
    imb_set_pointers_mb_mgr(zone, 0, 0);
    expect(flush(m) == 2, "the first process flushes the jobs of the second one");
    unmap_zone(zone, 0);
}

static void check_no_manager(void) {
    DECLARE_ALIGNED(static IMB_MGR none, 64);
    uint8_t *zone = map_zone(0);
    IMB_MGR *m = make(zone);
    expect(m->get_next_job(&none) == NULL && imb_get_errno(&none) == IMB_ERR_NULL_MBMGR, "memory without a manager is refused");
    expect(m->submit_job(NULL) == NULL && imb_get_errno(NULL) == IMB_ERR_NULL_MBMGR, "NULL is refused");
#ifdef IMB_FLAG_AESNI_OFF
    expect(alloc_mb_mgr(IMB_FLAG_AESNI_OFF) == NULL && imb_get_errno(NULL) == IMB_ERR_NO_AESNI_EMU, "emulation of AES is refused");
#endif
    unmap_zone(zone, 0);
}

int main(void) {
    printf("%s\n", imb_get_version_str()); /* the stream's own memory is there then */
    check_zone(0);
    check_zone(8);
    check_zone(16);
    check_overflow();
    check_want_of_memory();
    check_set_up_again();
    check_second_process();
    check_no_manager();
    printf("a manager has %zu bytes\n", imb_get_mb_mgr_size());
    return 0;
}
