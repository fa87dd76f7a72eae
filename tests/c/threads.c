/* Hands a manager from thread to thread in the three ways that docs/C.md names: by a thread's start and its end, by a lock, and by a
 * sequentially consistent atomic; and has two threads use one set of key sessions, each by a handle of its own. Built with
 * ThreadSanitizer, which sees the C code alone. */
#include "check.h"

#include <pthread.h>
#include <sched.h>

enum { TURNS = 200 };

/* Leaves a job in the manager, which the next owner finishes. */
static void leave_job(MBJ_MGR *m, uint8_t *tag) {
    memset(tag, 0, MAC_BYTES);
    fill_mac(mbj_get_next_job(m), mac_text, sizeof mac_text, tag);
    CHECK(mbj_submit_job(m) == NULL && mbj_get_errno(m) == MBJ_ERR_NONE);
}

static void finish_job(MBJ_MGR *m, const uint8_t *tag) {
    const MBJ_JOB *done = mbj_flush_job(m);
    CHECK(done != NULL && is_done(done) && memcmp(tag, mac, sizeof mac) == 0 && mbj_queue_size(m) == 0);
}

/* What is handed over, and where its job's tag goes. */
struct hand {
    MBJ_MGR *m;
    uint8_t tag[MAC_BYTES];
    pthread_mutex_t lock;
    int turn;
    MBJ_MGR *offered;
};

static void start(pthread_t *thread, void *(*run)(void *), struct hand *hand) {
    CHECK(pthread_create(thread, NULL, run, hand) == 0);
}

static void end(pthread_t thread) {
    CHECK(pthread_join(thread, NULL) == 0);
}

static void *take_at_start(void *at) {
    struct hand *hand = (struct hand *)at;
    finish_job(hand->m, hand->tag);
    leave_job(hand->m, hand->tag);
    return NULL;
}

static void by_start_and_end(struct hand *hand) {
    pthread_t thread;
    leave_job(hand->m, hand->tag);
    start(&thread, take_at_start, hand);
    end(thread);
    finish_job(hand->m, hand->tag);
}

/* Two threads finish by turns what the other one left. */
static void *take_turns(void *at) {
    struct hand *hand = (struct hand *)at;
    for (bool is_last = false; !is_last;) {
        CHECK(pthread_mutex_lock(&hand->lock) == 0);
        finish_job(hand->m, hand->tag);
        leave_job(hand->m, hand->tag);
        is_last = ++hand->turn >= TURNS;
        CHECK(pthread_mutex_unlock(&hand->lock) == 0);
    }
    return NULL;
}

static void by_lock(struct hand *hand) {
    pthread_t first, second;
    leave_job(hand->m, hand->tag);
    start(&first, take_turns, hand);
    start(&second, take_turns, hand);
    end(first);
    end(second);
    finish_job(hand->m, hand->tag);
}

static void *take_offered(void *at) {
    struct hand *hand = (struct hand *)at;
    MBJ_MGR *m;
    while ((m = __atomic_load_n(&hand->offered, __ATOMIC_SEQ_CST)) == NULL)
        sched_yield();
    finish_job(m, hand->tag);
    mbj_free_mgr(m);
    return NULL;
}

/* The other thread frees the manager, which was made here. */
static void by_atomic(struct hand *hand) {
    pthread_t thread;
    start(&thread, take_offered, hand);
    leave_job(hand->m, hand->tag);
    __atomic_store_n(&hand->offered, hand->m, __ATOMIC_SEQ_CST);
    end(thread);
}

/* What a thread has of its own: a handle of the set, which it frees. */
static void *use_set(void *at) {
    struct mbj_keys *keys = (struct mbj_keys *)at;
    MBJ_MGR *m = mbj_alloc_mgr();
    CHECK(mbj_use_keys(m, keys) == MBJ_ERR_NONE);
    for (int turn = 0; turn < TURNS; turn++) {
        uint8_t dst[CBC_BYTES] = {0};
        MBJ_JOB *job = mbj_get_next_job(m);
        fill_cbc(job, cbc_text, sizeof cbc_text, 0, dst);
        job->session = (uint32_t)turn % 2;
        CHECK(is_done(finish(m)) && memcmp(dst, cbc_ciphertext, sizeof dst) == 0);
    }
    CHECK(mbj_keys_free(keys));
    mbj_free_mgr(m);
    return NULL;
}

/* ThreadSanitizer sees none of the library's atomics, by which threads find a key expanded and the last owner frees the set. So the keys are
 * expanded here before the threads begin, and this thread's handle is the last one. */
static void by_two_handles(void) {
    static const struct mbj_bytes keys[] = {{cbc_key, sizeof cbc_key}, {mac_key, 16}};
    struct mbj_keys set = MBJ_KEYS_INIT, one = MBJ_KEYS_INIT, other = MBJ_KEYS_INIT;
    pthread_t first, second;
    MBJ_MGR *m = mbj_alloc_mgr();
    CHECK(mbj_keys_new(&set, keys, 2) == MBJ_ERR_NONE && mbj_use_keys(m, &set) == MBJ_ERR_NONE);
    CHECK(mbj_keys_share(&set, &one) == MBJ_ERR_NONE && mbj_keys_share(&set, &other) == MBJ_ERR_NONE);
    CHECK(pthread_create(&first, NULL, use_set, &one) == 0 && pthread_create(&second, NULL, use_set, &other) == 0);
    end(first);
    end(second);
    mbj_free_mgr(m);
    CHECK(mbj_keys_free(&set));
}

int main(void) {
    static struct hand hand;
    CHECK(pthread_mutex_init(&hand.lock, NULL) == 0);
    hand.m = mbj_alloc_mgr();
    CHECK(hand.m != NULL);
    by_start_and_end(&hand);
    by_lock(&hand);
    by_atomic(&hand);
    by_two_handles();
    return 0;
}
