#include "due.h"
#include "counts.h"
#include "feed.h"
#include "sample.h"
#include "settings.h"

#include <time.h>

/* How many of each class are sampled at first, so that a wrong build shows at once. */
enum { FIRST_ONES = 16 };

__thread struct thread_state here;
_Atomic uint8_t not_yet_of_jobs[CLASSES], not_yet_of_calls[CALL_CLASSES];

/* xorshift64* (Vigna 2016). It isn't secret. */
static uint64_t draw(void) {
    if (here.random == 0) {
        struct timespec now;
        clock_gettime(CLOCK_MONOTONIC, &now);
        here.random = ((uint64_t)(uintptr_t)&here ^ (uint64_t)now.tv_nsec) * UINT64_C(0x9e3779b97f4a7c15) | 1;
    }
    here.random ^= here.random >> 12;
    here.random ^= here.random << 25;
    here.random ^= here.random >> 27;
    return here.random * UINT64_C(0x2545f4914f6cdd1d);
}

/* The next gap is from 1 to 2N - 1, each as likely: so periodic traffic isn't always sampled at the same place. */
static uint32_t drawn_gap(void) {
    return 1 + (uint32_t)((draw() >> 16) % (2 * (uint64_t)settings.every - 1));
}

/* What is left was counted below 0 if it was the turn. */
static void draw_gap(void) {
    if (here.left != UINT32_MAX)
        return;
    count_more(COUNT_SEEN, here.planned);
    here.planned = drawn_gap();
    here.left = here.planned - 1;
}

/* The first one of a thread is the first of its gap. */
bool is_due_now(const _Atomic uint8_t *not_yet) {
    if (here.planned == 0) {
        (void)feed_note_thread();
        here.planned = drawn_gap();
        here.left = here.planned - 2;
    }
    return here.left == UINT32_MAX || atomic_load_explicit(not_yet, memory_order_relaxed) != 0;
}

static void count_down(_Atomic uint8_t *not_yet) {
    uint8_t left = atomic_load_explicit(not_yet, memory_order_relaxed);
    while (left != 0 && !atomic_compare_exchange_weak_explicit(not_yet, &left, left - 1, memory_order_relaxed, memory_order_relaxed))
        continue;
}

/* ---- the bound of bytes a second ---- */

static _Atomic uint64_t second_now, bytes_of_second;

static bool is_within_rate(size_t bytes) {
    struct timespec now;
    if (settings.rate == 0)
        return true;
    clock_gettime(CLOCK_MONOTONIC_COARSE, &now);
    uint64_t second = (uint64_t)now.tv_sec, before = atomic_load_explicit(&second_now, memory_order_relaxed);
    if (second != before &&
        atomic_compare_exchange_strong_explicit(&second_now, &before, second, memory_order_relaxed, memory_order_relaxed))
        atomic_store_explicit(&bytes_of_second, 0, memory_order_relaxed);
    return atomic_fetch_add_explicit(&bytes_of_second, bytes, memory_order_relaxed) + bytes <= settings.rate;
}

void pass_due(_Atomic uint8_t *not_yet) {
    count_down(not_yet);
    draw_gap();
}

bool take_due(_Atomic uint8_t *not_yet, size_t bytes) {
    pass_due(not_yet);
    bool is_long = bytes > MOST_SAMPLE;
    if (!is_long && !is_within_rate(bytes)) {
        count_more(COUNT_OVER_RATE, 1);
        return false;
    }
    count_more(COUNT_SAMPLED, 1);
    count_more(COUNT_DROPPED, is_long);
    return !is_long;
}

void count_seen(void) {
    if (here.planned != 0)
        count_more(COUNT_SEEN, here.planned - 1 - here.left);
    here.planned = here.left = 0;
}

void due_forget(void) {
    here.planned = here.left = 0;
    for (unsigned i = 0; i < CLASSES; i++)
        atomic_store_explicit(&not_yet_of_jobs[i], FIRST_ONES, memory_order_relaxed);
    for (unsigned i = 0; i < CALL_CLASSES; i++)
        atomic_store_explicit(&not_yet_of_calls[i], FIRST_ONES, memory_order_relaxed);
}

__attribute__((constructor(SHADOW_SETTINGS))) static void start(void) {
    due_forget();
}
