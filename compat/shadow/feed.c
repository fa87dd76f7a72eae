#include "feed.h"
#include "counts.h"
#include "due.h"
#include "settings.h"
#include "worker.h"

#include <pthread.h>
#include <stdlib.h>

enum { FEED_BYTES = 1 << 20 };

/* The list is changed by a thread's first sample, and by whoever empties it. */
static pthread_mutex_t feeds_lock = PTHREAD_MUTEX_INITIALIZER;
static struct feed *feeds;
static pthread_key_t thread_end;
static bool has_key;

static void end_thread(void *any) {
    (void)any;
    count_seen();
    if (here.feed != NULL)
        atomic_store_explicit(&here.feed->is_given_up, true, memory_order_release);
    here.feed = NULL;
}

bool feed_note_thread(void) {
    return has_key && pthread_setspecific(thread_end, &here) == 0;
}

__attribute__((constructor(SHADOW_START))) static void start(void) {
    has_key = pthread_key_create(&thread_end, end_thread) == 0;
}

static struct feed *make_feed(void) {
    struct feed *feed = feed_note_thread() ? aligned_alloc(RECORD_LINE, FEED_BYTES) : NULL;
    if (feed == NULL)
        return NULL;
    atomic_init(&feed->is_given_up, false);
    records_make(&feed->records, FEED_BYTES - offsetof(struct feed, records));
    pthread_mutex_lock(&feeds_lock);
    feed->next = feeds;
    feeds = feed;
    pthread_mutex_unlock(&feeds_lock);
    return feed;
}

void *feed_room(size_t len) {
    if (here.feed == NULL)
        here.feed = make_feed();
    void *room = here.feed == NULL || len > MOST_SAMPLE ? NULL : records_reserve(&here.feed->records, len);
    if (room == NULL)
        count_more(COUNT_DROPPED, 1);
    return room;
}

void feed_give(const struct sample *sample) {
    records_append(&here.feed->records, sample->size);
    worker_wake(here.feed);
}

static bool is_spent(struct feed *feed) {
    return atomic_load_explicit(&feed->is_given_up, memory_order_acquire) && records_first(&feed->records) == NULL;
}

void feeds_each(void (*empty)(struct feed *feed, void *argument), void *argument) {
    pthread_mutex_lock(&feeds_lock);
    struct feed *first = feeds;
    pthread_mutex_unlock(&feeds_lock);
    for (struct feed *feed = first; feed != NULL; feed = feed->next)
        empty(feed, argument);
    pthread_mutex_lock(&feeds_lock);
    for (struct feed **place = &feeds; *place != NULL;) {
        struct feed *feed = *place;
        if (!is_spent(feed)) {
            place = &feed->next;
            continue;
        }
        *place = feed->next;
        free(feed);
    }
    pthread_mutex_unlock(&feeds_lock);
}

void feeds_forget(void) {
    pthread_mutex_init(&feeds_lock, NULL);
    feeds = NULL;
    here.feed = NULL;
}
