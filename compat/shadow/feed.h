/* Where a thread's samples go: a ring of its own, which the background thread empties, or the thread itself. */
#ifndef SHADOW_FEED_H
#define SHADOW_FEED_H

#include "records.h"
#include "sample.h"

struct feed {
    struct feed *next;
    atomic_bool is_given_up; /* its thread has ended */
    struct records records;
};

/* Room for a sample of at most so many bytes with its results, or NULL: then it was counted as dropped. */
void *feed_room(size_t len);

/* The sample in the last room is whole: it is given away. */
void feed_give(const struct sample *sample);

/* The end of this thread will be noted. False if that can't be. */
bool feed_note_thread(void);

/* All feeds, for whoever empties them. Those whose threads have ended, and that are empty, are freed. */
void feeds_each(void (*empty)(struct feed *feed, void *argument), void *argument);

/* A child of a fork has the thread that forked, and no feed. */
void feeds_forget(void);

#endif
