/* Batches, and the threads that put them through libraries. */
#include "timing.h"

#include <pthread.h>
#include <stdlib.h>
#include <string.h>
#include <time.h>

enum { BLOCK = 16 };

/* ---- batches ---- */

/* CBC takes whole blocks, and one at least. */
static size_t length_for(const struct work *work, size_t len) {
    if (work->cipher != CBC && work->cipher != CBC_DEC)
        return len;
    return len < BLOCK ? BLOCK : len / BLOCK * BLOCK;
}

/* The same for every library and thread. */
static void fill_batch(struct batch *batch) {
    memset(batch->tags, 0, sizeof batch->tags);
    for (size_t i = 0; i < BATCH; i++)
        for (size_t j = 0; j < batch->lens[i]; j++)
            batch->packets[i][j] = (uint8_t)(i * 7 + j);
}

static struct batch *make_batch(const struct work *work, struct lengths lengths) {
    struct batch *batch = (struct batch *)calloc(1, sizeof *batch);
    uint32_t state = 1;
    for (size_t i = 0; batch != NULL && i < BATCH; i++) {
        state = state * 1664525 + 1013904223;
        size_t drawn = (size_t)(((uint64_t)state * (lengths.most - lengths.least + 1)) >> 32);
        batch->lens[i] = length_for(work, lengths.least + drawn);
        batch->packets[i] = (uint8_t *)malloc(batch->lens[i] + 1);
        if (batch->packets[i] == NULL)
            give_up("out of memory");
    }
    if (batch == NULL)
        give_up("out of memory");
    fill_batch(batch);
    return batch;
}

static void free_batch(struct batch *batch) {
    for (size_t i = 0; i < BATCH; i++)
        free(batch->packets[i]);
    free(batch);
}

static double mean_length(const struct batch *batch) {
    double sum = 0;
    for (size_t i = 0; i < BATCH; i++)
        sum += (double)batch->lens[i];
    return sum / BATCH;
}

/* ---- time ---- */

static double now(void) {
    struct timespec t;
    clock_gettime(CLOCK_MONOTONIC, &t);
    return (double)t.tv_sec * 1e9 + (double)t.tv_nsec;
}

/* What the threads of one row share. */
struct row {
    const struct library *library;
    const struct work *work;
    struct lengths lengths;
    int passes;
    pthread_barrier_t barrier;
};

struct runner {
    pthread_t thread;
    struct row *row;
    struct timed timed;
};

static void *run(void *at) {
    struct runner *runner = (struct runner *)at;
    struct row *row = runner->row;
    struct batch *batch = make_batch(row->work, row->lengths);
    void *started = row->library->start(row->library, row->work);
    double least = 1e18;
    for (int i = 0; i < row->passes; i++) {
        pthread_barrier_wait(&row->barrier);
        double start = now();
        row->library->pass(started, row->work, batch);
        double took = now() - start;
        if (took < least)
            least = took;
    }
    runner->timed.ns = least / BATCH;
    runner->timed.bytes = mean_length(batch);
    row->library->end(started);
    free_batch(batch);
    return NULL;
}

struct timed time_library(const struct library *library, const struct work *work, struct lengths lengths, size_t threads, int passes) {
    struct runner *runners = (struct runner *)calloc(threads, sizeof *runners);
    struct row row;
    struct timed mean = {0, 0};
    row.library = library;
    row.work = work;
    row.lengths = lengths;
    row.passes = passes;
    if (runners == NULL || pthread_barrier_init(&row.barrier, NULL, (unsigned)threads) != 0)
        give_up("out of memory");
    for (size_t i = 0; i < threads; i++) {
        runners[i].row = &row;
        if (pthread_create(&runners[i].thread, NULL, run, &runners[i]) != 0)
            give_up("no thread");
    }
    for (size_t i = 0; i < threads; i++) {
        pthread_join(runners[i].thread, NULL);
        mean.ns += runners[i].timed.ns / (double)threads;
        mean.bytes = runners[i].timed.bytes;
    }
    pthread_barrier_destroy(&row.barrier);
    free(runners);
    return mean;
}

/* ---- results ---- */

static struct batch *results_of(const struct library *library, const struct work *work, struct lengths lengths) {
    struct batch *batch = make_batch(work, lengths);
    void *started = library->start(library, work);
    library->pass(started, work, batch);
    library->end(started);
    return batch;
}

void compare(const struct library *library, const struct work *work, struct lengths lengths) {
    struct batch *own = results_of(&ours, work, lengths), *other = results_of(library, work, lengths);
    for (size_t i = 0; i < BATCH; i++)
        if (memcmp(own->packets[i], other->packets[i], own->lens[i]) != 0 || memcmp(own->tags[i], other->tags[i], tag_len(work)) != 0)
            give_up("the two libraries' results differ");
    free_batch(own);
    free_batch(other);
}
