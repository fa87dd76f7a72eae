/* Does the job file of gateway.c (docs/FORMAT.md) by threads that share a front: R receiving threads, which post jobs and take their results
 * back, and W workers, which do jobs of all. Usage: crew R W [D [key]]. Job i goes to thread i mod R, or with `key` to the thread that its
 * cipher's key names, as packets of a tunnel do. A job that waits longer than D microseconds, 200 if not said, makes its thread run lanes
 * that aren't full. Prints the results of each receiving thread, in the order of its posts: sorted by their numbers the lines are the text
 * of `mbjobs run`. The statuses are those of gateway.c, and 2 for wrong arguments. */
#define _POSIX_C_SOURCE 200809L
#define PROGRAM "crew"
#include "jobfile.h"
#include "mbj_seat.h"

#include <pthread.h>
#include <time.h>

enum { BURST = 32, WRONG_ARGUMENTS = 2 };

/* What all threads share, and what is one's own. */
struct crew {
    struct file file;
    uint32_t receivers, workers;
    uint64_t most_micros;
    bool is_by_key, stop;
};

struct receiver {
    const struct crew *crew;
    MBJ_SEAT *seat;
    uint32_t number;
    int status;
    pthread_t thread;
    uint64_t posted[MBJ_MAX_JOBS]; /* when each job that is out was posted, in microseconds */
};

struct worker {
    struct crew *crew;
    struct mbj_seat *seat;
    pthread_t thread;
};

static uint64_t micros_now(void) {
    struct timespec now;
    clock_gettime(CLOCK_MONOTONIC, &now);
    return (uint64_t)now.tv_sec * 1000000 + (uint64_t)now.tv_nsec / 1000;
}

/* Whether a job of the file is this thread's. */
static bool is_own(const struct receiver *r, size_t i) {
    const MBJ_JOB *job = &r->crew->file.jobs[i].job;
    size_t name = i;
    if (r->crew->is_by_key) {
        name = 0;
        for (size_t k = 0; k < job->key_len_in_bytes; k++)
            name = name * 31 + job->key[k];
    }
    return name % r->crew->receivers == r->number;
}

/* Notes in the file how a job ended; what was ciphered, and the tag, stand there already. */
static void note(const MBJ_JOB *done) {
    struct file_job *given = (struct file_job *)done->user_data;
    given->job.status = done->status;
    given->job.reason = done->reason;
}

/* Waits until one of 512 jobs is given back, and hands the next one out. */
static MBJ_JOB *next_job(struct receiver *r) {
    MBJ_JOB *job = mbj_seat_get_next_job(r->seat);
    if (job == NULL) {
        note(mbj_drain(r->seat));
        job = mbj_seat_get_next_job(r->seat);
    }
    return job;
}

static bool post(struct receiver *r, struct file_job *given) {
    MBJ_JOB *job = next_job(r);
    *job = given->job;
    r->posted[r->seat->next % MBJ_MAX_JOBS] = micros_now();
    return mbj_post_job(r->seat) == MBJ_ERR_NONE;
}

/* What a thread does between two bursts of packets: jobs of all, its own results, and, if its earliest job waits too long, lanes that
 * aren't full. */
static void work(struct receiver *r) {
    MBJ_JOB *done;
    mbj_c_turn(&r->seat->seat);
    while ((done = mbj_collect_job(r->seat)) != NULL)
        note(done);
    if (r->seat->next != r->seat->first && micros_now() - r->posted[r->seat->first % MBJ_MAX_JOBS] > r->crew->most_micros)
        mbj_c_settle(&r->seat->seat);
}

static void *receive(void *self) {
    struct receiver *r = (struct receiver *)self;
    const struct file *file = &r->crew->file;
    MBJ_JOB *done;
    size_t posted = 0;
    for (size_t i = 0; i < file->count && r->status == 0; i++) {
        if (!is_own(r, i))
            continue;
        if (!post(r, &file->jobs[i]))
            r->status = NO_MEMORY;
        if (++posted % BURST == 0)
            work(r);
    }
    while ((done = mbj_drain(r->seat)) != NULL)
        note(done);
    mbj_leave_seat(r->seat);
    return NULL;
}

static void *serve(void *self) {
    struct worker *w = (struct worker *)self;
    mbj_serve(w->seat, &w->crew->stop, NULL, NULL);
    return NULL;
}

/* Starts the threads and waits for them. One that can't be started is left out: a receiver's jobs are then done here. */
static void work_together(struct crew *crew, struct receiver *receivers, struct worker *workers) {
    uint32_t served = 0, received = 0;
    while (served < crew->workers && pthread_create(&workers[served].thread, NULL, serve, &workers[served]) == 0)
        served++;
    while (received < crew->receivers && pthread_create(&receivers[received].thread, NULL, receive, &receivers[received]) == 0)
        received++;
    for (uint32_t i = received; i < crew->receivers; i++)
        receive(&receivers[i]);
    for (uint32_t i = 0; i < received; i++)
        pthread_join(receivers[i].thread, NULL);
    __atomic_store_n(&crew->stop, true, __ATOMIC_RELEASE);
    for (uint32_t i = 0; i < served; i++)
        pthread_join(workers[i].thread, NULL);
}

static void print_all(const struct crew *crew, const struct receiver *receivers) {
    for (uint32_t t = 0; t < crew->receivers; t++)
        for (size_t i = 0; i < crew->file.count; i++)
            if (is_own(&receivers[t], i))
                print_result(&crew->file.jobs[i].job, crew->file.jobs);
}

/* Makes the front, has the jobs done, and frees the workers' seats: the receivers have left theirs. */
static int run_over(struct crew *crew, struct mbj_seat *places, MBJ_SEAT *seats, struct receiver *receivers, struct worker *workers) {
    int status = 0;
    if (mbj_front_new(crew->receivers, crew->workers, NULL, places, crew->receivers + crew->workers) != MBJ_ERR_NONE)
        return NO_MEMORY;
    for (uint32_t i = 0; i < crew->receivers; i++) {
        mbj_take_seat(&seats[i], &places[i]);
        receivers[i].crew = crew;
        receivers[i].seat = &seats[i];
        receivers[i].number = i;
    }
    for (uint32_t i = 0; i < crew->workers; i++) {
        workers[i].crew = crew;
        workers[i].seat = &places[crew->receivers + i];
    }
    work_together(crew, receivers, workers);
    for (uint32_t i = 0; i < crew->workers; i++)
        mbj_c_seat_free(workers[i].seat);
    for (uint32_t i = 0; i < crew->receivers; i++)
        status = receivers[i].status != 0 ? receivers[i].status : status;
    if (status == 0)
        print_all(crew, receivers);
    return status;
}

static int run(struct crew *crew) {
    static struct mbj_seat places[MBJ_MAX_SUBMITTERS + MBJ_MAX_WORKERS];
    static struct receiver receivers[MBJ_MAX_SUBMITTERS];
    static struct worker workers[MBJ_MAX_WORKERS];
    int status = read_text(&crew->file);
    if (status == 0)
        status = read_jobs(&crew->file);
    if (status != 0)
        return status;
    for (size_t i = 0; i < crew->file.count; i++) {
        struct file_job *given = &crew->file.jobs[i];
        given->job.auth_tag_output = given->tag;
        given->job.user_data = given;
    }
    MBJ_SEAT *seats = (MBJ_SEAT *)calloc(crew->receivers, sizeof *seats);
    status = seats == NULL ? NO_MEMORY : run_over(crew, places, seats, receivers, workers);
    free(seats);
    return status;
}

/* A number from least to most; false if the word is none. */
static bool read_count(const char *word, uint64_t least, uint64_t most, uint64_t *count) {
    struct field field = {(char *)(uintptr_t)word, strlen(word)};
    return read_number(field, count) && *count >= least && *count <= most;
}

int main(int argc, char **argv) {
    struct crew crew = {{NULL, 0, NULL, 0, 0}, 0, 0, 200, false, false};
    uint64_t receivers = 0, workers = 0;
    if (argc < 3 || argc > 5 || !read_count(argv[1], 1, MBJ_MAX_SUBMITTERS, &receivers) ||
        !read_count(argv[2], 0, MBJ_MAX_WORKERS, &workers) || (argc > 3 && !read_count(argv[3], 0, 99999, &crew.most_micros)) ||
        (argc > 4 && strcmp(argv[4], "key") != 0)) {
        fprintf(stderr, "usage: crew R W [D [key]], R 1 to %d, W 0 to %d, D microseconds\n", MBJ_MAX_SUBMITTERS, MBJ_MAX_WORKERS);
        return WRONG_ARGUMENTS;
    }
    crew.receivers = (uint32_t)receivers;
    crew.workers = (uint32_t)workers;
    crew.is_by_key = argc > 4;
    return end_file(&crew.file, run(&crew));
}
