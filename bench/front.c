#include "front.h"
#include "bench.h"
#include "mbj_seat.h"

#include <pthread.h>
#include <stdio.h>
#include <stdlib.h>
#include <string.h>
#include <time.h>

enum { THREADS = 4, PACKET_BYTES = 1500, TAG_BYTES = 32, BURST = 32 };

/* How many jobs each thread is given. Both loads have as many jobs. */
struct load {
    const char *name;
    size_t counts[THREADS];
};

static const struct load loads[] = {{"8:1:1:1", {8192, 1024, 1024, 1024}}, {"even", {2816, 2816, 2816, 2816}}};

/* What all threads of a pass share. */
struct pass {
    const struct load *load;
    pthread_barrier_t barrier;
    size_t at_work; /* how many threads haven't all their results */
    bool is_done;   /* whether none of them is at work */
};

struct member {
    struct pass *pass;
    size_t number, given;
    MBJ_MGR *m;
    MBJ_SEAT *seat;
    pthread_t thread;
    double start, end;
    uint8_t packets[BATCH][PACKET_BYTES], tags[MBJ_MAX_JOBS][TAG_BYTES];
};

/* Of each packet, as a manager alone has it. All threads have the same packets. */
static uint8_t tags_of_packets[BATCH][TAG_BYTES];

static double now(void) {
    struct timespec t;
    clock_gettime(CLOCK_MONOTONIC, &t);
    return (double)t.tv_sec * 1e9 + (double)t.tv_nsec;
}

/* ---- jobs ---- */

static void fill(MBJ_JOB *job, struct member *member, size_t i) {
    mbj_job_auth(job, MBJ_AUTH_HMAC_SHA_256, keys.hmac, TAG_BYTES, member->packets[i % BATCH], PACKET_BYTES, 0, PACKET_BYTES,
                 member->tags[i % MBJ_MAX_JOBS], TAG_BYTES);
}

/* Results come in the order of the jobs. */
static void take(struct member *member, const MBJ_JOB *done) {
    size_t i = member->given++;
    if (done->status != MBJ_STATUS_COMPLETED)
        give_up(mbj_err_text(done->reason));
    if (done->auth_tag_output != member->tags[i % MBJ_MAX_JOBS] ||
        memcmp(done->auth_tag_output, tags_of_packets[i % BATCH], TAG_BYTES) != 0)
        give_up("a front and a manager have other results");
}

/* ---- a manager for each thread ---- */

static void do_by_manager(struct member *member, size_t count) {
    for (size_t i = 0; i < count; i++) {
        fill(mbj_get_next_job(member->m), member, i);
        for (const MBJ_JOB *done = mbj_submit_job(member->m); done != NULL; done = mbj_get_completed_job(member->m))
            take(member, done);
    }
    for (const MBJ_JOB *done; (done = mbj_flush_job(member->m)) != NULL;)
        take(member, done);
}

/* ---- one front ---- */

/* The next job of the seat. If 512 are out, the earliest one is given back first. */
static MBJ_JOB *next_job(struct member *member) {
    MBJ_JOB *job;
    while ((job = mbj_seat_get_next_job(member->seat)) == NULL)
        take(member, mbj_drain(member->seat));
    return job;
}

static void do_by_front(struct member *member, size_t count) {
    const MBJ_JOB *done;
    for (size_t i = 0; i < count; i++) {
        fill(next_job(member), member, i);
        if (mbj_post_job(member->seat) != MBJ_ERR_NONE)
            give_up("a job can't be posted");
        if ((i + 1) % BURST != 0)
            continue;
        mbj_c_turn(&member->seat->seat);
        while ((done = mbj_collect_job(member->seat)) != NULL)
            take(member, done);
    }
    while ((done = mbj_drain(member->seat)) != NULL)
        take(member, done);
}

/* ---- a pass ---- */

/* A thread with a seat goes on with jobs of the others, until these have all their results too. */
static void *run(void *at) {
    struct member *member = (struct member *)at;
    struct pass *pass = member->pass;
    size_t count = pass->load->counts[member->number];
    member->given = 0;
    pthread_barrier_wait(&pass->barrier);
    member->start = now();
    if (member->seat != NULL)
        do_by_front(member, count);
    else
        do_by_manager(member, count);
    member->end = now();
    if (member->given != count)
        give_up("a thread lacks jobs");
    if (__atomic_sub_fetch(&pass->at_work, 1, __ATOMIC_ACQ_REL) == 0)
        __atomic_store_n(&pass->is_done, true, __ATOMIC_RELEASE);
    if (member->seat != NULL)
        mbj_serve(&member->seat->seat, &pass->is_done, NULL, NULL);
    return NULL;
}

/* Nanoseconds from the first thread's start until the last one has all its results. */
static double time_pass(struct member *members, const struct load *load) {
    struct pass pass;
    double start = 1e18, end = 0;
    pass.load = load;
    pass.at_work = THREADS;
    pass.is_done = false;
    if (pthread_barrier_init(&pass.barrier, NULL, THREADS) != 0)
        give_up("out of memory");
    for (size_t i = 0; i < THREADS; i++) {
        members[i].pass = &pass;
        if (pthread_create(&members[i].thread, NULL, run, &members[i]) != 0)
            give_up("no thread");
    }
    for (size_t i = 0; i < THREADS; i++) {
        pthread_join(members[i].thread, NULL);
        start = members[i].start < start ? members[i].start : start;
        end = members[i].end > end ? members[i].end : end;
    }
    pthread_barrier_destroy(&pass.barrier);
    return end - start;
}

/* ---- threads with managers, and threads with seats ---- */

static struct member *make_members(void) {
    struct member *members = (struct member *)calloc(THREADS, sizeof *members);
    if (members == NULL)
        give_up("out of memory");
    for (size_t k = 0; k < THREADS; k++) {
        members[k].number = k;
        for (size_t i = 0; i < BATCH; i++)
            for (size_t j = 0; j < PACKET_BYTES; j++)
                members[k].packets[i][j] = (uint8_t)(i * 7 + j);
    }
    return members;
}

static struct member *make_apart(void) {
    struct member *members = make_members();
    for (size_t k = 0; k < THREADS; k++)
        if ((members[k].m = mbj_alloc_mgr()) == NULL)
            give_up("no manager of this library");
    return members;
}

static struct member *make_sharing(void) {
    struct member *members = make_members();
    struct mbj_seat places[THREADS] = {MBJ_SEAT_INIT, MBJ_SEAT_INIT, MBJ_SEAT_INIT, MBJ_SEAT_INIT};
    if (mbj_front_new(THREADS, 0, NULL, places, THREADS) != MBJ_ERR_NONE)
        give_up("no front of this library");
    for (size_t k = 0; k < THREADS; k++) {
        if ((members[k].seat = (MBJ_SEAT *)malloc(sizeof(MBJ_SEAT))) == NULL)
            give_up("out of memory");
        mbj_take_seat(members[k].seat, &places[k]);
    }
    return members;
}

static void free_members(struct member *members) {
    for (size_t k = 0; k < THREADS; k++) {
        mbj_free_mgr(members[k].m);
        if (members[k].seat != NULL)
            mbj_leave_seat(members[k].seat);
        free(members[k].seat);
    }
    free(members);
}

/* By a call for each packet, without lanes of others. */
static void find_tags(struct member *member) {
    for (size_t i = 0; i < BATCH; i++) {
        const MBJ_JOB *done;
        fill(mbj_get_next_job(member->m), member, i);
        if ((done = mbj_submit_job(member->m)) == NULL)
            done = mbj_flush_job(member->m);
        memcpy(tags_of_packets[i], done->auth_tag_output, TAG_BYTES);
    }
}

static void print_row(const struct load *load, struct member *apart, struct member *shared, int passes) {
    double least_apart = 1e18, least_shared = 1e18, count = 0;
    for (int i = 0; i < passes; i++) {
        double took_apart = time_pass(apart, load), took_shared = time_pass(shared, load);
        least_apart = took_apart < least_apart ? took_apart : least_apart;
        least_shared = took_shared < least_shared ? took_shared : least_shared;
    }
    for (size_t k = 0; k < THREADS; k++)
        count += (double)load->counts[k];
    printf("%-18s %11s %9.0f %9.0f %6.2f\n", "hmac-sha256", load->name, least_apart / count, least_shared / count,
           least_apart / least_shared);
    fflush(stdout);
}

void time_front(int passes) {
    struct member *apart = make_apart(), *shared = make_sharing();
    find_tags(apart);
    printf("%-18s %11s %9s %9s %6s\n", "jobs", "load", "apart ns", "front ns", "times");
    for (size_t i = 0; i < sizeof loads / sizeof *loads; i++)
        print_row(&loads[i], apart, shared, passes);
    free_members(apart);
    free_members(shared);
}
