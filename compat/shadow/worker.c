#include "worker.h"
#include "counts.h"
#include "due.h"
#include "keys.h"
#include "parts.h"
#include "proved.h"
#include "report.h"
#include "run.h"
#include "selftest.h"
#include "settings.h"
#include "status.h"
#include "take.h"
#include "verdict.h"

#include <errno.h>
#include <pthread.h>
#include <sched.h>
#include <signal.h>
#include <stdlib.h>
#include <string.h>
#include <time.h>

/* How long the background thread sleeps if it found nothing, and after how many such rounds it finishes jobs that wait for lanes. The
 * bytes of samples that wait so, after which it does so too; and how many samples of a feed it takes in a round. */
enum { SLEEP_NANOSECONDS = 10000000, ROUNDS_TO_REST = 10, MOST_WAITING_BYTES = 8 << 20, MOST_OF_ROUND = 1024 };

/* A sample that the proved library has: the sample itself, and behind it the copy of its image. */
struct task {
    _Alignas(RECORD_LINE) size_t len;
    uint8_t *image;
};

/* One at a time works; what is below is its. */
static pthread_mutex_t work_lock = PTHREAD_MUTEX_INITIALIZER;
static IMB_MGR *proved_manager;
static struct direct proved_calls;
static unsigned waiting_tasks;
static size_t waiting_bytes;
static bool is_unable;   /* there is no proved manager, which was told */
static bool has_started; /* the library was loaded: if Intel's can't be, the process ends before that */

static const struct sample *sample_of(const struct task *task) {
    return (const struct sample *)(const void *)(task + 1);
}

/* ---- the proved library ---- */

static bool has_manager(void) {
    if (proved_manager != NULL || is_unable)
        return proved_manager != NULL;
    proved_manager = proved_alloc_mb_mgr(0);
    if (proved_manager != NULL) {
        proved_init_mb_mgr_auto(proved_manager, NULL);
        direct_of_manager(&proved_calls, proved_manager);
    } else {
        is_unable = true;
        log_line("there is no memory for the proved library's manager: nothing is compared");
    }
    return proved_manager != NULL;
}

static struct task *make_task(const struct sample *sample) {
    size_t len = (sizeof(struct task) + sample->size + sample->image.len + RECORD_LINE) / RECORD_LINE * RECORD_LINE;
    struct task *task = aligned_alloc(RECORD_LINE, len);
    if (task == NULL)
        return NULL;
    task->len = len;
    memcpy(task + 1, sample, sample->size);
    task->image = (uint8_t *)(task + 1) + sample->size;
    memcpy(task->image, bytes_of(sample, sample->image), sample->image.len);
    return task;
}

static void end_task(struct task *task, IMB_STATUS status, int error) {
    judge(sample_of(task), &(struct made){task->image, status, error});
    wipe(task, task->len);
    free(task);
}

static void take_back(const IMB_JOB *job) {
    struct task *task = job->user_data;
    waiting_tasks--;
    waiting_bytes -= task->len;
    end_task(task, job->status, 0);
}

static bool flush_one(void) {
    const IMB_JOB *job = waiting_tasks == 0 ? NULL : proved_manager->flush_job(proved_manager);
    if (job != NULL)
        take_back(job);
    return job != NULL;
}

static void flush_all(void) {
    while (flush_one())
        continue;
}

/* The job waits until its lanes are full. */
static void submit_task(struct task *task) {
    IMB_MGR *m = proved_manager;
    IMB_JOB *job = m->get_next_job(m);
    if (job == NULL && flush_one())
        job = m->get_next_job(m);
    if (job == NULL) {
        end_task(task, IMB_STATUS_INTERNAL_ERROR, 0);
        return;
    }
    job_of_sample(job, sample_of(task), task->image);
    job->user_data = task;
    waiting_tasks++;
    waiting_bytes += task->len;
    job = is_checked_job(sample_of(task)) ? m->submit_job(m) : m->submit_job_nocheck(m);
    for (; job != NULL; job = m->get_completed_job(m))
        take_back(job);
    while (waiting_bytes > MOST_WAITING_BYTES && flush_one())
        continue;
}

static void do_sample(const struct sample *sample) {
    struct task *task = has_manager() ? make_task(sample) : NULL;
    if (task == NULL) {
        count_more(COUNT_DROPPED, 1);
    } else if (sample->is_unsent) {
        end_task(task, IMB_STATUS_INVALID_ARGS, sample->error);
    } else if (sample->kind == KIND_JOB) {
        submit_task(task);
    } else {
        run_call(&proved_calls, sample_of(task), task->image);
        end_task(task, IMB_STATUS_COMPLETED, 0);
    }
}

/* The samples of a feed. Tells in the number how many there were. */
static void empty_feed(struct feed *feed, void *number) {
    const struct sample *sample;
    for (unsigned i = 0; i < MOST_OF_ROUND && (sample = records_first(&feed->records)) != NULL; i++) {
        do_sample(sample);
        records_drop(&feed->records);
        ++*(unsigned *)number;
    }
}

/* ---- the background thread ---- */

enum { THREAD_NONE, THREAD_RUNS, THREAD_FAILED };

static atomic_int thread_is;
static cpu_set_t processors; /* those of the process when it was loaded: a program may give one to each of its own threads later */

static void *work(void *nothing) {
    unsigned idle_rounds = 0;
    for (;;) {
        unsigned done = 0;
        pthread_mutex_lock(&work_lock);
        feeds_each(empty_feed, &done);
        idle_rounds = done == 0 ? idle_rounds + 1 : 0;
        if (idle_rounds == ROUNDS_TO_REST)
            flush_all();
        write_status(false);
        pthread_mutex_unlock(&work_lock);
        if (done == 0)
            nanosleep(&(struct timespec){0, SLEEP_NANOSECONDS}, NULL);
    }
    return nothing;
}

/* Signals are the program's own threads'. */
static bool begin_thread(void) {
    enum { STACK_BYTES = 1 << 20 };
    pthread_t thread;
    pthread_attr_t attributes;
    sigset_t all, before;
    if (pthread_attr_init(&attributes) != 0)
        return false;
    sigfillset(&all);
    pthread_sigmask(SIG_SETMASK, &all, &before);
    pthread_attr_setdetachstate(&attributes, PTHREAD_CREATE_DETACHED);
    pthread_attr_setstacksize(&attributes, STACK_BYTES);
    if (CPU_COUNT(&processors) != 0)
        pthread_attr_setaffinity_np(&attributes, sizeof processors, &processors);
    bool has_begun = pthread_create(&thread, &attributes, work, NULL) == 0;
    pthread_sigmask(SIG_SETMASK, &before, NULL);
    pthread_attr_destroy(&attributes);
    return has_begun;
}

static void ensure_thread(void) {
    int none = THREAD_NONE;
    if (atomic_load_explicit(&thread_is, memory_order_relaxed) != THREAD_NONE ||
        !atomic_compare_exchange_strong(&thread_is, &none, THREAD_RUNS))
        return;
    if (begin_thread())
        return;
    atomic_store(&thread_is, THREAD_FAILED);
    log_line("a thread can't be begun: samples are dropped. MBJ_SHADOW_THREAD=0 does the work in the program's threads");
}

void worker_wake(struct feed *feed) {
    unsigned done = 0;
    if (settings.has_thread) {
        ensure_thread();
        return;
    }
    pthread_mutex_lock(&work_lock);
    empty_feed(feed, &done);
    if (write_status(false)) {
        feeds_each(empty_feed, &done);
        flush_all();
    }
    pthread_mutex_unlock(&work_lock);
}

void worker_rest(void) {
    if (settings.has_thread)
        return;
    pthread_mutex_lock(&work_lock);
    flush_all();
    pthread_mutex_unlock(&work_lock);
}

/* ---- the process ---- */

/* The thread that did the work isn't in the child, nor are the others whose samples wait; their memory is left as it is. */
static void forget_in_child(void) {
    pthread_mutex_init(&work_lock, NULL);
    proved_manager = NULL;
    waiting_tasks = 0;
    waiting_bytes = 0;
    is_unable = false;
    atomic_store(&thread_is, THREAD_NONE);
    keep_process();
    counts_forget();
    due_forget();
    feeds_forget();
    parts_forget_all();
    tables_forget_lock();
    report_forget();
}

__attribute__((constructor(SHADOW_START))) static void start(void) {
    has_started = true;
    if (sched_getaffinity(0, sizeof processors, &processors) != 0)
        CPU_ZERO(&processors);
    if (pthread_atfork(NULL, NULL, forget_in_child) != 0)
        log_line("a handler of forks can't be set: a child that goes on with a manager may tell mismatches that are none");
    if (!has_passed_selftest() && settings.every != 0) {
        settings.every = 0;
        log_line("the proved library doesn't give its known answers on this processor: nothing is compared");
    }
}

/* At the end of the process what is there is compared. A lock that isn't let go means that the process ends within the checker. */
__attribute__((destructor)) static void finish(void) {
    struct timespec until;
    unsigned done = 0;
    clock_gettime(CLOCK_REALTIME, &until);
    until.tv_sec++;
    if (!has_started || pthread_mutex_timedlock(&work_lock, &until) != 0)
        return;
    feeds_each(empty_feed, &done);
    flush_all();
    count_seen();
    write_status(true);
    pthread_mutex_unlock(&work_lock);
}
