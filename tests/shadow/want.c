/* want CHECKER memory|thread: the program's own functions refuse the checker memory or a thread, as for want of them. Jobs come back as
 * without it; what isn't compared is counted as dropped. */
#include "counted.h"
#include "sample.h"

#include <dlfcn.h>
#include <errno.h>
#include <pthread.h>
#include <stdio.h>
#include <string.h>

enum { JOBS = 500 };

static bool has_no_memory, has_no_thread;
static struct library library;
static struct keys keys;

/* The checker's calls come here, since the program is earlier in its scope. */
void *aligned_alloc(size_t alignment, size_t len) {
    void *at = NULL;
    return has_no_memory || posix_memalign(&at, alignment, len) != 0 ? NULL : at;
}

int pthread_create(pthread_t *thread, const pthread_attr_t *attributes, void *(*start)(void *), void *argument) {
    int (*real)(pthread_t *, const pthread_attr_t *, void *(*)(void *), void *);
    *(void **)&real = dlsym(RTLD_NEXT, "pthread_create");
    return has_no_thread ? EAGAIN : real(thread, attributes, start, argument);
}

/* How many jobs came back done. */
static unsigned do_jobs(const struct sample *sample, uint8_t *memory) {
    IMB_MGR *m = library.m;
    unsigned done = 0;
    for (int i = 0; i < JOBS; i++) {
        fill_job(m, IMB_GET_NEXT_JOB(m), &keys, sample, memory);
        for (IMB_JOB *job = IMB_SUBMIT_JOB(m); job != NULL; job = IMB_GET_COMPLETED_JOB(m))
            done += job->status == IMB_STATUS_COMPLETED;
    }
    for (IMB_JOB *job; (job = IMB_FLUSH_JOB(m)) != NULL;)
        done += job->status == IMB_STATUS_COMPLETED;
    return done;
}

int main(int argc, char **argv) {
    struct sample sample;
    if (argc < 3)
        return 2;
    load_library(&library, argv[1]);
    has_no_memory = strcmp(argv[2], "memory") == 0;
    has_no_thread = strcmp(argv[2], "thread") == 0;
    start_drawing(5);
    do
        draw_sample(&sample);
    while (sample.is_faulty || sample.cipher != IMB_CIPHER_CNTR || sample.hash != IMB_AUTH_NULL || sample.dst == sample.src + sample.cipher_off);
    unsigned done = do_jobs(&sample, calloc(1, sample.memory));
    struct mbj_shadow_counters counts = counts_now(&library);
    printf("%u jobs done; ", done);
    print_counts(&counts);
    return done != JOBS || counts.differing != 0 || counts.compared != 0 || counts.dropped == 0;
}
