/* child CHECKER: forks while samples wait and while the background thread works. The child goes on with the manager, begins a thread of its
 * own at its first sample, and counts from 0. */
#include "counted.h"
#include "sample.h"

#include <stdio.h>
#include <string.h>
#include <sys/wait.h>
#include <unistd.h>

enum { JOBS = 200, LEFT_OUT = 3, FORKS = 20 };

static struct library library;
static struct keys keys;
static struct sample sample;
static uint8_t *memory[JOBS];

static void submit(int from, int to) {
    IMB_MGR *m = library.m;
    for (int i = from; i < to; i++) {
        fill_job(m, IMB_GET_NEXT_JOB(m), &keys, &sample, memory[i]);
        for (IMB_JOB *job = IMB_SUBMIT_JOB(m); job != NULL; job = IMB_GET_COMPLETED_JOB(m))
            continue;
    }
}

static void flush(void) {
    while (IMB_FLUSH_JOB(library.m) != NULL)
        continue;
}

static int in_child(void) {
    struct mbj_shadow_counters counts = counts_now(&library);
    if (counts.sampled != 0)
        return 1;
    flush();
    submit(0, JOBS);
    flush();
    counts = counts_at_rest(&library);
    return counts.differing != 0 || counts.compared < JOBS || counts.compared + counts.dropped != counts.sampled;
}

int main(int argc, char **argv) {
    int failed = 0;
    if (argc < 2)
        return 2;
    load_library(&library, argv[1]);
    start_drawing(5);
    do
        draw_sample(&sample);
    while (sample.is_faulty || sample.cipher != IMB_CIPHER_CBC || sample.hash != IMB_AUTH_HMAC_SHA_1 || sample.memory > 1500);
    for (int i = 0; i < JOBS; i++)
        memory[i] = calloc(1, sample.memory);
    for (int i = 0; i < FORKS; i++) {
        submit(0, LEFT_OUT);
        pid_t child = fork();
        if (child == 0)
            _exit(in_child());
        flush();
        int status = 0;
        if (child < 0 || waitpid(child, &status, 0) != child || status != 0)
            failed++;
    }
    submit(0, JOBS);
    flush();
    struct mbj_shadow_counters counts = counts_at_rest(&library);
    printf("%d of %d children failed; ", failed, FORKS);
    print_counts(&counts);
    return failed != 0 || counts.differing != 0 || counts.compared < JOBS;
}
