/* forgotten CHECKER: makes managers in memory of its own, submits jobs, and frees the memory without a call while jobs and samples are in
 * it, ten thousand times; and begins texts in parts that it never ends. The process's memory may not grow. */
#include "counted.h"
#include "sample.h"

#include <stdio.h>
#include <string.h>
#include <unistd.h>

enum { ROUNDS = 10000, FIRST = 1000, JOBS = 3, MOST_GROWTH_PAGES = 2048, PAGE = 4096 };

static struct keys keys;
static struct sample samples[JOBS];
static uint8_t *memory[JOBS];

static long resident_pages(void) {
    long all = 0, resident = 0;
    FILE *file = fopen("/proc/self/statm", "r");
    if (file == NULL || fscanf(file, "%ld %ld", &all, &resident) != 2)
        exit(2);
    fclose(file);
    return resident;
}

static void draw_jobs(void) {
    for (int i = 0; i < JOBS; i++) {
        do
            draw_sample(&samples[i]);
        while (samples[i].is_faulty || samples[i].cipher != IMB_CIPHER_CBC || samples[i].hash != IMB_AUTH_HMAC_SHA_1 ||
               samples[i].cipher_len > 1000);
        memory[i] = calloc(1, samples[i].memory);
    }
}

static void begin_text(IMB_MGR *m) {
    struct gcm_context_data *context = malloc(sizeof *context);
    uint8_t iv[12] = {0}, text[64] = {0};
    IMB_AES128_GCM_PRE(m, samples[0].key, &keys.gcm);
    IMB_AES128_GCM_INIT(m, &keys.gcm, context, iv, iv, sizeof iv);
    IMB_AES128_GCM_ENC_UPDATE(m, &keys.gcm, context, text, text, sizeof text);
    free(context);
}

static void forget_a_manager(const struct library *library) {
    void *zone = aligned_alloc(64, (library->manager_size() + 63) / 64 * 64);
    IMB_MGR *m = library->set_pointers(zone, 0, 1);
    library->init(m, NULL);
    for (int i = 0; i < JOBS; i++) {
        fill_job(m, IMB_GET_NEXT_JOB(m), &keys, &samples[i], memory[i]);
        IMB_SUBMIT_JOB(m);
    }
    begin_text(m);
    free(zone);
}

int main(int argc, char **argv) {
    struct library library;
    long before = 0;
    if (argc < 2)
        return 2;
    load_library(&library, argv[1]);
    start_drawing(3);
    draw_jobs();
    for (int i = 0; i < ROUNDS; i++) {
        if (i == FIRST)
            before = resident_pages();
        forget_a_manager(&library);
    }
    long growth = resident_pages() - before;
    struct mbj_shadow_counters counts = counts_now(&library);
    printf("%d managers, %ld KB more at the end; ", ROUNDS, growth * PAGE / 1024);
    print_counts(&counts);
    library.release(library.m);
    for (int i = 0; i < JOBS; i++)
        free(memory[i]);
    return growth > MOST_GROWTH_PAGES || counts.differing != 0;
}
