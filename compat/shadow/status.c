#include "status.h"
#include "code_names.h"
#include "counts.h"
#include "intel.h"
#include "mbj.h"
#include "settings.h"

#include <errno.h>
#include <stdio.h>
#include <string.h>
#include <time.h>
#include <unistd.h>

enum { MOST_PATH = 4096 };

/* A name may have %p, which stands for the number of the process: so several write files of their own. */
static bool put_path(char *path, const char *ending) {
    const char *number = strstr(settings.status, "%p");
    int len = number == NULL
                  ? snprintf(path, MOST_PATH, "%s%s", settings.status, ending)
                  : snprintf(path, MOST_PATH, "%.*s%d%s%s", (int)(number - settings.status), settings.status, getpid(), number + 2, ending);
    return len > 0 && len < MOST_PATH;
}

static void put_skipped(FILE *file) {
    for (unsigned code = 0; code < MBJ_SHADOW_CIPHERS; code++)
        if (count_of(COUNT_SKIPPED_CIPHERS + code) != 0)
            fprintf(file, "skipped %s %llu\n", name_of_cipher(code), (unsigned long long)count_of(COUNT_SKIPPED_CIPHERS + code));
    for (unsigned code = 0; code < MBJ_SHADOW_HASHES; code++)
        if (count_of(COUNT_SKIPPED_HASHES + code) != 0)
            fprintf(file, "skipped %s %llu\n", name_of_hash(code), (unsigned long long)count_of(COUNT_SKIPPED_HASHES + code));
}

static void put_counts(FILE *file) {
    static const struct {
        const char *name;
        enum count count;
    } lines[] = {
        {"seen", COUNT_SEEN},           {"sampled", COUNT_SAMPLED},       {"compared", COUNT_COMPARED},
        {"differing", COUNT_DIFFERING}, {"refused-alike", COUNT_REFUSED_ALIKE}, {"dropped", COUNT_DROPPED},
        {"over-rate", COUNT_OVER_RATE}, {"unspecified", COUNT_UNSPECIFIED}, {"untold", COUNT_UNTOLD},
        {"skipped", COUNT_SKIPPED},
    };
    for (size_t i = 0; i < sizeof lines / sizeof *lines; i++)
        fprintf(file, "%s %llu\n", lines[i].name, (unsigned long long)count_of(lines[i].count));
    put_skipped(file);
}

static void put_process(FILE *file) {
    char text[32];
    time_t now = time(NULL);
    struct tm parts;
    strftime(text, sizeof text, "%Y-%m-%dT%H:%M:%SZ", gmtime_r(&now, &parts));
    fprintf(file, "time %s\nprocess %d\nlibrary %s %s\n", text, getpid(), intel_path, intel.version_text());
    fprintf(file, "proved mbj " MBJ_VERSION_STR "\nevery %u\nrate %llu\n", settings.every, (unsigned long long)settings.rate);
}

/* Under another name first, so that who reads it finds a whole one. */
static bool write_file(void) {
    char path[MOST_PATH], temporary[MOST_PATH];
    if (!put_path(path, "") || !put_path(temporary, ".new"))
        return false;
    FILE *file = fopen(temporary, "we");
    if (file == NULL)
        return false;
    put_process(file);
    put_counts(file);
    bool is_written = ferror(file) == 0;
    return (fclose(file) == 0) & is_written && rename(temporary, path) == 0;
}

bool write_status(bool is_end) {
    static time_t written;
    static bool is_reported;
    struct timespec now;
    clock_gettime(CLOCK_MONOTONIC_COARSE, &now);
    if (now.tv_sec == written && !is_end)
        return false;
    written = now.tv_sec;
    if (settings.status != NULL && !write_file() && !is_reported) {
        is_reported = true;
        log_line("the status can't be written to %s: %s", settings.status, strerror(errno));
    }
    return true;
}
