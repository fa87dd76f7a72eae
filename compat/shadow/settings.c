#include "settings.h"

#include <errno.h>
#include <stdarg.h>
#include <stdio.h>
#include <stdlib.h>
#include <string.h>
#include <unistd.h>

enum { DEFAULT_EVERY = 1000, DEFAULT_RATE = 10000000 };

struct settings settings;

/* One write, so that lines of several threads don't mix. */
void log_line(const char *format, ...) {
    char line[512] = "libIPSec_MB.so.1 of mbj: ";
    size_t used = strlen(line);
    va_list arguments;
    va_start(arguments, format);
    int len = vsnprintf(line + used, sizeof line - used - 1, format, arguments);
    va_end(arguments);
    if (len < 0)
        return;
    used += (size_t)len < sizeof line - used - 1 ? (size_t)len : sizeof line - used - 2;
    line[used++] = '\n';
    (void)!write(STDERR_FILENO, line, used);
}

/* A copy, since the environment may be overwritten. A program with more rights than its user isn't told by the user what to load and where
 * to write. */
static const char *text_of(const char *name) {
    const char *text = secure_getenv(name);
    return text != NULL && *text != '\0' ? strdup(text) : NULL;
}

static uint64_t number_of(const char *name, uint64_t most, uint64_t otherwise) {
    const char *text = secure_getenv(name);
    char *end;
    if (text == NULL || *text == '\0')
        return otherwise;
    errno = 0;
    uint64_t number = strtoull(text, &end, 10);
    if (*text >= '0' && *text <= '9' && *end == '\0' && errno == 0 && number <= most)
        return number;
    log_line("%s is no number from 0 to %llu, and is taken for %llu", name, (unsigned long long)most, (unsigned long long)otherwise);
    return otherwise;
}

__attribute__((constructor(SHADOW_SETTINGS))) static void read_settings(void) {
    settings.library = text_of("MBJ_SHADOW_LIBRARY");
    settings.every = (uint32_t)number_of("MBJ_SHADOW_EVERY", UINT32_MAX / 2, DEFAULT_EVERY);
    settings.rate = number_of("MBJ_SHADOW_RATE", UINT64_MAX, DEFAULT_RATE);
    settings.has_thread = number_of("MBJ_SHADOW_THREAD", 1, 1) == 1;
    settings.stops = number_of("MBJ_SHADOW_STOP", 1, 0) == 1;
    settings.status = text_of("MBJ_SHADOW_STATUS");
    settings.folder = text_of("MBJ_SHADOW_FOLDER");
}
