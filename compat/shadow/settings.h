/* What the environment asks of the checker, read once when the library is loaded: a program's own threads may change it later. */
#ifndef SHADOW_SETTINGS_H
#define SHADOW_SETTINGS_H

#include <stdbool.h>
#include <stdint.h>

struct settings {
    const char *library; /* MBJ_SHADOW_LIBRARY: the path of Intel's library, or NULL */
    uint32_t every;      /* MBJ_SHADOW_EVERY: one job in so many is sampled; 0 samples nothing */
    uint64_t rate;       /* MBJ_SHADOW_RATE: at most so many bytes a second are sampled; 0 is no bound */
    bool has_thread;     /* MBJ_SHADOW_THREAD: whether the work is done in a thread of its own */
    bool stops;          /* MBJ_SHADOW_STOP: whether the first mismatch ends the process */
    const char *status;  /* MBJ_SHADOW_STATUS: the file of the counters, or NULL */
    const char *folder;  /* MBJ_SHADOW_FOLDER: where a mismatch is written with its keys, or NULL */
};

extern struct settings settings;

/* Prints one line on standard error, with the library's name in front and a line's end behind. */
void log_line(const char *format, ...) __attribute__((format(printf, 1, 2)));

/* The order in which the library's constructors run, behind those of the proved code. */
enum { SHADOW_SETTINGS = 110, SHADOW_INTEL, SHADOW_START };

#endif
