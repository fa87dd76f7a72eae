/* A library with the ABI of the intel-ipsec-mb whose header is included, 1.3 or 2.0, loaded by its path, so that a program has two of them
 * beside each other; and numbers that are drawn. */
#ifndef DROPIN_LIBRARY_H
#define DROPIN_LIBRARY_H

#define NO_COMPAT_IMB_API_053
#include <intel-ipsec-mb.h>
#include <stdbool.h>

/* What the tests draw or ask by the version: 2.0 has sessions. */
#define IS_VERSION_2 (IMB_VERSION_NUM >= IMB_VERSION(2, 0, 0))

struct library {
    const char *path;
    void *loaded;
    IMB_MGR *m;
    IMB_MGR *(*alloc)(uint64_t);
    void (*release)(IMB_MGR *);
    void (*init)(IMB_MGR *, IMB_ARCH *);
    IMB_MGR *(*set_pointers)(void *, uint64_t, unsigned);
    size_t (*manager_size)(void);
    int (*error)(IMB_MGR *);
    const char *(*text)(int);
    uint32_t (*set_session)(IMB_MGR *, IMB_JOB *); /* NULL in 1.3 */
};

/* Loads a library and makes a manager. Ends the program if it can't. */
void load_library(struct library *library, const char *path);

/* Sets the numbers that are drawn from here on, by their seed. */
void start_drawing(uint64_t seed);

/* The next number, and the next one below n, which isn't 0. */
uint64_t draw(void);
uint64_t draw_below(uint64_t n);
void draw_bytes(uint8_t *at, size_t len);

#endif
