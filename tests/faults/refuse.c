/* Refuses one allocation of the program that it is preloaded to: that with the number in MBJ_REFUSE, from 1 on, of all that are asked
   for in any thread. When it does, it makes the file that MBJ_TOLD names, since a program may end without a call of its own. It needs
   glibc. */
#include <errno.h>
#include <fcntl.h>
#include <stdatomic.h>
#include <stdlib.h>
#include <unistd.h>

void *__libc_malloc(size_t len);
void *__libc_calloc(size_t count, size_t len);
void *__libc_realloc(void *old, size_t len);

static atomic_long allocations;
static long refused;

__attribute__((constructor)) static void begin(void) {
    const char *number = getenv("MBJ_REFUSE");
    refused = number == NULL ? 0 : strtol(number, NULL, 10);
    atomic_store(&allocations, 0);
}

static int is_refused(void) {
    if (atomic_fetch_add(&allocations, 1) + 1 != refused)
        return 0;
    const char *name = getenv("MBJ_TOLD");
    if (name != NULL)
        close(open(name, O_WRONLY | O_CREAT, 0600));
    errno = ENOMEM;
    return 1;
}

void *malloc(size_t len) {
    return is_refused() ? NULL : __libc_malloc(len);
}

void *calloc(size_t count, size_t len) {
    return is_refused() ? NULL : __libc_calloc(count, len);
}

void *realloc(void *old, size_t len) {
    return is_refused() ? NULL : __libc_realloc(old, len);
}
