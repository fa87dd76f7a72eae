#include "library.h"

#include <dlfcn.h>
#include <stdio.h>
#include <string.h>

static void *find(const struct library *library, const char *name) {
    void *at = dlsym(library->loaded, name);
    if (at == NULL) {
        fprintf(stderr, "%s has no %s\n", library->path, name);
        exit(2);
    }
    return at;
}

void load_library(struct library *library, const char *path) {
    library->path = path;
    library->loaded = dlopen(path, RTLD_NOW | RTLD_LOCAL);
    if (library->loaded == NULL) {
        fprintf(stderr, "%s\n", dlerror());
        exit(2);
    }
    *(void **)&library->alloc = find(library, "alloc_mb_mgr");
    *(void **)&library->release = find(library, "free_mb_mgr");
    *(void **)&library->init = find(library, "init_mb_mgr_auto");
    *(void **)&library->set_pointers = find(library, "imb_set_pointers_mb_mgr");
    *(void **)&library->manager_size = find(library, "imb_get_mb_mgr_size");
    *(void **)&library->error = find(library, "imb_get_errno");
    *(void **)&library->text = find(library, "imb_get_strerror");
    *(void **)&library->set_session = IS_VERSION_2 ? find(library, "imb_set_session") : NULL;
    library->m = library->alloc(0);
    if (library->m == NULL) {
        fprintf(stderr, "%s: %s\n", path, library->text(library->error(NULL)));
        exit(2);
    }
    library->init(library->m, NULL);
}

/* xorshift64* (Vigna 2016). */
static uint64_t state = 1;

uint64_t draw(void) {
    state ^= state >> 12;
    state ^= state << 25;
    state ^= state >> 27;
    return state * UINT64_C(0x2545f4914f6cdd1d);
}

void start_drawing(uint64_t seed) {
    state = seed * UINT64_C(0x9e3779b97f4a7c15) | 1;
    for (int i = 0; i < 16; i++)
        draw();
}

uint64_t draw_below(uint64_t n) {
    return (draw() >> 11) % n;
}

void draw_bytes(uint8_t *at, size_t len) {
    for (size_t i = 0; i < len; i++)
        at[i] = (uint8_t)(draw() >> 56);
}
