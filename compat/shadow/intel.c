/* Intel's library is opened by a path with a slash, since the checker has its soname and `dlopen` by name would find the checker. It looks
 * its own names up in itself first (RTLD_DEEPBIND): the checker has the same names, and is earlier in the program's scope. */
#include "intel.h"
#include "settings.h"

#include <dlfcn.h>
#include <stdbool.h>
#include <stdio.h>
#include <stdlib.h>
#include <string.h>
#include <sys/stat.h>

#define SONAME "libIPSec_MB.so.1"

/* Sanitizers refuse RTLD_DEEPBIND. Their tests open the checker so that its names are in no scope. */
#ifdef __SANITIZE_ADDRESS__
#define SHADOW_IS_SANITIZED
#endif
#ifdef __SANITIZE_THREAD__
#define SHADOW_IS_SANITIZED
#endif
#ifdef SHADOW_IS_SANITIZED
enum { OPEN_FLAGS = RTLD_NOW | RTLD_LOCAL };
#else
enum { OPEN_FLAGS = RTLD_NOW | RTLD_LOCAL | RTLD_DEEPBIND };
#endif

const char *intel_path;
struct intel intel;
static void *opened;

/* What the build made from Intel's library and its header: the places of the addresses that its names jump to, and the names, each ended by
 * a zero byte, those that the header declares first. */
extern void *forward_slots[];
extern const char forward_names[];
extern const uint32_t forward_declared, forward_all;

static void stop(const char *what, const char *which) {
    log_line("%s%s. The checker needs Intel's library of version " IMB_VERSION_STR ": give its path by MBJ_SHADOW_LIBRARY", what, which);
    exit(EXIT_FAILURE);
}

/* ---- where it is ---- */

static bool is_this_file(const char *path) {
    static const char here;
    Dl_info info;
    struct stat ours, other;
    return dladdr(&here, &info) != 0 && stat(info.dli_fname, &ours) == 0 && stat(path, &other) == 0 && ours.st_dev == other.st_dev &&
           ours.st_ino == other.st_ino;
}

/* Another copy of the checker would look for this one. */
static bool is_checker(void *file) {
    return dlsym(file, "mbj_shadow_counts") != NULL;
}

static void *open_in(const char *folder) {
    char path[4096];
    if (snprintf(path, sizeof path, "%s/" SONAME, folder) >= (int)sizeof path || is_this_file(path))
        return NULL;
    void *file = dlopen(path, OPEN_FLAGS);
    if (file == NULL || is_checker(file))
        return NULL;
    intel_path = strdup(path);
    return file;
}

/* The first other file of that name in the folders that the loader looks in for the program. */
static void *search(void) {
    void *program = dlopen(NULL, RTLD_LAZY), *found = NULL;
    Dl_serinfo size, *folders;
    if (program == NULL || dlinfo(program, RTLD_DI_SERINFOSIZE, &size) != 0 || (folders = malloc(size.dls_size)) == NULL)
        return NULL;
    if (dlinfo(program, RTLD_DI_SERINFOSIZE, folders) == 0 && dlinfo(program, RTLD_DI_SERINFO, folders) == 0)
        for (unsigned i = 0; i < folders->dls_cnt && found == NULL; i++)
            found = open_in(folders->dls_serpath[i].dls_name);
    free(folders);
    return found;
}

static void *open_given(const char *path) {
    void *file = strchr(path, '/') == NULL ? NULL : dlopen(path, OPEN_FLAGS);
    if (strchr(path, '/') == NULL)
        stop("MBJ_SHADOW_LIBRARY has no folder: ", path);
    if (file == NULL)
        stop("Intel's library can't be opened: ", dlerror());
    if (is_checker(file))
        stop("MBJ_SHADOW_LIBRARY names the checker itself: ", path);
    intel_path = path;
    return file;
}

/* ---- what it has ---- */

void *intel_function(const char *name) {
    void *at = dlsym(opened, name);
    if (at == NULL)
        stop("this library hasn't the function that the header declares: ", name);
    return at;
}

static void absent_name(void) {
    log_line("a function was called that %s hasn't, and that the header of its version doesn't declare", intel_path);
    abort();
}

static void fill_table(void) {
    const char *name = forward_names;
    for (uint32_t i = 0; i < forward_all; i++, name += strlen(name) + 1) {
        forward_slots[i] = i < forward_declared ? intel_function(name) : dlsym(opened, name);
        if (forward_slots[i] == NULL)
            *(void (**)(void))&forward_slots[i] = absent_name;
    }
}

#define FIND(field, name) *(void **)&intel.field = intel_function(#name)

static void find_functions(void) {
    FIND(manager_size, imb_get_mb_mgr_size);
    FIND(set_pointers, imb_set_pointers_mb_mgr);
    FIND(text_of_error, imb_get_strerror);
    FIND(version_text, imb_get_version_str);
    FIND(init[IMB_ARCH_SSE], init_mb_mgr_sse);
    FIND(init[IMB_ARCH_AVX], init_mb_mgr_avx);
    FIND(init[IMB_ARCH_AVX2], init_mb_mgr_avx2);
    FIND(init[IMB_ARCH_AVX512], init_mb_mgr_avx512);
    FIND(init_auto, init_mb_mgr_auto);
}

__attribute__((constructor(SHADOW_INTEL))) static void open_library(void) {
    unsigned (*version)(void);
    opened = settings.library != NULL ? open_given(settings.library) : search();
    if (opened == NULL)
        stop("no other " SONAME " is in the loader's folders", "");
    *(void **)&version = intel_function("imb_get_version");
    if (version() >> 8 != IMB_VERSION_NUM >> 8)
        stop("this library has another version: ", intel_path);
    fill_table();
    find_functions();
}
