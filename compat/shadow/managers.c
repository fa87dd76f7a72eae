/* Managers: Intel's, with room behind them, whose tables get the checker's functions once Intel's library has filled them. */
#include "behind.h"
#include "counts.h"
#include "intel.h"
#include "keys.h"
#include "settings.h"
#include "tables.h"
#include "worker.h"

#include <stdlib.h>
#include <string.h>

size_t behind_offset;

static size_t lines(size_t len) {
    return (len + RECORD_LINE - 1) / RECORD_LINE * RECORD_LINE;
}

__attribute__((constructor(SHADOW_START))) static void find_offset(void) {
    behind_offset = lines(intel.manager_size());
}

void forget_waiting(struct behind *b) {
    for (; records_first(&b->waiting) != NULL; records_drop(&b->waiting))
        count_more(COUNT_DROPPED, 1);
    b->expected = NULL;
}

/* Whether the memory is that of a manager that was made by imb_set_pointers_mb_mgr. */
static bool is_made(IMB_MGR *m) {
    return m != NULL && behind(m)->mark == BEHIND_MARK;
}

/* Intel's library finds the table as it left it: if it sets a manager up it may call by it. */
static void take_checking_calls_off(IMB_MGR *m) {
    struct behind *b = behind(m);
    forget_waiting(b);
    if (b->is_checked == 0)
        return;
    put_jobs(m, &b->calls);
    if (b->table != NO_TABLE)
        put_direct(m, &tables[b->table].calls);
    b->is_checked = 0;
}

static void put_checking_functions(IMB_MGR *m) {
    struct behind *b = behind(m);
    if (settings.every == 0 || m->submit_job == NULL || b->is_checked != 0)
        return;
    b->table = table_of_manager(m);
    put_checking_jobs(m);
    if (b->table != NO_TABLE)
        put_checking_calls(m, b->table);
    b->is_checked = 1;
}

/* ---- memory ---- */

IMB_DLL_EXPORT size_t imb_get_mb_mgr_size(void) {
    return behind_offset + lines(sizeof(struct behind) + WAITING_BYTES);
}

static void begin_behind(struct behind *b) {
    memset(b, 0, sizeof *b);
    records_make(&b->waiting, sizeof b->waiting + WAITING_BYTES);
    b->mark = BEHIND_MARK;
}

/* Without a reset the manager is one that another process made in the same memory. The addresses there are that process's. */
IMB_DLL_EXPORT IMB_MGR *imb_set_pointers_mb_mgr(void *memory, const uint64_t flags, const unsigned reset) {
    IMB_MGR *m = intel.set_pointers(memory, flags, reset);
    if (m == NULL)
        return NULL;
    if (reset != 0 || !is_made(m))
        begin_behind(behind(m));
    else
        forget_waiting(behind(m));
    behind(m)->is_checked = 0;
    if (reset == 0)
        put_checking_functions(m);
    return m;
}

IMB_DLL_EXPORT IMB_MGR *alloc_mb_mgr(uint64_t flags) {
    void *memory = aligned_alloc(RECORD_LINE, imb_get_mb_mgr_size());
    IMB_MGR *m = imb_set_pointers_mb_mgr(memory, flags, 1);
    if (m == NULL)
        free(memory);
    return m;
}

/* Intel's free may be another one than that of the memory, if the program brings its own. */
IMB_DLL_EXPORT void free_mb_mgr(IMB_MGR *m) {
    if (is_made(m))
        forget_waiting(behind(m));
    worker_rest();
    free(m);
}

/* ---- setting up ---- */

static void set_up(IMB_MGR *m, void (*init)(IMB_MGR *)) {
    if (is_made(m))
        take_checking_calls_off(m);
    init(m);
    if (is_made(m))
        put_checking_functions(m);
}

IMB_DLL_EXPORT void init_mb_mgr_sse(IMB_MGR *m) {
    set_up(m, intel.init[IMB_ARCH_SSE]);
}

IMB_DLL_EXPORT void init_mb_mgr_avx(IMB_MGR *m) {
    set_up(m, intel.init[IMB_ARCH_AVX]);
}

IMB_DLL_EXPORT void init_mb_mgr_avx2(IMB_MGR *m) {
    set_up(m, intel.init[IMB_ARCH_AVX2]);
}

IMB_DLL_EXPORT void init_mb_mgr_avx512(IMB_MGR *m) {
    set_up(m, intel.init[IMB_ARCH_AVX512]);
}

IMB_DLL_EXPORT void init_mb_mgr_auto(IMB_MGR *m, IMB_ARCH *arch) {
    if (is_made(m))
        take_checking_calls_off(m);
    intel.init_auto(m, arch);
    if (is_made(m))
        put_checking_functions(m);
}
