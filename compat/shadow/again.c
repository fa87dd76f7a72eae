#include "again.h"
#include "intel.h"
#include "keys.h"
#include "proved.h"
#include "records.h"
#include "run.h"

#include <stdlib.h>
#include <string.h>

static IMB_MGR *proved_manager, *intel_managers[TABLES + 1];

IMB_MGR *empty_proved_manager(void) {
    if (proved_manager == NULL && (proved_manager = proved_alloc_mb_mgr(0)) != NULL)
        proved_init_mb_mgr_auto(proved_manager, NULL);
    return proved_manager;
}

/* One of Intel's own, with the functions that did the sample. */
static IMB_MGR *intel_manager(unsigned table) {
    IMB_MGR **m = &intel_managers[table];
    size_t bytes = (intel.manager_size() + RECORD_LINE - 1) / RECORD_LINE * RECORD_LINE;
    bool is_seen = table < TABLES && tables[table].arch < IMB_ARCH_NUM && intel.init[tables[table].arch] != NULL;
    if (*m != NULL)
        return *m;
    void *memory = aligned_alloc(RECORD_LINE, bytes);
    *m = memory == NULL ? NULL : intel.set_pointers(memory, is_seen ? tables[table].flags : 0, 1);
    if (*m == NULL)
        free(memory);
    else if (is_seen)
        intel.init[tables[table].arch](*m);
    else
        intel.init_auto(*m, NULL);
    return *m;
}

/* What Intel's library wrote, as an image. */
static void put_their_results(uint8_t *image, const struct sample *sample) {
    memcpy(image + sample->text.off, bytes_of(sample, sample->their_text), sample->text.len);
    memcpy(image + sample->tag.off, bytes_of(sample, sample->their_tag), sample->tag.len);
}

static bool are_same(const struct sample *sample, const struct made *a, const struct made *b) {
    return a->status == b->status && (a->status != IMB_STATUS_COMPLETED ||
                                      (memcmp(a->image + sample->text.off, b->image + sample->text.off, sample->text.len) == 0 &&
                                       memcmp(a->image + sample->tag.off, b->image + sample->tag.off, sample->tag.len) == 0));
}

static enum answer answer_of(IMB_MGR *m, const struct sample *sample, uint8_t *image, const struct made *own, const struct made *other) {
    if (m == NULL)
        return ANSWER_NONE;
    memcpy(image, bytes_of(sample, sample->image), sample->image.len);
    struct made now = {.image = image};
    now.status = run_alone(m, sample, image);
    return are_same(sample, &now, own) ? ANSWER_SAME : are_same(sample, &now, other) ? ANSWER_OTHERS : ANSWER_NEW;
}

/* Of a job that was refused nothing was copied. */
struct again do_again(const struct sample *sample, const struct made *made) {
    size_t len = (sample->image.len + RECORD_LINE) / RECORD_LINE * RECORD_LINE;
    struct again again = {ANSWER_NONE, ANSWER_NONE};
    uint8_t *images = sample->is_unsent ? NULL : aligned_alloc(RECORD_LINE, 2 * len);
    if (images == NULL)
        return again;
    struct made theirs = {.image = images + len, .status = sample->their_status};
    memcpy(theirs.image, bytes_of(sample, sample->image), sample->image.len);
    put_their_results(theirs.image, sample);
    again.intel = answer_of(intel_manager(sample->table), sample, images, &theirs, made);
    again.proved = answer_of(empty_proved_manager(), sample, images, made, &theirs);
    wipe(images, 2 * len);
    free(images);
    return again;
}

void again_forget(void) {
    proved_manager = NULL;
    memset(intel_managers, 0, sizeof intel_managers);
}
