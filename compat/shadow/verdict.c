#include "verdict.h"
#include "counts.h"
#include "report.h"

#include <string.h>

static bool differs(const uint8_t *a, const uint8_t *b, uint32_t len, uint32_t *first) {
    for (uint32_t i = 0; i < len; i++)
        if (a[i] != b[i]) {
            *first = i;
            return true;
        }
    return false;
}

/* A refused job writes nothing, and its error is compared in place of its results. */
struct verdict verdict_of(const struct sample *sample, const struct made *made) {
    struct verdict verdict = {.status = made->status != sample->their_status};
    if (verdict.status)
        return verdict;
    if (made->status != IMB_STATUS_COMPLETED) {
        verdict.error = sample->is_unsent && made->error != sample->their_error;
        return verdict;
    }
    verdict.tag = differs(made->image + sample->tag.off, bytes_of(sample, sample->their_tag), sample->tag.len, &verdict.first);
    verdict.text = differs(made->image + sample->text.off, bytes_of(sample, sample->their_text), sample->text.len, &verdict.first);
    return verdict;
}

/* Without memory the proved library has no result. */
void judge(const struct sample *sample, const struct made *made) {
    if (made->status == IMB_STATUS_INTERNAL_ERROR) {
        count_more(COUNT_DROPPED, 1);
        return;
    }
    struct verdict verdict = verdict_of(sample, made);
    count_more(COUNT_COMPARED, 1);
    if (is_differing(&verdict)) {
        count_more(COUNT_DIFFERING, 1);
        report_mismatch(sample, made, &verdict);
    } else if (made->status != IMB_STATUS_COMPLETED) {
        count_more(COUNT_REFUSED_ALIKE, 1);
    }
}
