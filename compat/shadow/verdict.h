/* What came of a sample: counted, and reported if the libraries differ. */
#ifndef SHADOW_VERDICT_H
#define SHADOW_VERDICT_H

#include "sample.h"

/* What the proved library made of a sample: what it wrote stands in a copy of the image. */
struct made {
    uint8_t *image;
    IMB_STATUS status;
    int error;
};

/* Which of its results differ. */
struct verdict {
    bool status, error, text, tag;
    uint32_t first; /* the first byte of the text that differs, or of the tag if the text doesn't */
};

/* Compares results with those of Intel's library. */
struct verdict verdict_of(const struct sample *sample, const struct made *made);

static inline bool is_differing(const struct verdict *verdict) {
    return verdict->status || verdict->error || verdict->text || verdict->tag;
}

/* Counts a sample that both libraries have done, and reports it if they differ. */
void judge(const struct sample *sample, const struct made *made);

#endif
