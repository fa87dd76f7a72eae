/* A field of a drawn job that has a value which a checked job can't have. */
#ifndef DROPIN_ODD_H
#define DROPIN_ODD_H

#include "sample.h"

enum odd_field { ODD_NONE, ODD_DIR, ODD_ORDER, ODD_KEY_LEN, ODD_IV_LEN, ODD_CIPHER_LEN, ODD_TAG_LEN, ODD_HASH_LEN, ODD_CODE, ODD_AAD_LEN };

struct odd {
    enum odd_field field;
    uint64_t value;
    bool is_refused;       /* by the drop-in: intel-ipsec-mb reads or writes too much then, or does nothing */
    size_t own_tag_len;    /* of the tag's bytes behind these, which the job didn't ask for, intel-ipsec-mb writes some */
};

/* Draws a value for a job that isn't faulty. */
void draw_odd(struct odd *odd, const struct sample *sample);

/* Sets the field of a job that was filled with the sample. */
void make_odd(IMB_JOB *job, const struct odd *odd);

#endif
