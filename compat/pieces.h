/* CBC and CTR of a text of any length, in pieces that each are a job of the proved manager. */
#ifndef COMPAT_PIECES_H
#define COMPAT_PIECES_H

#include "raw_form.h"

/* Does what was said, while the proved manager is empty, and writes dst and tag. */
IMB_STATUS do_alone(IMB_MGR *m, struct dropin *d, struct raw_form *form, uint8_t *dst, uint8_t *tag);

/* Whether the counter of CTR wraps within the text. It has 32 bits in intel-ipsec-mb 1.3, and 64 if the length is in bits; the proved
 * code's has 128. */
bool counter_wraps(const IMB_JOB *job);

/* Does the cipher of a job alone. */
IMB_STATUS cipher_in_pieces(IMB_MGR *m, struct dropin *d, const IMB_JOB *job);

#endif
