/* CMAC of a text that ends within a byte. */
#ifndef COMPAT_BITS_H
#define COMPAT_BITS_H

#include "raw_form.h"

/* Fills in the packet of such a job without a cipher, whose authentication is filled in. */
void fill_padded(struct dropin *d, struct raw_form *form, const IMB_JOB *job);

/* Whether a text has more whole blocks than a packet, once it is padded: then its authentication is done by itself. */
bool is_padded_long(const IMB_JOB *job);
IMB_STATUS do_padded_long(IMB_MGR *m, struct dropin *d, const IMB_JOB *job);

#endif
