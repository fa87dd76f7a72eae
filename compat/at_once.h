/* Jobs that are done when they are submitted, outside the lanes: texts longer than a packet, counters that wrap, texts in parts, lengths in
 * bits beside another algorithm, tags that are ciphered themselves, GMAC beside a cipher, and the application's own functions. */
#ifndef COMPAT_AT_ONCE_H
#define COMPAT_AT_ONCE_H

#include "manager.h"

/* Whether the job can't be one of the proved manager. */
bool is_done_at_once(const IMB_JOB *job);

/* Does a job, of the arguments of `job`, while the proved manager is empty; the application's functions get `given`. Returns its status,
 * and sets the manager's error if it isn't done. */
IMB_STATUS do_at_once(IMB_MGR *m, struct dropin *d, const IMB_JOB *job, IMB_JOB *given);

#endif
