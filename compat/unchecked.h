/* Jobs whose fields nothing has checked. */
#ifndef COMPAT_UNCHECKED_H
#define COMPAT_UNCHECKED_H

#include "imb.h"

/* The job with right values if intel-ipsec-mb 1.3 takes the given ones for these: the job itself, if no field changes, or else a
 * copy. What then is wrong still can't be done, and is found by check_job. */
const IMB_JOB *job_as_taken(const IMB_JOB *job, IMB_JOB *copy);

#endif
