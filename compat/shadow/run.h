/* A sample done again by a library, whose results go to a copy of the sample's image. */
#ifndef SHADOW_RUN_H
#define SHADOW_RUN_H

#include "sample.h"
#include "tables.h"

/* A direct call, by these functions. */
void run_call(const struct direct *calls, const struct sample *sample, uint8_t *image);

/* A job, or a call by the manager's functions, while the manager has no other job. Returns its status. */
IMB_STATUS run_alone(IMB_MGR *m, const struct sample *sample, uint8_t *image);

/* Whether a job's own fields are to be checked. */
bool is_checked_job(const struct sample *sample);

#endif
