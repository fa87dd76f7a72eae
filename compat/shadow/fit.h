/* Whether a job can be given to the proved library, and its result compared. */
#ifndef SHADOW_FIT_H
#define SHADOW_FIT_H

#include "imb.h"

#include <stdbool.h>

enum fit {
    FIT,             /* both libraries have to write the same */
    FIT_REFUSED,     /* both have to refuse it with the same error */
    FIT_ABSENT,      /* the proved library hasn't the algorithm, or it is the application's own function */
    FIT_IN_PARTS,    /* it does a part of a text: the calls that Intel's library makes for it are sampled in its place */
    FIT_UNSPECIFIED, /* Intel's library doesn't say what comes out */
};

/* Tells the error with which a refused job has to be refused. */
enum fit fit_of_job(const IMB_JOB *job, bool is_checked, int *error);

#endif
