/* Known answers at start, for a program that checks them: jobs with known results, most of them those of the standards, through a manager.
 * They show whether the library, as it was linked and loaded here, computes these. Compile mbj_selftest.c into the program. */
#ifndef MBJ_SELFTEST_H
#define MBJ_SELFTEST_H

#include "mbj.h"

#ifdef __cplusplus
extern "C" {
#endif

/* Makes a manager in this memory, where none is, does a job for each cipher and each authentication but HMAC from states, with each length
 * of an AES key, and the ciphers in both directions, and ends the manager again. NULL if every result is as known. Else the name of the
 * first that isn't, as "HMAC-SHA-1", or the refusal's text if there is no manager or a job can't be submitted. */
const char *mbj_selftest(MBJ_MGR *m);

#ifdef __cplusplus
}
#endif
#endif
