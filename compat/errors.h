/* Errors as intel-ipsec-mb tells them: a number in the manager, if the call has one, and one of the process. Each call sets both. */
#ifndef COMPAT_ERRORS_H
#define COMPAT_ERRORS_H

#include "imb.h"

#include <stdbool.h>

/* Sets the error of the manager, if there is one, and of the process. 0 is none. */
void set_error(IMB_MGR *m, int error);

/* Sets the error of a direct call, which has no manager. Returns whether it is none. */
bool direct_error(int error);

/* The error that a refusal of an export, mbj_err, is told as by a direct call. */
int error_of_refusal(uint32_t refusal);

/* The error of a job that the proved code refused, by the number of its mbj_err. */
int error_of_reason(uint32_t reason);

#endif
