/* A mismatch is reported. */
#ifndef SHADOW_REPORT_H
#define SHADOW_REPORT_H

#include "verdict.h"

/* Does the sample once more by both libraries, writes its file if there is a folder, prints a line on standard error, at most one in a
 * second, and ends the process if MBJ_SHADOW_STOP is set. By whoever works. */
void report_mismatch(const struct sample *sample, const struct made *made, const struct verdict *verdict);

/* In a child of a fork. */
void report_forget(void);

#endif
