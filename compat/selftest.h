/* Known answers of the proved code, once for each process. */
#ifndef COMPAT_SELFTEST_H
#define COMPAT_SELFTEST_H

#include "imb.h"

#include <stdbool.h>

/* Whether the build that runs gave all known answers of mbj_selftest.h when the library was loaded. */
bool has_passed_selftest(void);

/* Whether it gives them now. */
bool passes_selftest(void);

/* What a manager's features tell of that. */
uint64_t selftest_features(bool has_passed);

#endif
