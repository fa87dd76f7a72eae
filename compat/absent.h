/* Calls of algorithms that aren't here. */
#ifndef COMPAT_ABSENT_H
#define COMPAT_ABSENT_H

#include "imb.h"

/* Sets the functions of the manager's table whose algorithms aren't here. Those that would write a text, a tag, a digest or a key stream
 * tell their name on standard error and end the process by abort(). Those that make keys, schedules or sizes alone write nothing, set
 * ENOTSUP and return 0, or -1 if 0 would say that it is done; and so do the others if the library was loaded with
 * MBJ_DROPIN_ABSENT=continue. */
void set_absent_functions(IMB_MGR *m);

/* Of a call by name that would have written a text, a tag, a digest or a key stream. */
uint64_t absent_result(const char *name);

/* Of one that makes a key, a schedule or a size alone: the job that uses it is refused. */
uint64_t absent_key(void);

#endif
