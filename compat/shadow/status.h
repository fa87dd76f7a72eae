/* The file of the counters. */
#ifndef SHADOW_STATUS_H
#define SHADOW_STATUS_H

#include <stdbool.h>

/* Writes the file that MBJ_SHADOW_STATUS names, if a second has passed since it was last written, or at the end. Returns whether a
 * second has passed. By whoever works. */
bool write_status(bool is_end);

#endif
