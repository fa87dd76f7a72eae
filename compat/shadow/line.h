/* A sample as a line of a job file (docs/FORMAT.md). */
#ifndef SHADOW_LINE_H
#define SHADOW_LINE_H

#include "sample.h"

#include <stdio.h>

/* Writes the line. False if the form has none for such a job, or there is no memory; nothing is written then. */
bool put_job_line(FILE *file, const struct sample *sample);

/* Bytes as a job file has them. */
void put_bytes(FILE *file, const void *at, size_t len);

#endif
