/* Which processor did a job. */
#ifndef SHADOW_PROCESSOR_H
#define SHADOW_PROCESSOR_H

#include <stdio.h>

/* Writes the model and the microcode of a processor by its number, as the kernel tells them, or that it doesn't. */
void put_processor(FILE *file, int number);

#endif
