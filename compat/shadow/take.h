/* The sample of a job. */
#ifndef SHADOW_TAKE_H
#define SHADOW_TAKE_H

#include "sample.h"

/* How many bytes the sample of a job that fits takes at most, with its results; SIZE_MAX if it is too long. */
size_t job_sample_bytes(const IMB_JOB *job);

/* Copies what a job reads. False if the room is too short. */
bool take_job(struct builder *builder, const IMB_JOB *job);

/* The job whose bytes are those of the sample, and whose text and tag go to a copy of the sample's image. */
void job_of_sample(IMB_JOB *job, const struct sample *sample, uint8_t *image);

#endif
