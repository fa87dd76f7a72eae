/* Samples of jobs, from their submission until Intel's library gives them back. */
#ifndef SHADOW_WAITING_H
#define SHADOW_WAITING_H

#include "behind.h"
#include "sample.h"

/* Takes the sample of a job that is due, if it fits, and returns it; else NULL. A wrong job is sampled too if it may be. */
struct sample *take_waiting(struct behind *b, const IMB_JOB *job, enum call way, bool may_be_wrong);

/* The same of a job of an application's array, which is told apart from its place: it comes back before the call does. */
struct sample *take_of_array(struct behind *b, const IMB_JOB *job, const IMB_JOB *from, enum call way);

/* A job came back: if it is the one of the earliest sample, that is given away with its results. */
void give_waiting(struct behind *b, const IMB_JOB *back);

/* The samples since the head was at this place are of jobs that weren't submitted. */
void take_back_waiting(struct behind *b, uint64_t head);

/* Gives a sample away with what a job's places have now. */
void give_sample(const struct sample *waiting, IMB_STATUS status);

/* Puts the checker's functions for bursts of an application's array in a manager. */
void put_checking_arrays(IMB_MGR *m);

#endif
