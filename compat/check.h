/* Whether a job's arguments are right, as intel-ipsec-mb looks at them. */
#ifndef COMPAT_CHECK_H
#define COMPAT_CHECK_H

#include "algorithms.h"

/* Why the job is refused, or 0. If the application said that its jobs need no check, is_checked is false: then only what can't be done
 * is found. */
int check_job(const IMB_JOB *job, bool is_checked);

/* What is wrong with the cipher's part of a job by GCM, with a key, with the length of GCM's IV, or with the places of an AEAD's text. */
int check_gcm(const struct cipher *cipher, const IMB_JOB *job);
int check_key(const struct cipher *cipher, const IMB_JOB *job);
int check_iv_len_of_gcm(const IMB_JOB *job);
int check_text_of_aead(const IMB_JOB *job);

#endif
