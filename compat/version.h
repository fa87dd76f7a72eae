/* What the versions of intel-ipsec-mb do in their own ways, by functions: version_1.c has them for 1.3, and version_2.c for 2.0. */
#ifndef COMPAT_VERSION_H
#define COMPAT_VERSION_H

#include "algorithms.h"

/* Features of the processor that this version alone tells. */
uint64_t version_features(void);

/* Why a job that does a part of a text by GCM, or a whole one by a list of segments, is refused, or 0: by what is looked at before its
 * authentication, and behind that. All segments are looked at before the first one is done: a list is refused as a whole. */
int check_gcm_in_parts(const struct cipher *cipher, const IMB_JOB *job, bool is_checked);
int check_segments_behind(const IMB_JOB *job);

/* The length that the key of a job is taken for which nothing has checked. */
uint64_t key_len_as_taken(const struct cipher *cipher, uint64_t len);

/* Why a job of a checked burst is refused that is right as a single job, or 0. */
int check_in_burst(const IMB_JOB *job);

/* Whether the known answers come out for a manager that is set up. */
bool passes_at_set_up(const IMB_MGR *m);

/* Keeps which kind of an architecture a manager runs. */
void keep_architecture(IMB_MGR *m);

/* Sets the functions of this version alone in the manager's table. */
void set_version_functions(IMB_MGR *m);

#endif
