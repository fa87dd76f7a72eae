/* What OpenSSL makes of an accepted job. */
#ifndef PEER_H
#define PEER_H

#include "mbj.h"

#ifdef __cplusplus
extern "C" {
#endif

/* Whether OpenSSL ciphers the job's packet to the same bytes, and gives the same tag. */
bool peer_agrees(const MBJ_JOB *job, const uint8_t *dst, const uint8_t *tag);

#ifdef __cplusplus
}
#endif
#endif
