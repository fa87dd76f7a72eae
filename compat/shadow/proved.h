/* The functions that the drop-in exports, by the names that they have within the checker. What they do is in docs/FROM_IPSEC_MB.md. */
#ifndef SHADOW_PROVED_H
#define SHADOW_PROVED_H

#include "imb.h"

__typeof__(alloc_mb_mgr) proved_alloc_mb_mgr;
__typeof__(init_mb_mgr_auto) proved_init_mb_mgr_auto;

#endif
