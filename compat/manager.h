/* A manager of intel-ipsec-mb, and what stands behind it in the application's memory: the manager of the proved code with all that it
 * allocates, and where the results of its jobs go. */
#ifndef COMPAT_MANAGER_H
#define COMPAT_MANAGER_H

#include "builds.h"
#include "imb.h"
#include "keys.h"

#include "mbj_heap_pool.h"

/* The longest packet of the proved code. A longer text is done in parts, outside the lanes. */
enum { PACKET_BYTES = 65535 };

/* Where the result of a submitted job goes. */
struct slot {
    IMB_JOB *job;
    uint8_t *dst, *tag;
    size_t dst_len;
    uint16_t found;    /* the number of the key that was found for it, or 0 */
    bool has_ended;    /* it isn't in the proved manager, or no longer */
    uint8_t kept;      /* the bits of the last byte of dst that stay as they were, if a length in bits ends within that byte */
    uint8_t last_byte; /* what that byte was */
};

/* Jobs in the order of their submission: those from first on aren't given back, and those from waiting on haven't all ended. The numbers
 * count modulo 2^32. */
struct queue {
    uint32_t first, waiting, next;
    struct slot slots[IMB_MAX_JOBS];
};

/* A key of 24 or 32 bytes, and the last two round keys of its schedule of decryption, from which it was found. It is kept while jobs use
 * it, and is all zeros if none does. At most IMB_MAX_JOBS use keys at once, so half of the places are free. */
struct found_key {
    uint32_t users, len;
    uint8_t round_keys[32], key[32];
};

enum { FOUND_KEY_BITS = 9, FOUND_KEYS = 1 << FOUND_KEY_BITS };

_Static_assert(FOUND_KEYS >= 2 * IMB_MAX_JOBS, "half of the places are free");

struct dropin {
    uint64_t mark;            /* DROPIN_MARK if a manager was made */
    struct mbj_handle handle; /* its jobs are all of one of the queues */
    struct mbj_pool *pool;
    struct queue ring;  /* jobs of IMB_MGR's own array */
    struct queue burst; /* jobs of an application's array, all done when the call returns */
    struct found_key found[FOUND_KEYS];
    uint8_t gathered[PACKET_BYTES + 1]; /* a packet on its way to the proved code */
};

/* The manager that it stands behind. */
IMB_MGR *manager_of(struct dropin *d);

/* What stands behind a manager, or NULL if none was made in this memory. It sets the errors to none, or to that. */
struct dropin *dropin_of(IMB_MGR *m);

/* Sets a manager up for an architecture, if the processor has the features that are wanted; an error says why not. */
void set_up_manager(IMB_MGR *m, IMB_ARCH arch, uint64_t wanted);

#endif
