/* The key behind a schedule of decryption, which is all that a job that deciphers by CBC has. */
#ifndef COMPAT_RAW_KEY_H
#define COMPAT_RAW_KEY_H

#include "manager.h"

/* Writes the key of 16, 24 or 32 bytes whose schedule of decryption this is, for a job. Returns the number by which it is left, 0 if
 * nothing is kept of it. */
uint16_t use_key_of_decryption(struct dropin *d, const void *schedule, size_t len, uint8_t *key);

/* The job whose key has this number is back, or wasn't submitted: of a key that no other job uses, nothing stays. 0 is none. */
void leave_key(struct dropin *d, uint16_t number);

#endif
