/* Keys and hashes without a manager. */
#ifndef COMPAT_KEYS_H
#define COMPAT_KEYS_H

#include "builds.h"
#include "imb.h"

/* A schedule of AES has 11, 13 or 15 round keys of 16 bytes (FIPS 197, 5). */
enum { LONGEST_KEY = 32, LONGEST_SCHEDULE = 240, LONGEST_STATES = 128 };

/* The schedules of a key of 16, 24 or 32 bytes; decryption may be NULL. Returns the refusal. */
uint32_t put_schedules(const void *key, size_t len, void *encryption, void *decryption);

/* Copies a state as intel-ipsec-mb has it, in words of the machine's order, to one in big-endian words, or back. */
void turn_words(uint8_t *to, const uint8_t *from, size_t len, size_t word);

/* Puts the inner and the outer state of HMAC (RFC 2104, 4), as intel-ipsec-mb has them, for a key of any length; either may be NULL. Returns
 * the refusal. */
uint32_t put_hmac_states(uint32_t hash, const void *key, size_t len, void *inner, void *outer);

/* Overwrites what was secret, also if nothing reads it again. */
void wipe(void *at, size_t len);

/* Sets the functions of this file in the manager's table. */
void set_key_functions(IMB_MGR *m);

/* The calls by the header's names; what ends the names isn't told to them. */
#define COMPAT_KEY_SIZES(SIZE) SIZE(128) SIZE(192) SIZE(256)
#define COMPAT_HASHES(HASH)                                                                                                                \
    HASH(sha1, MBJ_HASH_SHA_1)                                                                                                             \
    HASH(sha224, MBJ_HASH_SHA_224)                                                                                                         \
    HASH(sha256, MBJ_HASH_SHA_256)                                                                                                         \
    HASH(sha384, MBJ_HASH_SHA_384)                                                                                                         \
    HASH(sha512, MBJ_HASH_SHA_512)

#define COMPAT_DECLARE_SIZE(bits)                                                                                                          \
    void expand_##bits(const void *key, void *encryption, void *decryption);                                                               \
    void expand_for_encryption_##bits(const void *key, void *encryption);
COMPAT_KEY_SIZES(COMPAT_DECLARE_SIZE)

void cmac_subkeys_128(const void *schedule, void *first, void *second);
void cmac_subkeys_256(const void *schedule, void *first, void *second);

#define COMPAT_DECLARE_HASH(name, hash)                                                                                                    \
    void name##_state(const void *block, void *state);                                                                                     \
    void name##_digest(const void *text, const uint64_t len, void *digest);
COMPAT_HASHES(COMPAT_DECLARE_HASH)

#endif
