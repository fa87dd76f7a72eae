/* The direct calls of Intel's library. They have no manager, and programs keep their pointers beyond one: so each table of them that was
 * seen, by architecture and flags, has functions of the checker of its own. */
#ifndef SHADOW_TABLES_H
#define SHADOW_TABLES_H

#include "imb.h"

/* Lengths of a key of 16, 24 and 32 bytes, hashes from SHA-1 to SHA-512, and the two directions, by which functions are told apart. */
enum { KEY_SIZES = 3, HASHES = 5, DIRECTIONS = 2, SUBKEY_SIZES = 2 };

#define SHADOW_KEY_SIZES(SIZE, ...) SIZE(128, 0, __VA_ARGS__) SIZE(192, 1, __VA_ARGS__) SIZE(256, 2, __VA_ARGS__)
#define SHADOW_HASHES(HASH, ...)                                                                                                           \
    HASH(sha1, 0, __VA_ARGS__)                                                                                                             \
    HASH(sha224, 1, __VA_ARGS__)                                                                                                           \
    HASH(sha256, 2, __VA_ARGS__)                                                                                                           \
    HASH(sha384, 3, __VA_ARGS__)                                                                                                           \
    HASH(sha512, 4, __VA_ARGS__)

typedef void (*expand_encryption_t)(const void *key, void *encryption);

/* Of each kind the functions by what they are for: seal before open. */
struct direct {
    aes_gcm_enc_dec_t whole[DIRECTIONS][KEY_SIZES];
    aes_gcm_init_t begin[KEY_SIZES];
    aes_gcm_init_var_iv_t begin_with_iv[KEY_SIZES];
    aes_gcm_enc_dec_update_t part[DIRECTIONS][KEY_SIZES];
    aes_gcm_enc_dec_finalize_t end[DIRECTIONS][KEY_SIZES];
    aes_gmac_init_t gmac_begin[KEY_SIZES];
    aes_gmac_update_t gmac_part[KEY_SIZES];
    aes_gmac_finalize_t gmac_end[KEY_SIZES];
    aes_gcm_pre_t gcm_key[KEY_SIZES];
    keyexp_t expand[KEY_SIZES];
    expand_encryption_t expand_encryption[KEY_SIZES]; /* called by name alone */
    cmac_subkey_gen_t subkeys[SUBKEY_SIZES];
    hash_one_block_t block[HASHES];
    hash_fn_t digest[HASHES];
};

/* What a table is made by again. */
struct table {
    struct direct calls;
    uint64_t flags;
    uint32_t arch; /* IMB_ARCH */
};

/* The tables that were seen, and behind them those of the functions that are called by name with an architecture: SSE, AVX, AVX2, AVX512. */
enum { SEEN_TABLES = 8, NAMED_TABLES = 4, TABLES = SEEN_TABLES + NAMED_TABLES, NO_TABLE = TABLES };

extern struct table tables[TABLES];

/* The functions that a manager's table has. */
void direct_of_manager(struct direct *calls, const IMB_MGR *m);

/* The number of the table that the manager has; NO_TABLE if more of them were seen than there is room for. */
unsigned table_of_manager(const IMB_MGR *m);

/* Puts the checker's functions for this table in a manager, or Intel's. */
void put_checking_calls(IMB_MGR *m, unsigned table);
void put_direct(IMB_MGR *m, const struct direct *calls);

/* In a child of a fork: another thread may have had the lock. */
void tables_forget_lock(void);

#endif
