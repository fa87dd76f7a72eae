#include "tables.h"

#include <pthread.h>
#include <string.h>

struct table tables[TABLES];
static unsigned seen_tables;
static pthread_mutex_t tables_lock = PTHREAD_MUTEX_INITIALIZER;

/* Each function's place in a struct direct, and its field in a manager. */
#define FIELDS_OF_SIZE(bits, size, FIELD)                                                                                                  \
    FIELD(whole[0][size], gcm##bits##_enc)                                                                                                 \
    FIELD(whole[1][size], gcm##bits##_dec)                                                                                                 \
    FIELD(begin[size], gcm##bits##_init)                                                                                                   \
    FIELD(begin_with_iv[size], gcm##bits##_init_var_iv)                                                                                    \
    FIELD(part[0][size], gcm##bits##_enc_update)                                                                                           \
    FIELD(part[1][size], gcm##bits##_dec_update)                                                                                           \
    FIELD(end[0][size], gcm##bits##_enc_finalize)                                                                                          \
    FIELD(end[1][size], gcm##bits##_dec_finalize)                                                                                          \
    FIELD(gmac_begin[size], gmac##bits##_init)                                                                                             \
    FIELD(gmac_part[size], gmac##bits##_update)                                                                                            \
    FIELD(gmac_end[size], gmac##bits##_finalize)                                                                                           \
    FIELD(gcm_key[size], gcm##bits##_pre)                                                                                                  \
    FIELD(expand[size], keyexp_##bits)
#define FIELDS_OF_HASH(name, hash, FIELD)                                                                                                  \
    FIELD(block[hash], name##_one_block)                                                                                                   \
    FIELD(digest[hash], name)
#define FIELDS(FIELD)                                                                                                                      \
    SHADOW_KEY_SIZES(FIELDS_OF_SIZE, FIELD)                                                                                                \
    SHADOW_HASHES(FIELDS_OF_HASH, FIELD)                                                                                                   \
    FIELD(subkeys[0], cmac_subkey_gen_128)                                                                                                 \
    FIELD(subkeys[1], cmac_subkey_gen_256)

#define READ(place, field) calls->place = m->field;
#define WRITE(place, field) m->field = calls->place;

void direct_of_manager(struct direct *calls, const IMB_MGR *m) {
    memset(calls, 0, sizeof *calls);
    FIELDS(READ)
}

void put_direct(IMB_MGR *m, const struct direct *calls) {
    FIELDS(WRITE)
}

/* A table stays where it is once it was seen. */
unsigned table_of_manager(const IMB_MGR *m) {
    struct table table = {.flags = m->flags, .arch = m->used_arch};
    unsigned number = 0;
    direct_of_manager(&table.calls, m);
    pthread_mutex_lock(&tables_lock);
    while (number < seen_tables && memcmp(&tables[number].calls, &table.calls, sizeof table.calls) != 0)
        number++;
    if (number == seen_tables && number < SEEN_TABLES) {
        tables[number] = table;
        seen_tables++;
    }
    pthread_mutex_unlock(&tables_lock);
    return number < SEEN_TABLES ? number : NO_TABLE;
}

void tables_forget_lock(void) {
    pthread_mutex_init(&tables_lock, NULL);
}
