#include "keys.h"
#include "errors.h"

#include <string.h>

void wipe(void *at, size_t len) {
    memset(at, 0, len);
    __asm__ volatile("" : : "r"(at) : "memory");
}

IMB_DLL_EXPORT void imb_clear_mem(void *at, const size_t len) {
    if (at != NULL)
        wipe(at, len);
}

/* ---- AES ---- */

static size_t schedule_len(size_t key_len) {
    return 16 * (key_len / 4 + 7);
}

/* What is given may lie anywhere, one over another too: so all is copied. */
uint32_t put_schedules(const void *key, size_t len, void *encryption, void *decryption) {
    uint8_t raw[LONGEST_KEY], forward[LONGEST_SCHEDULE], inverse[LONGEST_SCHEDULE];
    size_t bytes = schedule_len(len);
    memcpy(raw, key, len);
    uint32_t refusal = proved.mbj_aes_keys(bytes_at(raw, len), room_at(forward, bytes), room_at(inverse, bytes));
    if (refusal == MBJ_ERR_NONE) {
        memcpy(encryption, forward, bytes);
        if (decryption != NULL)
            memcpy(decryption, inverse, bytes);
    }
    wipe(raw, sizeof raw);
    wipe(forward, sizeof forward);
    wipe(inverse, sizeof inverse);
    return refusal;
}

static void expand(const void *key, size_t len, void *encryption, void *decryption, bool is_both) {
    int error = key == NULL ? IMB_ERR_NULL_KEY : encryption == NULL || (is_both && decryption == NULL) ? IMB_ERR_NULL_EXP_KEY : 0;
    direct_error(error != 0 ? error : error_of_refusal(put_schedules(key, len, encryption, decryption)));
}

#define EXPAND(bits)                                                                                                                       \
    void expand_##bits(const void *key, void *encryption, void *decryption) {                                                              \
        expand(key, bits / 8, encryption, decryption, true);                                                                               \
    }                                                                                                                                      \
    void expand_for_encryption_##bits(const void *key, void *encryption) {                                                                 \
        expand(key, bits / 8, encryption, NULL, false);                                                                                    \
    }
COMPAT_KEY_SIZES(EXPAND)

/* ---- CMAC ---- */

/* A schedule of encryption begins with the key (FIPS 197, 5.2). */
static void put_subkeys(const void *schedule, size_t len, void *first, void *second) {
    uint8_t key[LONGEST_KEY], one[16], two[16];
    if (schedule == NULL || first == NULL || second == NULL) {
        direct_error(schedule == NULL ? IMB_ERR_NULL_EXP_KEY : IMB_ERR_NULL_KEY);
        return;
    }
    memcpy(key, schedule, len);
    uint32_t refusal = proved.mbj_cmac_subkeys(bytes_at(key, len), room_at(one, sizeof one), room_at(two, sizeof two));
    if (direct_error(error_of_refusal(refusal))) {
        memcpy(first, one, sizeof one);
        memcpy(second, two, sizeof two);
    }
    wipe(key, sizeof key);
    wipe(one, sizeof one);
    wipe(two, sizeof two);
}

void cmac_subkeys_128(const void *schedule, void *first, void *second) {
    put_subkeys(schedule, 16, first, second);
}

void cmac_subkeys_256(const void *schedule, void *first, void *second) {
    put_subkeys(schedule, 32, first, second);
}

/* ---- hashes ---- */

/* The bytes of a block, of a state, of its words and of a digest (FIPS 180-4, 1). */
static const struct hash_size {
    uint8_t block, state, word, digest;
} sizes[] = {
    [MBJ_HASH_SHA_1] = {64, 20, 4, 20},
    [MBJ_HASH_SHA_224] = {64, 32, 4, 28},
    [MBJ_HASH_SHA_256] = {64, 32, 4, 32},
    [MBJ_HASH_SHA_384] = {128, 64, 8, 48},
    [MBJ_HASH_SHA_512] = {128, 64, 8, 64},
};

void turn_words(uint8_t *to, const uint8_t *from, size_t len, size_t word) {
    uint32_t four;
    uint64_t eight;
    for (size_t off = 0; off < len; off += word)
        if (word == sizeof four) {
            memcpy(&four, from + off, sizeof four);
            four = __builtin_bswap32(four);
            memcpy(to + off, &four, sizeof four);
        } else {
            memcpy(&eight, from + off, sizeof eight);
            eight = __builtin_bswap64(eight);
            memcpy(to + off, &eight, sizeof eight);
        }
}

static void put_state(uint32_t hash, const void *block, void *state) {
    const struct hash_size *size = &sizes[hash];
    uint8_t words[64];
    if (block == NULL || state == NULL) {
        direct_error(block == NULL ? IMB_ERR_NULL_SRC : IMB_ERR_NULL_AUTH);
        return;
    }
    if (direct_error(error_of_refusal(proved.mbj_one_block(hash, bytes_at(block, size->block), room_at(words, size->state)))))
        turn_words(state, words, size->state, size->word);
    wipe(words, sizeof words);
}

uint32_t put_hmac_states(uint32_t hash, const void *key, size_t len, void *inner, void *outer) {
    const struct hash_size *size = &sizes[hash];
    uint8_t states[LONGEST_STATES];
    uint32_t refusal = proved.mbj_hmac_states(hash, bytes_at(key, len), room_at(states, 2u * size->state));
    if (refusal == MBJ_ERR_NONE && inner != NULL)
        turn_words(inner, states, size->state, size->word);
    if (refusal == MBJ_ERR_NONE && outer != NULL)
        turn_words(outer, states + size->state, size->state, size->word);
    wipe(states, sizeof states);
    return refusal;
}

static void put_digest(uint32_t hash, const void *text, uint64_t len, void *digest) {
    uint8_t bytes[64];
    if ((text == NULL && len != 0) || digest == NULL) {
        direct_error(digest == NULL ? IMB_ERR_NULL_AUTH : IMB_ERR_NULL_SRC);
        return;
    }
    if (direct_error(error_of_refusal(proved.mbj_digest(hash, bytes_at(text, len), room_at(bytes, sizes[hash].digest)))))
        memcpy(digest, bytes, sizes[hash].digest);
}

#define HASH(name, hash)                                                                                                                   \
    void name##_state(const void *block, void *state) {                                                                                    \
        put_state(hash, block, state);                                                                                                     \
    }                                                                                                                                      \
    void name##_digest(const void *text, const uint64_t len, void *digest) {                                                               \
        put_digest(hash, text, len, digest);                                                                                               \
    }
COMPAT_HASHES(HASH)

#define SET_SIZE(bits) m->keyexp_##bits = expand_##bits;
#define SET_HASH(name, hash)                                                                                                               \
    m->name##_one_block = name##_state;                                                                                                    \
    m->name = name##_digest;

void set_key_functions(IMB_MGR *m) {
    COMPAT_KEY_SIZES(SET_SIZE)
    COMPAT_HASHES(SET_HASH)
    m->cmac_subkey_gen_128 = cmac_subkeys_128;
    m->cmac_subkey_gen_256 = cmac_subkeys_256;
}
