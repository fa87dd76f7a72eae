/* Compares the states of keys, and the state behind one block, with those of OpenSSL. Link with -lcrypto. */
#define OPENSSL_SUPPRESS_DEPRECATED
#include "check.h"
#include "mbj_direct.h"

#include <openssl/sha.h>

enum { STATE_ROOM = 64, BLOCK_ROOM = 128, KEY_ROOM = 300, TRIES = 2000 };

/* The same sequence in each run. */
static uint64_t drawn = 1;

static uint8_t draw(void) {
    drawn = drawn * 6364136223846793005u + 1442695040888963407u;
    return (uint8_t)(drawn >> 56);
}

/* ---- what OpenSSL has ---- */

static const size_t block_lens[] = {64, 64, 64, 128, 128};
static const size_t state_lens[] = {20, 32, 32, 64, 64};

/* The words of a state, the highest byte of each first. */
static void put_words(uint8_t *out, uint64_t word, size_t word_len) {
    for (size_t i = 0; i < word_len; i++)
        out[i] = (uint8_t)(word >> 8 * (word_len - 1 - i));
}

static void sha_1_state(const uint8_t *block, uint8_t *out) {
    SHA_CTX c;
    SHA1_Init(&c);
    SHA1_Update(&c, block, 64);
    SHA_LONG words[] = {c.h0, c.h1, c.h2, c.h3, c.h4};
    for (size_t i = 0; i < 5; i++)
        put_words(out + 4 * i, words[i], 4);
}

static void sha_256_state(bool is_224, const uint8_t *block, uint8_t *out) {
    SHA256_CTX c;
    if (is_224)
        SHA224_Init(&c);
    else
        SHA256_Init(&c);
    SHA256_Update(&c, block, 64);
    for (size_t i = 0; i < 8; i++)
        put_words(out + 4 * i, c.h[i], 4);
}

static void sha_512_state(bool is_384, const uint8_t *block, uint8_t *out) {
    SHA512_CTX c;
    if (is_384)
        SHA384_Init(&c);
    else
        SHA512_Init(&c);
    SHA512_Update(&c, block, 128);
    for (size_t i = 0; i < 8; i++)
        put_words(out + 8 * i, c.h[i], 8);
}

static void peer_state(uint32_t hash, const uint8_t *block, uint8_t *out) {
    switch (hash) {
    case MBJ_HASH_SHA_1: sha_1_state(block, out); return;
    case MBJ_HASH_SHA_224:
    case MBJ_HASH_SHA_256: sha_256_state(hash == MBJ_HASH_SHA_224, block, out); return;
    default: sha_512_state(hash == MBJ_HASH_SHA_384, block, out); return;
    }
}

static void peer_digest(uint32_t hash, const uint8_t *at, size_t len, uint8_t *out) {
    switch (hash) {
    case MBJ_HASH_SHA_1: SHA1(at, len, out); return;
    case MBJ_HASH_SHA_224: SHA224(at, len, out); return;
    case MBJ_HASH_SHA_256: SHA256(at, len, out); return;
    case MBJ_HASH_SHA_384: SHA384(at, len, out); return;
    default: SHA512(at, len, out); return;
    }
}

/* RFC 2104, section 2: a key that is longer than a block is hashed, then filled with zero bytes to a block and xored with the pad. */
static void peer_key_state(uint32_t hash, const uint8_t *key, size_t key_len, uint8_t pad, uint8_t *out) {
    uint8_t block[BLOCK_ROOM] = {0};
    if (key_len > block_lens[hash])
        peer_digest(hash, key, key_len, block);
    else if (key_len != 0)
        memcpy(block, key, key_len);
    for (size_t i = 0; i < block_lens[hash]; i++)
        block[i] ^= pad;
    peer_state(hash, block, out);
}

/* ---- the comparisons ---- */

static void compare_block(uint32_t hash) {
    uint8_t block[BLOCK_ROOM], wanted[STATE_ROOM], out[STATE_ROOM];
    for (size_t i = 0; i < sizeof block; i++)
        block[i] = draw();
    struct mbj_bytes bytes = {block, block_lens[hash]};
    struct mbj_room room = {out, sizeof out};
    peer_state(hash, block, wanted);
    CHECK(mbj_one_block(hash, bytes, room) == MBJ_ERR_NONE && memcmp(out, wanted, state_lens[hash]) == 0);
}

static void compare_key(uint32_t hash, size_t key_len) {
    uint8_t key[KEY_ROOM], wanted[2 * STATE_ROOM], out[2 * STATE_ROOM];
    for (size_t i = 0; i < sizeof key; i++)
        key[i] = draw();
    struct mbj_bytes bytes = {key, key_len};
    struct mbj_room room = {out, sizeof out};
    peer_key_state(hash, key, key_len, 0x36, wanted);
    peer_key_state(hash, key, key_len, 0x5c, wanted + state_lens[hash]);
    CHECK(mbj_hmac_states(hash, bytes, room) == MBJ_ERR_NONE && memcmp(out, wanted, 2 * state_lens[hash]) == 0);
}

int main(void) {
    for (uint32_t hash = MBJ_HASH_SHA_1; hash <= MBJ_HASH_SHA_512; hash++) {
        for (size_t key_len = 0; key_len < KEY_ROOM; key_len++)
            compare_key(hash, key_len);
        for (int i = 0; i < TRIES; i++)
            compare_block(hash);
    }
    return 0;
}
