#include "algorithms.h"

const struct cipher ciphers[IMB_CIPHER_NUM] = {
    [IMB_CIPHER_NULL] = {.kind = CIPHER_NONE, .code = MBJ_CIPHER_NULL},
    [IMB_CIPHER_CBC] = {.kind = CIPHER_CBC, .code = MBJ_CIPHER_CBC},
    [IMB_CIPHER_CNTR] = {.kind = CIPHER_CTR, .code = MBJ_CIPHER_CNTR, .uses_encryption = true},
    [IMB_CIPHER_CNTR_BITLEN] = {.kind = CIPHER_CTR, .code = MBJ_CIPHER_CNTR, .uses_encryption = true, .is_in_bits = true},
    [IMB_CIPHER_GCM] = {.kind = CIPHER_GCM, .code = MBJ_CIPHER_GCM, .partner = IMB_AUTH_AES_GMAC},
    [IMB_CIPHER_GCM_SGL] = {.kind = CIPHER_GCM, .code = MBJ_CIPHER_GCM, .partner = IMB_AUTH_GCM_SGL, .is_in_parts = true},
    [IMB_CIPHER_CCM] = {.kind = CIPHER_CCM, .code = MBJ_CIPHER_CCM, .partner = IMB_AUTH_AES_CCM, .uses_encryption = true},
    [IMB_CIPHER_CUSTOM] = {.kind = CIPHER_CUSTOM},
};

#define HMAC(bits, state, bytes, long_tag, short_tag)                                                                                      \
    [IMB_AUTH_HMAC_SHA_##bits] = {.kind = HASH_HMAC,                                                                                       \
                                  .code = MBJ_AUTH_HMAC_SHA_##bits##_STATES,                                                               \
                                  .key = state,                                                                                            \
                                  .word = bytes,                                                                                           \
                                  .longest = long_tag,                                                                                     \
                                  .truncated = short_tag}
#define SHA(bits, digest)                                                                                                                  \
    [IMB_AUTH_SHA_##bits] = {                                                                                                              \
        .kind = HASH_SHA, .code = MBJ_AUTH_SHA_##bits, .hash = MBJ_HASH_SHA_##bits, .longest = digest, .truncated = digest}
#define GMAC(bits) [IMB_AUTH_AES_GMAC_##bits] = {.kind = HASH_GMAC, .code = MBJ_AUTH_AES_GMAC, .key = bits / 8, .longest = 16}

/* The shorter tags of HMAC are those of IPsec (RFC 2404, 2; RFC 4868, 2.6), and for SHA-224 14 bytes: intel-ipsec-mb 1.3 takes these. */
const struct hash hashes[IMB_AUTH_NUM] = {
    [IMB_AUTH_NULL] = {.kind = HASH_NONE, .code = MBJ_AUTH_NULL},
    HMAC(1, 20, 4, 20, 12),
    HMAC(224, 32, 4, 28, 14),
    HMAC(256, 32, 4, 32, 16),
    HMAC(384, 64, 8, 48, 24),
    HMAC(512, 64, 8, 64, 32),
    SHA(1, 20),
    SHA(224, 28),
    SHA(256, 32),
    SHA(384, 48),
    SHA(512, 64),
    [IMB_AUTH_AES_CMAC] = {.kind = HASH_CMAC, .code = MBJ_AUTH_AES_CMAC, .key = 16, .longest = 16},
    [IMB_AUTH_AES_CMAC_BITLEN] = {.kind = HASH_CMAC, .code = MBJ_AUTH_AES_CMAC, .key = 16, .longest = 16, .is_in_bits = true},
    [IMB_AUTH_AES_CMAC_256] = {.kind = HASH_CMAC, .code = MBJ_AUTH_AES_CMAC_256, .key = 32, .longest = 16},
    GMAC(128),
    GMAC(192),
    GMAC(256),
    [IMB_AUTH_AES_GMAC] = {.kind = HASH_OF_GCM, .code = MBJ_AUTH_GCM, .longest = 16},
    [IMB_AUTH_GCM_SGL] = {.kind = HASH_OF_GCM, .code = MBJ_AUTH_GCM, .longest = 16},
    [IMB_AUTH_AES_CCM] = {.kind = HASH_OF_CCM, .code = MBJ_AUTH_AES_CCM, .longest = 16},
    [IMB_AUTH_CUSTOM] = {.kind = HASH_CUSTOM},
};
