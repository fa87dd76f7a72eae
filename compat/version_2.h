/* What intel-ipsec-mb 2.0 has of its own. version_1.h has the same for 1.3, and version_2.c the calls. */
#ifndef COMPAT_VERSION_2_H
#define COMPAT_VERSION_2_H

#define COMPAT_SONAME "libIPSec_MB.so.2"

/* The endings of the names that are declared for each architecture, of those that expand keys, and of those of GCM with a key of so many
 * bits. */
#define COMPAT_ARCHITECTURES(NAMES) NAMES(sse) NAMES(avx2) NAMES(avx512)
#define COMPAT_KEY_ARCHITECTURES(NAMES) NAMES(sse) NAMES(avx) NAMES(avx2) NAMES(avx512)
#define COMPAT_GCM_ARCHITECTURES(NAMES, bits) NAMES(bits, sse) NAMES(bits, avx_gen4)

/* Flags of a manager that are refused: none. */
#define COMPAT_REFUSED_FLAGS UINT64_C(0)
#define COMPAT_REFUSED_FLAGS_ERROR 0

/* The texts of errors that the other version hasn't. */
#define COMPAT_ERROR_TEXTS                                                                                                                 \
    [IMB_ERR_BURST_SUITE_ID - IMB_ERR_MIN] = "Invalid cipher suite ID (async burst API)",                                                  \
    [IMB_ERR_JOB_SGL_STATE - IMB_ERR_MIN] = "Invalid SGL state",

/* Calls of the table, of algorithms that aren't here, that would give a result and that the other version hasn't. */
#define COMPAT_ABSENT_RESULTS(CALL)                                                                                                        \
    CALL(aes256_cfb_one)                                                                                                                   \
    CALL(aes_ecb_128_quic)                                                                                                                 \
    CALL(aes_ecb_256_quic)                                                                                                                 \
    CALL(chacha20_poly1305_quic)                                                                                                           \
    CALL(chacha20_hp_quic)

/* How many bits a text of CMAC with a length in bits may have: those of 65,534 bytes. */
#define COMPAT_MOST_CMAC_BITS (UINT64_C(65534) * 8)

/* Whether a direction is taken for the one to encipher, if nothing has checked it: by the lowest bit of its number. */
#define COMPAT_IS_ENCRYPTION(dir) (((unsigned)(dir) & 1) != 0)

/* The hashes of the bursts of an array. */
#define COMPAT_IS_BURST_HASH(hash)                                                                                                         \
    (((hash) >= IMB_AUTH_HMAC_SHA_1 && (hash) <= IMB_AUTH_HMAC_SHA_512) || ((hash) >= IMB_AUTH_SHA_1 && (hash) <= IMB_AUTH_SHA_512) ||     \
     (hash) == IMB_AUTH_AES_CMAC || (hash) == IMB_AUTH_AES_CMAC_BITLEN || (hash) == IMB_AUTH_AES_CMAC_256)

#endif
