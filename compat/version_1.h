/* What intel-ipsec-mb 1.3 has of its own. version_2.h has the same for 2.0, and version_1.c the calls. */
#ifndef COMPAT_VERSION_1_H
#define COMPAT_VERSION_1_H

#define COMPAT_SONAME "libIPSec_MB.so.1"

/* The endings of the names that are declared for each architecture, of those that expand keys, and of those of GCM with a key of so many
 * bits. */
#define COMPAT_ARCHITECTURES(NAMES) NAMES(sse) NAMES(avx) NAMES(avx2) NAMES(avx512)
#define COMPAT_KEY_ARCHITECTURES(NAMES) NAMES(sse) NAMES(avx) NAMES(avx2) NAMES(avx512)
#define COMPAT_GCM_ARCHITECTURES(NAMES, bits) NAMES(bits, sse) NAMES(bits, avx_gen2) NAMES(bits, avx_gen4)

/* Flags of a manager that are refused, and with which error. */
#define COMPAT_REFUSED_FLAGS IMB_FLAG_AESNI_OFF
#define COMPAT_REFUSED_FLAGS_ERROR IMB_ERR_NO_AESNI_EMU

/* The texts of errors that the other version hasn't. */
#define COMPAT_ERROR_TEXTS [IMB_ERR_NO_AESNI_EMU - IMB_ERR_MIN] = "No AESNI emulation support",

/* Calls of the table, of algorithms that aren't here, that would give a result and that the other version hasn't. */
#define COMPAT_ABSENT_RESULTS(CALL)

/* How many bits a text of CMAC with a length in bits may have. */
#define COMPAT_MOST_CMAC_BITS UINT64_C(65534)

/* Whether a direction is taken for the one to encipher, if nothing has checked it. */
#define COMPAT_IS_ENCRYPTION(dir) ((dir) == IMB_DIR_ENCRYPT)

/* The hashes of the bursts of an array. */
#define COMPAT_IS_BURST_HASH(hash) ((hash) >= IMB_AUTH_HMAC_SHA_1 && (hash) <= IMB_AUTH_HMAC_SHA_512)

#endif
