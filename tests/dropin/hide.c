/* Preloaded beside DPDK's test program: tells it that the device hasn't the algorithms that the library hasn't, so that it skips their
 * cases. Without that some of them use an operation that is NULL, and the program ends. What the driver itself tells was settled when it
 * was compiled for all of intel-ipsec-mb. */
#define _GNU_SOURCE
#include <dlfcn.h>
#include <rte_cryptodev.h>

static int has_auth(enum rte_crypto_auth_algorithm auth) {
    switch (auth) {
    case RTE_CRYPTO_AUTH_NULL:
    case RTE_CRYPTO_AUTH_AES_CMAC:
    case RTE_CRYPTO_AUTH_AES_GMAC:
    case RTE_CRYPTO_AUTH_SHA1:
    case RTE_CRYPTO_AUTH_SHA224:
    case RTE_CRYPTO_AUTH_SHA256:
    case RTE_CRYPTO_AUTH_SHA384:
    case RTE_CRYPTO_AUTH_SHA512:
    case RTE_CRYPTO_AUTH_SHA1_HMAC:
    case RTE_CRYPTO_AUTH_SHA224_HMAC:
    case RTE_CRYPTO_AUTH_SHA256_HMAC:
    case RTE_CRYPTO_AUTH_SHA384_HMAC:
    case RTE_CRYPTO_AUTH_SHA512_HMAC: return 1;
    default: return 0;
    }
}

static int has(const struct rte_cryptodev_sym_capability_idx *asked) {
    switch (asked->type) {
    case RTE_CRYPTO_SYM_XFORM_CIPHER:
        return asked->algo.cipher == RTE_CRYPTO_CIPHER_NULL || asked->algo.cipher == RTE_CRYPTO_CIPHER_AES_CBC ||
               asked->algo.cipher == RTE_CRYPTO_CIPHER_AES_CTR;
    case RTE_CRYPTO_SYM_XFORM_AEAD:
        return asked->algo.aead == RTE_CRYPTO_AEAD_AES_GCM || asked->algo.aead == RTE_CRYPTO_AEAD_AES_CCM;
    default: return has_auth(asked->algo.auth);
    }
}

const struct rte_cryptodev_symmetric_capability *
rte_cryptodev_sym_capability_get(uint8_t device, const struct rte_cryptodev_sym_capability_idx *asked) {
    const struct rte_cryptodev_symmetric_capability *(*next)(uint8_t, const struct rte_cryptodev_sym_capability_idx *);
    *(void **)&next = dlsym(RTLD_NEXT, "rte_cryptodev_sym_capability_get");
    return has(asked) ? next(device, asked) : NULL;
}

/* Of the security protocols the driver has DOCSIS alone, whose ciphers aren't here. */
void rte_cryptodev_info_get(uint8_t device, struct rte_cryptodev_info *info) {
    void (*next)(uint8_t, struct rte_cryptodev_info *);
    *(void **)&next = dlsym(RTLD_NEXT, "rte_cryptodev_info_get");
    next(device, info);
    info->feature_flags &= ~(uint64_t)RTE_CRYPTODEV_FF_SECURITY;
}
