#include "errors.h"
#include "mbj.h"

#include <stdatomic.h>
#include <string.h>

/* Any thread may set it: which one's error is read by another thread isn't told. Nearly every call sets it to 0: so it is written only
 * if it differs, and its cache line stays with all threads. */
static atomic_int error_of_process;

void set_error(IMB_MGR *m, int error) {
    if (m != NULL)
        m->imb_errno = error;
    if (atomic_load_explicit(&error_of_process, memory_order_relaxed) != error)
        atomic_store_explicit(&error_of_process, error, memory_order_relaxed);
}

bool direct_error(int error) {
    set_error(NULL, error);
    return error == 0;
}

int error_of_refusal(uint32_t refusal) {
    switch (refusal) {
    case MBJ_ERR_NONE: return 0;
    case MBJ_ERR_MEMORY: return ENOMEM;
    case MBJ_ERR_PROCESSOR: return IMB_ERR_MISSING_CPUFLAGS_INIT_MGR;
    case MBJ_ERR_TEXT_LENGTH: return IMB_ERR_CIPH_LEN;
    case MBJ_ERR_KEY_LENGTH: return IMB_ERR_KEY_LEN;
    case MBJ_ERR_IV_LENGTH: return IMB_ERR_IV_LEN;
    case MBJ_ERR_TAG_LENGTH: return IMB_ERR_AUTH_TAG_LEN;
    case MBJ_ERR_AAD_LENGTH: return IMB_ERR_AAD_LEN;
    default: return EINVAL;
    }
}

int error_of_reason(uint32_t reason) {
    switch (reason) {
    case MBJ_REASON_CIPHER_KEY:
    case MBJ_REASON_AUTH_KEY: return IMB_ERR_JOB_KEY_LEN;
    case MBJ_REASON_IV_LENGTH: return IMB_ERR_JOB_IV_LEN;
    case MBJ_REASON_CIPHER_LENGTH: return IMB_ERR_JOB_CIPH_LEN;
    case MBJ_REASON_AAD_LONG: return IMB_ERR_JOB_AAD_LEN;
    case MBJ_REASON_TAG_LENGTH: return IMB_ERR_JOB_AUTH_TAG_LEN;
    default: return EINVAL;
    }
}

IMB_DLL_EXPORT int imb_get_errno(IMB_MGR *m) {
    if (m != NULL && m->imb_errno != 0)
        return m->imb_errno;
    return atomic_load_explicit(&error_of_process, memory_order_relaxed);
}

/* Each as Intel's library says it. */
static const char *const texts[IMB_ERR_MAX - IMB_ERR_MIN] = {
    [IMB_ERR_NULL_MBMGR - IMB_ERR_MIN] = "Null IMB_MGR pointer",
    [IMB_ERR_JOB_NULL_SRC - IMB_ERR_MIN] = "Null source pointer",
    [IMB_ERR_JOB_NULL_DST - IMB_ERR_MIN] = "Null destination pointer",
    [IMB_ERR_JOB_NULL_KEY - IMB_ERR_MIN] = "Null key pointer",
    [IMB_ERR_JOB_NULL_IV - IMB_ERR_MIN] = "Null Initialization Vector (IV) pointer",
    [IMB_ERR_JOB_NULL_AUTH - IMB_ERR_MIN] = "Null authentication tag output pointer",
    [IMB_ERR_JOB_NULL_AAD - IMB_ERR_MIN] = "Null Additional Authenticated Data (AAD) pointer",
    [IMB_ERR_JOB_CIPH_LEN - IMB_ERR_MIN] = "Invalid cipher message length",
    [IMB_ERR_JOB_AUTH_LEN - IMB_ERR_MIN] = "Invalid authentication message length",
    [IMB_ERR_JOB_IV_LEN - IMB_ERR_MIN] = "Invalid Initialization Vector (IV) length",
    [IMB_ERR_JOB_KEY_LEN - IMB_ERR_MIN] = "Invalid key length",
    [IMB_ERR_JOB_AUTH_TAG_LEN - IMB_ERR_MIN] = "Invalid authentication tag length",
    [IMB_ERR_JOB_AAD_LEN - IMB_ERR_MIN] = "Invalid Additional Authenticated Data (AAD) length",
    [IMB_ERR_JOB_SRC_OFFSET - IMB_ERR_MIN] = "Invalid source offset",
    [IMB_ERR_JOB_CHAIN_ORDER - IMB_ERR_MIN] = "Invalid chain order",
    [IMB_ERR_CIPH_MODE - IMB_ERR_MIN] = "Invalid cipher mode",
    [IMB_ERR_HASH_ALGO - IMB_ERR_MIN] = "Invalid hash algorithm",
    [IMB_ERR_JOB_NULL_AUTH_KEY - IMB_ERR_MIN] = "Null pointer to authentication key",
    [IMB_ERR_JOB_NULL_SGL_CTX - IMB_ERR_MIN] = "Null pointer to SGL context",
    [IMB_ERR_JOB_NULL_NEXT_IV - IMB_ERR_MIN] = "Null pointer to next IV",
    [IMB_ERR_JOB_PON_PLI - IMB_ERR_MIN] = "Invalid PON PLI (CRC length vs cipher length)",
    [IMB_ERR_NULL_SRC - IMB_ERR_MIN] = "Null source pointer (direct API)",
    [IMB_ERR_NULL_DST - IMB_ERR_MIN] = "Null destination pointer (direct API)",
    [IMB_ERR_NULL_KEY - IMB_ERR_MIN] = "Null key pointer (direct API)",
    [IMB_ERR_NULL_EXP_KEY - IMB_ERR_MIN] = "Null expanded key pointer (direct API)",
    [IMB_ERR_NULL_IV - IMB_ERR_MIN] = "Null Initialization Vector (IV) pointer (direct API)",
    [IMB_ERR_NULL_AUTH - IMB_ERR_MIN] = "Null authentication tag output pointer (direct API)",
    [IMB_ERR_NULL_AAD - IMB_ERR_MIN] = "Null Additional Authenticated Data (AAD) pointer (direct API)",
    [IMB_ERR_CIPH_LEN - IMB_ERR_MIN] = "Invalid cipher message length (direct API)",
    [IMB_ERR_AUTH_LEN - IMB_ERR_MIN] = "Invalid authentication message length (direct API)",
    [IMB_ERR_IV_LEN - IMB_ERR_MIN] = "Invalid Initialization Vector (IV) length (direct API)",
    [IMB_ERR_KEY_LEN - IMB_ERR_MIN] = "Invalid key length (direct API)",
    [IMB_ERR_AUTH_TAG_LEN - IMB_ERR_MIN] = "Invalid authentication tag length (direct API)",
    [IMB_ERR_AAD_LEN - IMB_ERR_MIN] = "Invalid Additional Authenticated Data (AAD) length (direct API)",
    [IMB_ERR_SRC_OFFSET - IMB_ERR_MIN] = "Invalid source offset (direct API)",
    [IMB_ERR_NULL_AUTH_KEY - IMB_ERR_MIN] = "Null pointer to authentication key (direct API)",
    [IMB_ERR_NULL_CTX - IMB_ERR_MIN] = "Null pointer to context (direct API)",
    [IMB_ERR_JOB_NULL_HMAC_OPAD - IMB_ERR_MIN] = "Null pointer to HMAC OPAD",
    [IMB_ERR_JOB_NULL_HMAC_IPAD - IMB_ERR_MIN] = "Null pointer to HMAC IPAD",
    [IMB_ERR_JOB_NULL_XCBC_K1_EXP - IMB_ERR_MIN] = "Null pointer to XCBC K1 expanded",
    [IMB_ERR_JOB_NULL_XCBC_K2 - IMB_ERR_MIN] = "Null pointer to XCBC K2",
    [IMB_ERR_JOB_NULL_XCBC_K3 - IMB_ERR_MIN] = "Null pointer to XCBC K3",
    [IMB_ERR_JOB_CIPH_DIR - IMB_ERR_MIN] = "Invalid cipher direction",
    [IMB_ERR_JOB_NULL_GHASH_INIT_TAG - IMB_ERR_MIN] = "Null pointer to GHASH initial tag value",
    [IMB_ERR_MISSING_CPUFLAGS_INIT_MGR - IMB_ERR_MIN] = "Failed to initialize IMB_MGR due to missing required CPU flags",
    [IMB_ERR_NULL_JOB - IMB_ERR_MIN] = "NULL job pointer",
    [IMB_ERR_QUEUE_SPACE - IMB_ERR_MIN] = "Not enough space in job queue",
    [IMB_ERR_NULL_BURST - IMB_ERR_MIN] = "NULL pointer to burst job array",
    [IMB_ERR_BURST_SIZE - IMB_ERR_MIN] = "Invalid burst size",
    [IMB_ERR_BURST_OOO - IMB_ERR_MIN] = "Burst jobs out of order",
    [IMB_ERR_SELFTEST - IMB_ERR_MIN] = "Self-test failed",
    COMPAT_ERROR_TEXTS
};

IMB_DLL_EXPORT const char *imb_get_strerror(int error) {
    if (error == 0)
        return "No error";
    if (error <= IMB_ERR_MIN)
        return strerror(error);
    const char *text = error < IMB_ERR_MAX ? texts[error - IMB_ERR_MIN] : NULL;
    return text != NULL ? text : "Unknown error";
}
