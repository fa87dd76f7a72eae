/* The functions that stand in a manager's table, for each table of Intel's that was seen, and those that are called by name with an
 * architecture. Each knows its table by its own name: a program may keep a pointer to it beyond any manager. */
#include "direct.h"
#include "intel.h"
#include "settings.h"

/* ---- the functions of a table ---- */

#define CALLS_OF_SIZE(bits, size, number)                                                                                                  \
    static void seal_##bits##_##number(WHOLE_ARGUMENTS) {                                                                                  \
        whole(&tables[number], 0, size, WHOLE_VALUES);                                                                                     \
    }                                                                                                                                      \
    static void open_##bits##_##number(WHOLE_ARGUMENTS) {                                                                                  \
        whole(&tables[number], 1, size, WHOLE_VALUES);                                                                                     \
    }                                                                                                                                      \
    static void begin_##bits##_##number(const struct gcm_key_data *key, struct gcm_context_data *context, const uint8_t *iv,               \
                                        uint8_t const *aad, uint64_t aad_len) {                                                            \
        begin(&tables[number], size, key, context, iv, aad, aad_len);                                                                      \
    }                                                                                                                                      \
    static void seal_part_##bits##_##number(const struct gcm_key_data *key, struct gcm_context_data *context, uint8_t *out,                \
                                            const uint8_t *in, uint64_t len) {                                                             \
        part(&tables[number], 0, size, key, context, out, in, len);                                                                        \
    }                                                                                                                                      \
    static void open_part_##bits##_##number(const struct gcm_key_data *key, struct gcm_context_data *context, uint8_t *out,                \
                                            const uint8_t *in, uint64_t len) {                                                             \
        part(&tables[number], 1, size, key, context, out, in, len);                                                                        \
    }                                                                                                                                      \
    static void seal_end_##bits##_##number(const struct gcm_key_data *key, struct gcm_context_data *context, uint8_t *tag,                 \
                                           uint64_t tag_len) {                                                                             \
        end(&tables[number], 0, size, key, context, tag, tag_len);                                                                         \
    }                                                                                                                                      \
    static void open_end_##bits##_##number(const struct gcm_key_data *key, struct gcm_context_data *context, uint8_t *tag,                 \
                                           uint64_t tag_len) {                                                                             \
        end(&tables[number], 1, size, key, context, tag, tag_len);                                                                         \
    }                                                                                                                                      \
    static void gcm_key_##bits##_##number(const void *key, struct gcm_key_data *data) {                                                    \
        gcm_key(&tables[number], size, key, data);                                                                                         \
    }

/* Those that aren't called by name, or not for the same architectures. */
#define OTHER_CALLS_OF_SIZE(bits, size, number)                                                                                            \
    static void begin_with_iv_##bits##_##number(const struct gcm_key_data *key, struct gcm_context_data *context, const uint8_t *iv,       \
                                                const uint64_t iv_len, const uint8_t *aad, const uint64_t aad_len) {                       \
        begin_with_iv(&tables[number], size, key, context, iv, iv_len, aad, aad_len);                                                      \
    }                                                                                                                                      \
    static void gmac_begin_##bits##_##number(const struct gcm_key_data *key, struct gcm_context_data *context, const uint8_t *iv,          \
                                             const uint64_t iv_len) {                                                                      \
        gmac_begin(&tables[number], size, key, context, iv, iv_len);                                                                       \
    }                                                                                                                                      \
    static void gmac_part_##bits##_##number(const struct gcm_key_data *key, struct gcm_context_data *context, const uint8_t *in,           \
                                            const uint64_t len) {                                                                          \
        gmac_part(&tables[number], size, key, context, in, len);                                                                           \
    }                                                                                                                                      \
    static void gmac_end_##bits##_##number(const struct gcm_key_data *key, struct gcm_context_data *context, uint8_t *tag,                 \
                                           const uint64_t tag_len) {                                                                       \
        gmac_end(&tables[number], size, key, context, tag, tag_len);                                                                       \
    }                                                                                                                                      \
    static void expand_##bits##_##number(const void *key, void *encryption, void *decryption) {                                            \
        expand(&tables[number], size, key, encryption, decryption);                                                                        \
    }

#define CALLS_OF_HASH(name, hash, number)                                                                                                  \
    static void name##_block_##number(const void *bytes, void *state) {                                                                    \
        block(&tables[number], hash, bytes, state);                                                                                        \
    }                                                                                                                                      \
    static void name##_digest_##number(const void *text, const uint64_t len, void *out) {                                                  \
        digest(&tables[number], hash, text, len, out);                                                                                     \
    }

#define CALLS_OF_SUBKEYS(bits, size, number)                                                                                               \
    static void subkeys_##bits##_##number(const void *schedule, void *first, void *second) {                                               \
        subkeys(&tables[number], size, schedule, first, second);                                                                           \
    }

#define CALLS_OF_TABLE(number)                                                                                                             \
    SHADOW_KEY_SIZES(CALLS_OF_SIZE, number)                                                                                                \
    SHADOW_KEY_SIZES(OTHER_CALLS_OF_SIZE, number)                                                                                          \
    SHADOW_HASHES(CALLS_OF_HASH, number)                                                                                                   \
    CALLS_OF_SUBKEYS(128, 0, number)                                                                                                       \
    CALLS_OF_SUBKEYS(256, 1, number)

#define EACH_SEEN_TABLE(TABLE) TABLE(0) TABLE(1) TABLE(2) TABLE(3) TABLE(4) TABLE(5) TABLE(6) TABLE(7)
EACH_SEEN_TABLE(CALLS_OF_TABLE)

#define PUT_SIZE(bits, size, number)                                                                                                       \
    {                                                                                                                                      \
        calls.whole[0][size] = seal_##bits##_##number;                                                                                     \
        calls.whole[1][size] = open_##bits##_##number;                                                                                     \
        calls.begin[size] = begin_##bits##_##number;                                                                                       \
        calls.begin_with_iv[size] = begin_with_iv_##bits##_##number;                                                                       \
        calls.part[0][size] = seal_part_##bits##_##number;                                                                                 \
        calls.part[1][size] = open_part_##bits##_##number;                                                                                 \
        calls.end[0][size] = seal_end_##bits##_##number;                                                                                   \
        calls.end[1][size] = open_end_##bits##_##number;                                                                                   \
        calls.gmac_begin[size] = gmac_begin_##bits##_##number;                                                                             \
        calls.gmac_part[size] = gmac_part_##bits##_##number;                                                                               \
        calls.gmac_end[size] = gmac_end_##bits##_##number;                                                                                 \
        calls.gcm_key[size] = gcm_key_##bits##_##number;                                                                                   \
        calls.expand[size] = expand_##bits##_##number;                                                                                     \
    }
#define PUT_HASH(name, hash, number)                                                                                                       \
    calls.block[hash] = name##_block_##number;                                                                                             \
    calls.digest[hash] = name##_digest_##number;
#define PUT_TABLE(number)                                                                                                                  \
    case number:                                                                                                                           \
        SHADOW_KEY_SIZES(PUT_SIZE, number)                                                                                                 \
        SHADOW_HASHES(PUT_HASH, number)                                                                                                    \
        calls.subkeys[0] = subkeys_128_##number;                                                                                           \
        calls.subkeys[1] = subkeys_256_##number;                                                                                           \
        break;

void put_checking_calls(IMB_MGR *m, unsigned table) {
    struct direct calls;
    switch (table) {
        EACH_SEEN_TABLE(PUT_TABLE)
    default: return;
    }
    put_direct(m, &calls);
}

/* ---- by name ---- */

/* The header declares the calls of GCM for three architectures, and the others for four. Their tables are the last four: SSE, AVX, AVX2 and
 * AVX512. */
#define EXPORT(theirs, ours) IMB_DLL_EXPORT __typeof__(ours) theirs __attribute__((alias(#ours)));

#define GCM_BY_NAME(bits, size, number, arch)                                                                                              \
    EXPORT(aes_gcm_enc_##bits##_##arch, seal_##bits##_##number)                                                                            \
    EXPORT(aes_gcm_dec_##bits##_##arch, open_##bits##_##number)                                                                            \
    EXPORT(aes_gcm_init_##bits##_##arch, begin_##bits##_##number)                                                                          \
    EXPORT(aes_gcm_enc_##bits##_update##_##arch, seal_part_##bits##_##number)                                                              \
    EXPORT(aes_gcm_dec_##bits##_update##_##arch, open_part_##bits##_##number)                                                              \
    EXPORT(aes_gcm_enc_##bits##_finalize##_##arch, seal_end_##bits##_##number)                                                             \
    EXPORT(aes_gcm_dec_##bits##_finalize##_##arch, open_end_##bits##_##number)                                                             \
    EXPORT(aes_gcm_pre_##bits##_##arch, gcm_key_##bits##_##number)

#define KEYS_BY_NAME(bits, size, number, arch)                                                                                             \
    IMB_DLL_EXPORT void aes_keyexp_##bits##_##arch(const void *key, void *encryption, void *decryption) {                                  \
        expand(&tables[number], size, key, encryption, decryption);                                                                        \
    }                                                                                                                                      \
    IMB_DLL_EXPORT void aes_keyexp_##bits##_enc_##arch(const void *key, void *encryption) {                                                \
        expand_encryption(&tables[number], size, key, encryption);                                                                         \
    }

#define HASH_BY_NAME(name, hash, number, arch)                                                                                             \
    IMB_DLL_EXPORT void name##_one_block_##arch(const void *bytes, void *state) {                                                          \
        block(&tables[number], hash, bytes, state);                                                                                        \
    }                                                                                                                                      \
    IMB_DLL_EXPORT void name##_##arch(const void *text, const uint64_t len, void *out) {                                                   \
        digest(&tables[number], hash, text, len, out);                                                                                     \
    }

#define OTHERS_BY_NAME(number, arch, code)                                                                                                 \
    SHADOW_KEY_SIZES(KEYS_BY_NAME, number, arch)                                                                                           \
    SHADOW_HASHES(HASH_BY_NAME, number, arch)                                                                                              \
    IMB_DLL_EXPORT void aes_cmac_subkey_gen_##arch(const void *schedule, void *first, void *second) {                                      \
        subkeys(&tables[number], 0, schedule, first, second);                                                                              \
    }

#define EACH_NAMED_GCM(GCM) GCM(8, sse) GCM(9, avx_gen2) GCM(10, avx_gen4)
#define EACH_NAMED_TABLE(TABLE)                                                                                                            \
    TABLE(8, sse, IMB_ARCH_SSE) TABLE(9, avx, IMB_ARCH_AVX) TABLE(10, avx2, IMB_ARCH_AVX2) TABLE(11, avx512, IMB_ARCH_AVX512)
#define ALL_GCM_BY_NAME(number, arch)                                                                                                      \
    SHADOW_KEY_SIZES(CALLS_OF_SIZE, number)                                                                                                \
    SHADOW_KEY_SIZES(GCM_BY_NAME, number, arch)

_Static_assert(SEEN_TABLES == 8 && NAMED_TABLES == 4, "the numbers of the tables stand here");
EACH_NAMED_GCM(ALL_GCM_BY_NAME)
EACH_NAMED_TABLE(OTHERS_BY_NAME)

#define FIND(place, name) *(void **)&calls->place = intel_function(name);
#define FIND_GCM(bits, size, calls, arch)                                                                                                  \
    FIND(whole[0][size], "aes_gcm_enc_" #bits "_" #arch)                                                                                   \
    FIND(whole[1][size], "aes_gcm_dec_" #bits "_" #arch)                                                                                   \
    FIND(begin[size], "aes_gcm_init_" #bits "_" #arch)                                                                                     \
    FIND(part[0][size], "aes_gcm_enc_" #bits "_update_" #arch)                                                                             \
    FIND(part[1][size], "aes_gcm_dec_" #bits "_update_" #arch)                                                                             \
    FIND(end[0][size], "aes_gcm_enc_" #bits "_finalize_" #arch)                                                                            \
    FIND(end[1][size], "aes_gcm_dec_" #bits "_finalize_" #arch)                                                                            \
    FIND(gcm_key[size], "aes_gcm_pre_" #bits "_" #arch)

#define FIND_KEYS(bits, size, calls, arch)                                                                                                 \
    FIND(expand[size], "aes_keyexp_" #bits "_" #arch)                                                                                      \
    FIND(expand_encryption[size], "aes_keyexp_" #bits "_enc_" #arch)

#define FIND_HASH(name, hash, calls, arch)                                                                                                 \
    FIND(block[hash], #name "_one_block_" #arch)                                                                                           \
    FIND(digest[hash], #name "_" #arch)

#define FIND_ALL_GCM(number, arch)                                                                                                         \
    calls = &tables[number].calls;                                                                                                         \
    SHADOW_KEY_SIZES(FIND_GCM, calls, arch)

#define FIND_OTHERS(number, name, code)                                                                                                    \
    calls = &tables[number].calls;                                                                                                         \
    tables[number].arch = code;                                                                                                            \
    SHADOW_KEY_SIZES(FIND_KEYS, calls, name)                                                                                               \
    SHADOW_HASHES(FIND_HASH, calls, name)                                                                                                  \
    FIND(subkeys[0], "aes_cmac_subkey_gen_" #name)

__attribute__((constructor(SHADOW_START))) static void find_names(void) {
    struct direct *calls;
    EACH_NAMED_GCM(FIND_ALL_GCM)
    EACH_NAMED_TABLE(FIND_OTHERS)
}
