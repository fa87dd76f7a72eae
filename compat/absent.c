#include "absent.h"
#include "errors.h"

#include <stdatomic.h>
#include <stddef.h>
#include <stdio.h>
#include <stdlib.h>
#include <string.h>

/* ---- what they do ---- */

/* Set when the library is loaded: a program's own threads may change its environment later. */
static bool goes_on;

__attribute__((constructor)) static void read_setting(void) {
    const char *setting = getenv("MBJ_DROPIN_ABSENT");
    goes_on = setting != NULL && strcmp(setting, "continue") == 0;
}

/* Most of these calls return nothing: were one to come back, the program would take its old bytes for the result. */
uint64_t absent_result(const char *name) {
    static atomic_flag is_reported = ATOMIC_FLAG_INIT;
    direct_error(ENOTSUP);
    if (goes_on)
        return 0;
    if (!atomic_flag_test_and_set(&is_reported))
        fprintf(stderr, COMPAT_SONAME " of mbj: %s isn't here, and gives no result. MBJ_DROPIN_ABSENT=continue goes on without it\n", name);
    abort();
}

uint64_t absent_key(void) {
    direct_error(ENOTSUP);
    return 0;
}

/* Of those that tell whether they did it. */
static int absent_schedule(void) {
    direct_error(ENOTSUP);
    return -1;
}

/* ---- by the table ---- */

/* The calls of the table that would give a result. */
#define RESULTS(CALL)                                                                                                                      \
    CALL(aes128_cfb_one)                                                                                                                   \
    CALL(ghash)                                                                                                                            \
    CALL(chacha20_poly1305_init)                                                                                                           \
    CALL(chacha20_poly1305_enc_update)                                                                                                     \
    CALL(chacha20_poly1305_dec_update)                                                                                                     \
    CALL(chacha20_poly1305_finalize)                                                                                                       \
    CALL(eea3_1_buffer)                                                                                                                    \
    CALL(eea3_4_buffer)                                                                                                                    \
    CALL(eea3_n_buffer)                                                                                                                    \
    CALL(eia3_1_buffer)                                                                                                                    \
    CALL(eia3_n_buffer)                                                                                                                    \
    CALL(f8_1_buffer)                                                                                                                      \
    CALL(f8_1_buffer_bit)                                                                                                                  \
    CALL(f8_2_buffer)                                                                                                                      \
    CALL(f8_3_buffer)                                                                                                                      \
    CALL(f8_4_buffer)                                                                                                                      \
    CALL(f8_n_buffer)                                                                                                                      \
    CALL(f9_1_buffer)                                                                                                                      \
    CALL(f9_1_buffer_user)                                                                                                                 \
    CALL(snow3g_f8_1_buffer_bit)                                                                                                           \
    CALL(snow3g_f8_1_buffer)                                                                                                               \
    CALL(snow3g_f8_2_buffer)                                                                                                               \
    CALL(snow3g_f8_4_buffer)                                                                                                               \
    CALL(snow3g_f8_8_buffer)                                                                                                               \
    CALL(snow3g_f8_n_buffer)                                                                                                               \
    CALL(snow3g_f8_8_buffer_multikey)                                                                                                      \
    CALL(snow3g_f8_n_buffer_multikey)                                                                                                      \
    CALL(snow3g_f9_1_buffer)                                                                                                               \
    CALL(hec_32)                                                                                                                           \
    CALL(hec_64)                                                                                                                           \
    CALL(crc32_ethernet_fcs)                                                                                                               \
    CALL(crc16_x25)                                                                                                                        \
    CALL(crc32_sctp)                                                                                                                       \
    CALL(crc24_lte_a)                                                                                                                      \
    CALL(crc24_lte_b)                                                                                                                      \
    CALL(crc16_fp_data)                                                                                                                    \
    CALL(crc11_fp_header)                                                                                                                  \
    CALL(crc7_fp_header)                                                                                                                   \
    CALL(crc10_iuup_data)                                                                                                                  \
    CALL(crc6_iuup_header)                                                                                                                 \
    CALL(crc32_wimax_ofdma_data)                                                                                                           \
    CALL(crc8_wimax_ofdma_hcs)                                                                                                             \
    COMPAT_ABSENT_RESULTS(CALL)

/* On x86-64 (System V ABI, 3.2.3) a function that takes nothing may be called with any arguments, and a result of 64 bits is in the
 * register that an int or a shorter one is taken from. */
#define DEFINE_RESULT(name)                                                                                                                \
    static uint64_t absent_##name(void) {                                                                                                  \
        return absent_result(#name);                                                                                                       \
    }
RESULTS(DEFINE_RESULT)

#define SET(name, function) m->name = (__typeof__(m->name))(void (*)(void))function;
#define SET_RESULT(name) SET(name, absent_##name)

void set_absent_functions(IMB_MGR *m) {
    RESULTS(SET_RESULT)
    SET(xcbc_keyexp, absent_key)
    SET(md5_one_block, absent_key)
    SET(ghash_pre, absent_key)
    SET(kasumi_key_sched_size, absent_key)
    SET(snow3g_key_sched_size, absent_key)
    SET(des_key_sched, absent_schedule)
    SET(kasumi_init_f8_key_sched, absent_schedule)
    SET(kasumi_init_f9_key_sched, absent_schedule)
    SET(snow3g_init_key_sched, absent_schedule)
}

/* ---- by name ---- */

IMB_DLL_EXPORT int des_key_schedule(uint64_t *schedule, const void *key) {
    (void)schedule, (void)key;
    return absent_schedule();
}

IMB_DLL_EXPORT int zuc_eea3_iv_gen(const uint32_t count, const uint8_t bearer, const uint8_t dir, void *iv) {
    (void)count, (void)bearer, (void)dir, (void)iv;
    return absent_schedule();
}

IMB_DLL_EXPORT int zuc_eia3_iv_gen(const uint32_t count, const uint8_t bearer, const uint8_t dir, void *iv) {
    (void)count, (void)bearer, (void)dir, (void)iv;
    return absent_schedule();
}

IMB_DLL_EXPORT int kasumi_f8_iv_gen(const uint32_t count, const uint8_t bearer, const uint8_t dir, void *iv) {
    (void)count, (void)bearer, (void)dir, (void)iv;
    return absent_schedule();
}

IMB_DLL_EXPORT int kasumi_f9_iv_gen(const uint32_t count, const uint32_t fresh, void *iv) {
    (void)count, (void)fresh, (void)iv;
    return absent_schedule();
}

IMB_DLL_EXPORT int snow3g_f8_iv_gen(const uint32_t count, const uint8_t bearer, const uint8_t dir, void *iv) {
    (void)count, (void)bearer, (void)dir, (void)iv;
    return absent_schedule();
}

IMB_DLL_EXPORT int snow3g_f9_iv_gen(const uint32_t count, const uint32_t fresh, const uint8_t dir, void *iv) {
    (void)count, (void)fresh, (void)dir, (void)iv;
    return absent_schedule();
}

#define XCBC(arch)                                                                                                                         \
    IMB_DLL_EXPORT void aes_xcbc_expand_key_##arch(const void *key, void *first, void *second, void *third) {                              \
        (void)key, (void)first, (void)second, (void)third;                                                                                 \
        absent_key();                                                                                                                      \
    }
COMPAT_KEY_ARCHITECTURES(XCBC)

#define MD5(arch)                                                                                                                          \
    IMB_DLL_EXPORT void md5_one_block_##arch(const void *block, void *state) {                                                             \
        (void)block, (void)state;                                                                                                          \
        absent_key();                                                                                                                      \
    }
COMPAT_ARCHITECTURES(MD5)
