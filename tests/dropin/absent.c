/* absent [continue]: calls of algorithms that aren't here. Those that would write a text, a tag, a digest or a key stream tell their name
 * once and end the process; those that make keys, schedules, sizes or IVs alone come back with ENOTSUP. With `continue`, for which
 * MBJ_DROPIN_ABSENT=continue is set, all come back, and nothing is written. This program is linked to the library. */
#define _GNU_SOURCE
#define NO_COMPAT_IMB_API_053
#include <intel-ipsec-mb.h>
#include <errno.h>
#include <signal.h>
#include <stdbool.h>
#include <stddef.h>
#include <stdio.h>
#include <string.h>
#include <sys/wait.h>
#include <unistd.h>

/* A call as one of bytes: on x86-64 those that look at fewer arguments may be given more. */
typedef uint64_t (*call)(void *, void *, void *, void *, void *, void *);

struct named {
    const char *name;
    call function;
};

enum { BYTES = 64, MARK = 0x5a };

static uint8_t bytes[6][BYTES];
static unsigned failed, called;

static void expect(bool is_so, const char *name, const char *what) {
    if (!is_so) {
        printf("%s: it isn't so that %s\n", name, what);
        failed++;
    }
}

static bool is_untouched(void) {
    for (size_t i = 0; i < sizeof bytes; i++)
        if (bytes[i / BYTES][i % BYTES] != MARK)
            return false;
    return true;
}

static uint64_t make(const struct named *named) {
    called++;
    return named->function(bytes[0], bytes[1], bytes[2], bytes[3], bytes[4], bytes[5]);
}

/* What a child writes to standard error while it makes the call, and how it ends. */
static int make_in_child(const struct named *named, char *text, size_t room) {
    int ends[2], status = 0;
    if (pipe(ends) != 0)
        return -1;
    pid_t child = fork();
    if (child == 0) {
        dup2(ends[1], STDERR_FILENO);
        make(named);
        _exit(0);
    }
    called++;
    close(ends[1]);
    ssize_t len = read(ends[0], text, room - 1);
    text[len > 0 ? len : 0] = 0;
    close(ends[0]);
    waitpid(child, &status, 0);
    return status;
}

static void expect_end(const struct named *named) {
    char text[1024];
    int status = make_in_child(named, text, sizeof text);
    const char *line = strchr(text, '\n'), *at = strstr(text, named->name);
    expect(WIFSIGNALED(status) && WTERMSIG(status) == SIGABRT, named->name, "the process ends by abort()");
    expect(line != NULL && line[1] == 0, named->name, "one line is written");
    expect(at != NULL && strstr(at + 1, named->name) == NULL, named->name, "its name stands there once");
}

/* Returns what the call does, which means something for those alone that return an int. */
static uint64_t expect_nothing(const struct named *named) {
    uint64_t given = make(named);
    expect(imb_get_errno(NULL) == ENOTSUP, named->name, "the error is ENOTSUP");
    expect(is_untouched(), named->name, "nothing is written");
    return given;
}

#define OF_TABLE(name) {#name, (call)(void (*)(void))m->name}
#define BY_NAME(name) {#name, (call)(void (*)(void))name}

/* Those that one version alone has. */
#if IMB_VERSION_NUM >= IMB_VERSION(2, 0, 0)
#define TEXTS_OF_VERSION                                                                                                                   \
    OF_TABLE(aes256_cfb_one), OF_TABLE(aes_ecb_128_quic), OF_TABLE(aes_ecb_256_quic), OF_TABLE(chacha20_poly1305_quic),                    \
        OF_TABLE(chacha20_hp_quic), BY_NAME(des_cfb_one), BY_NAME(imb_quic_hp_aes_ecb), BY_NAME(imb_quic_chacha20_poly1305),               \
        BY_NAME(imb_quic_hp_chacha20)
#define KEYS_OF_VERSION OF_TABLE(sm4_keyexp), BY_NAME(imb_sm4_gcm_pre)
#else
#define TEXTS_OF_VERSION                                                                                                                   \
    BY_NAME(aes_cfb_128_one_sse), BY_NAME(aes_cfb_128_one_avx), BY_NAME(aes_cfb_128_one_avx2), BY_NAME(aes_cfb_128_one_avx512)
#define KEYS_OF_VERSION BY_NAME(md5_one_block_avx)
#endif

/* Each of these calls ends the process, or all come back. */
static void check_each(const struct named *results, size_t count, bool goes_on) {
    for (size_t i = 0; i < count; i++)
        if (goes_on)
            expect_nothing(&results[i]);
        else
            expect_end(&results[i]);
}

static void check_texts(IMB_MGR *m, bool goes_on) {
    const struct named texts[] = {
        OF_TABLE(aes128_cfb_one),
        OF_TABLE(ghash),
        OF_TABLE(chacha20_poly1305_init),
        OF_TABLE(chacha20_poly1305_enc_update),
        OF_TABLE(chacha20_poly1305_dec_update),
        OF_TABLE(chacha20_poly1305_finalize),
        OF_TABLE(eea3_1_buffer),
        OF_TABLE(eea3_4_buffer),
        OF_TABLE(eea3_n_buffer),
        OF_TABLE(eia3_1_buffer),
        OF_TABLE(eia3_n_buffer),
        OF_TABLE(f8_1_buffer),
        OF_TABLE(f8_1_buffer_bit),
        OF_TABLE(f8_2_buffer),
        OF_TABLE(f8_3_buffer),
        OF_TABLE(f8_4_buffer),
        OF_TABLE(f8_n_buffer),
        OF_TABLE(f9_1_buffer),
        OF_TABLE(f9_1_buffer_user),
        OF_TABLE(snow3g_f8_1_buffer_bit),
        OF_TABLE(snow3g_f8_1_buffer),
        OF_TABLE(snow3g_f8_2_buffer),
        OF_TABLE(snow3g_f8_4_buffer),
        OF_TABLE(snow3g_f8_8_buffer),
        OF_TABLE(snow3g_f8_n_buffer),
        OF_TABLE(snow3g_f8_8_buffer_multikey),
        OF_TABLE(snow3g_f8_n_buffer_multikey),
        OF_TABLE(snow3g_f9_1_buffer),
        TEXTS_OF_VERSION,
    };
    check_each(texts, sizeof texts / sizeof *texts, goes_on);
}

static void check_checksums(IMB_MGR *m, bool goes_on) {
    const struct named checksums[] = {
        OF_TABLE(hec_32),
        OF_TABLE(hec_64),
        OF_TABLE(crc32_ethernet_fcs),
        OF_TABLE(crc16_x25),
        OF_TABLE(crc32_sctp),
        OF_TABLE(crc24_lte_a),
        OF_TABLE(crc24_lte_b),
        OF_TABLE(crc16_fp_data),
        OF_TABLE(crc11_fp_header),
        OF_TABLE(crc7_fp_header),
        OF_TABLE(crc10_iuup_data),
        OF_TABLE(crc6_iuup_header),
        OF_TABLE(crc32_wimax_ofdma_data),
        OF_TABLE(crc8_wimax_ofdma_hcs),
    };
    check_each(checksums, sizeof checksums / sizeof *checksums, goes_on);
}

static void check_keys(IMB_MGR *m) {
    const struct named keys[] = {
        OF_TABLE(xcbc_keyexp),
        OF_TABLE(md5_one_block),
        OF_TABLE(ghash_pre),
        OF_TABLE(kasumi_key_sched_size),
        OF_TABLE(snow3g_key_sched_size),
        BY_NAME(aes_xcbc_expand_key_sse),
        BY_NAME(aes_xcbc_expand_key_avx),
        BY_NAME(aes_xcbc_expand_key_avx2),
        BY_NAME(aes_xcbc_expand_key_avx512),
        BY_NAME(md5_one_block_sse),
        BY_NAME(md5_one_block_avx2),
        BY_NAME(md5_one_block_avx512),
        KEYS_OF_VERSION,
    };
    const struct named schedules[] = {
        OF_TABLE(des_key_sched),
        OF_TABLE(kasumi_init_f8_key_sched),
        OF_TABLE(kasumi_init_f9_key_sched),
        OF_TABLE(snow3g_init_key_sched),
        BY_NAME(des_key_schedule),
        BY_NAME(zuc_eea3_iv_gen),
        BY_NAME(zuc_eia3_iv_gen),
        BY_NAME(kasumi_f8_iv_gen),
        BY_NAME(kasumi_f9_iv_gen),
        BY_NAME(snow3g_f8_iv_gen),
        BY_NAME(snow3g_f9_iv_gen),
    };
    for (size_t i = 0; i < sizeof keys / sizeof *keys; i++)
        expect_nothing(&keys[i]);
    for (size_t i = 0; i < sizeof schedules / sizeof *schedules; i++)
        expect((int)expect_nothing(&schedules[i]) == -1, schedules[i].name, "it returns -1");
}

int main(int argc, char **argv) {
    bool goes_on = argc > 1 && strcmp(argv[1], "continue") == 0;
    IMB_MGR *m = alloc_mb_mgr(0);
    init_mb_mgr_auto(m, NULL);
    memset(bytes, MARK, sizeof bytes);
    check_texts(m, goes_on);
    check_checksums(m, goes_on);
    check_keys(m);
    free_mb_mgr(m);
    printf("%u absent calls, %u things aren't so\n", called, failed);
    return failed != 0;
}
