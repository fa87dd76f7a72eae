/* added OTHER DROPIN: compares what two libraries do by the calls that intel-ipsec-mb 2.0 has added, but for that of QUIC: sessions, states
 * of HMAC, sizes of bursts, the function that is told of self-tests, and the name of the architecture. Numbers of sessions and of suites
 * aren't compared, nor sizes that a library has by its own lanes. In 1.3 there is nothing to compare. */
#include "library.h"

#include <stdio.h>
#include <string.h>

#if IS_VERSION_2

#include <dlfcn.h>
#include <errno.h>

/* The calls by their names in a library. */
struct calls {
    __typeof__(&imb_set_session) set_session;
    __typeof__(&imb_hmac_ipad_opad) hmac_states;
    __typeof__(&imb_hash_burst_get_size) hash_size;
    __typeof__(&imb_cipher_burst_get_size) cipher_size;
    __typeof__(&imb_aead_burst_get_size) aead_size;
    __typeof__(&imb_self_test_set_cb) set_function;
    __typeof__(&imb_self_test_get_cb) get_function;
    __typeof__(&imb_get_arch_type_string) architecture;
};

static struct library libraries[2];
static struct calls calls[2];
static unsigned compared, differing;

static void compare(const char *what, long number, long theirs, long ours) {
    compared++;
    if (theirs != ours && differing++ < 30)
        printf("%s (%ld): %ld and %ld\n", what, number, theirs, ours);
}

#define FIND(side, field, name) *(void **)&calls[side].field = dlsym(libraries[side].loaded, #name)

static void find_calls(int side) {
    FIND(side, set_session, imb_set_session);
    FIND(side, hmac_states, imb_hmac_ipad_opad);
    FIND(side, hash_size, imb_hash_burst_get_size);
    FIND(side, cipher_size, imb_cipher_burst_get_size);
    FIND(side, aead_size, imb_aead_burst_get_size);
    FIND(side, set_function, imb_self_test_set_cb);
    FIND(side, get_function, imb_self_test_get_cb);
    FIND(side, architecture, imb_get_arch_type_string);
}

/* ---- which algorithms the second library has ---- */

static bool has_cipher(int cipher) {
    return cipher == IMB_CIPHER_CBC || cipher == IMB_CIPHER_CNTR || cipher == IMB_CIPHER_NULL || cipher == IMB_CIPHER_GCM ||
           cipher == IMB_CIPHER_CUSTOM || cipher == IMB_CIPHER_CCM || cipher == IMB_CIPHER_CNTR_BITLEN || cipher == IMB_CIPHER_GCM_SGL;
}

static bool has_hash(int hash) {
    return hash == IMB_AUTH_NULL || (hash >= IMB_AUTH_HMAC_SHA_1 && hash <= IMB_AUTH_HMAC_SHA_512) ||
           (hash >= IMB_AUTH_SHA_1 && hash <= IMB_AUTH_SHA_512) || hash == IMB_AUTH_AES_GMAC || hash == IMB_AUTH_CUSTOM ||
           hash == IMB_AUTH_AES_CCM || hash == IMB_AUTH_AES_CMAC || hash == IMB_AUTH_AES_CMAC_BITLEN || hash == IMB_AUTH_AES_CMAC_256 ||
           (hash >= IMB_AUTH_AES_GMAC_128 && hash <= IMB_AUTH_AES_GMAC_256) || hash == IMB_AUTH_GCM_SGL;
}

static bool is_none(int code, int behind_last) {
    return code <= 0 || code >= behind_last;
}

/* ---- sessions ---- */

static IMB_JOB job_of(int cipher, int dir, size_t key_len, int hash) {
    IMB_JOB job;
    memset(&job, 0, sizeof job);
    job.cipher_mode = (IMB_CIPHER_MODE)cipher;
    job.cipher_direction = (IMB_CIPHER_DIRECTION)dir;
    job.key_len_in_bytes = key_len;
    job.hash_alg = (IMB_HASH_ALG)hash;
    return job;
}

/* Whether a session is given, and the error. Two sessions have numbers that differ, and the same suite. */
static long session_of(int side, int cipher, int dir, size_t key_len, int hash) {
    IMB_MGR *m = libraries[side].m;
    IMB_JOB one = job_of(cipher, dir, key_len, hash), other = one;
    uint32_t number = calls[side].set_session(m, &one);
    int error = m->imb_errno;
    if (number == 0)
        return error;
    bool is_another = calls[side].set_session(m, &other) != number && one.session_id == number && other.session_id != number;
    return is_another && memcmp(one.suite_id, other.suite_id, sizeof one.suite_id) == 0 ? 0 : -1;
}

/* Of algorithms that the second library hasn't it may give a session if the first one doesn't, and never the other way round. */
static void compare_sessions(void) {
    static const size_t key_lens[] = {0, 8, 15, 16, 17, 24, 25, 32, 33, 64};
    for (int cipher = 0; cipher <= IMB_CIPHER_NUM; cipher++)
        for (int hash = 0; hash <= IMB_AUTH_NUM; hash++)
            for (int dir = 0; dir <= 3; dir++)
                for (size_t k = 0; k < sizeof key_lens / sizeof *key_lens; k++) {
                    long theirs = session_of(0, cipher, dir, key_lens[k], hash), ours = session_of(1, cipher, dir, key_lens[k], hash);
                    bool is_cipher_here = has_cipher(cipher) || is_none(cipher, IMB_CIPHER_NUM);
                    bool is_hash_here = has_hash(hash) || is_none(hash, IMB_AUTH_NUM);
                    if ((is_cipher_here && is_hash_here) || theirs == 0)
                        compare("a session", cipher * 1000000L + hash * 10000L + dir * 1000L + (long)key_lens[k], theirs, ours);
                }
}

static void compare_wrong_sessions(void) {
    IMB_JOB job = job_of(IMB_CIPHER_CBC, IMB_DIR_ENCRYPT, 16, IMB_AUTH_NULL);
    long results[2][4];
    for (int side = 0; side < 2; side++) {
        results[side][0] = calls[side].set_session(NULL, &job);
        results[side][1] = libraries[side].error(NULL);
        results[side][2] = calls[side].set_session(libraries[side].m, NULL);
        results[side][3] = libraries[side].error(libraries[side].m);
    }
    for (int i = 0; i < 4; i++)
        compare("a session without a manager or a job", i, results[0][i], results[1][i]);
}

/* ---- suites in checked bursts, and what a slot keeps ---- */

static uint8_t text[64], tag[64], pads[2][64];
DECLARE_ALIGNED(static uint8_t schedules[2][240], 16);

static void fill(IMB_JOB *job, int kind) {
    static const int ciphers[] = {IMB_CIPHER_CBC, IMB_CIPHER_CBC, IMB_CIPHER_CNTR, IMB_CIPHER_NULL, IMB_CIPHER_NULL, IMB_CIPHER_CBC};
    static const int hashes[] = {IMB_AUTH_NULL,   IMB_AUTH_HMAC_SHA_1, IMB_AUTH_NULL,
                                 IMB_AUTH_SHA_256, IMB_AUTH_HMAC_SHA_1, IMB_AUTH_NULL};
    *job = job_of(ciphers[kind], kind == 5 ? IMB_DIR_DECRYPT : IMB_DIR_ENCRYPT, 16, hashes[kind]);
    job->chain_order = IMB_ORDER_CIPHER_HASH;
    job->enc_keys = schedules[0];
    job->dec_keys = schedules[1];
    job->src = job->dst = text;
    job->msg_len_to_cipher_in_bytes = job->msg_len_to_hash_in_bytes = 64;
    job->iv = pads[0];
    job->iv_len_in_bytes = 16;
    job->auth_tag_output = tag;
    job->auth_tag_output_len_in_bytes = hashes[kind] == IMB_AUTH_SHA_256 ? 32 : 20;
    job->u.HMAC._hashed_auth_key_xor_ipad = pads[0];
    job->u.HMAC._hashed_auth_key_xor_opad = pads[1];
}

enum { KINDS = 6 };

/* A burst of one job, whose suite is that of a session of another kind, or of none. Whether it was taken, and if not why. */
static long burst_with_suite(int side, int kind, int other) {
    IMB_MGR *m = libraries[side].m;
    IMB_JOB *jobs[1], session;
    if (IMB_GET_NEXT_BURST(m, 1, jobs) != 1)
        return -1;
    IMB_JOB *job = jobs[0];
    fill(job, kind);
    if (other < KINDS) {
        fill(&session, other);
        calls[side].set_session(m, &session);
        memcpy(job->suite_id, session.suite_id, sizeof job->suite_id);
    }
    uint32_t given = IMB_SUBMIT_BURST(m, 1, jobs);
    int error = m->imb_errno;
    long taken = IMB_QUEUE_SIZE(m) + given;
    if (taken == 0)
        taken = error * 100L + job->status * 10L + (jobs[0] == job);
    while (IMB_FLUSH_JOB(m) != NULL)
        ;
    return taken;
}

static void compare_suites(void) {
    for (int kind = 0; kind < KINDS; kind++)
        for (int other = 0; other <= KINDS; other++)
            compare("a burst with the suite of another job", kind * 10 + other, burst_with_suite(0, kind, other),
                    burst_with_suite(1, kind, other));
}

/* What a slot has of a session stays when its job is back. */
static void check_slots(void) {
    for (int side = 0; side < 2; side++)
        for (int kind = 0; kind < KINDS; kind++) {
            IMB_MGR *m = libraries[side].m;
            IMB_JOB *job = IMB_GET_NEXT_JOB(m), before;
            fill(job, kind);
            calls[side].set_session(m, job);
            before = *job;
            if (IMB_SUBMIT_JOB(m) == NULL)
                IMB_FLUSH_JOB(m);
            before.status = job->status;
            compare("a slot keeps its session", side * 10 + kind, 0, memcmp(&before, job, sizeof before));
        }
}

/* ---- states of HMAC ---- */

static void compare_states(void) {
    static const size_t lens[] = {0, 1, 20, 55, 56, 63, 64, 65, 111, 112, 127, 128, 129, 200, 300};
    for (int hash = 0; hash <= IMB_AUTH_NUM; hash++)
        for (size_t k = 0; k < sizeof lens / sizeof *lens; k++)
            for (int missing = 0; missing < 4; missing++) {
                uint8_t key[300], states[2][2][128];
                int errors[2];
                bool is_here = has_hash(hash) || is_none(hash, IMB_AUTH_NUM);
                draw_bytes(key, sizeof key);
                memset(states, 0x5a, sizeof states);
                for (int side = 0; side < 2 && is_here; side++) {
                    calls[side].hmac_states(libraries[side].m, (IMB_HASH_ALG)hash, missing == 1 ? NULL : key, lens[k],
                                            missing == 2 ? NULL : states[side][0], missing == 3 ? NULL : states[side][1]);
                    errors[side] = libraries[side].error(libraries[side].m);
                }
                if (!is_here)
                    continue;
                compare("the error of states of HMAC", hash * 10000L + (long)lens[k] * 10 + missing, errors[0], errors[1]);
                compare("states of HMAC", hash * 10000L + (long)lens[k] * 10 + missing, 0, memcmp(states[0], states[1], sizeof states[0]));
            }
}

/* ---- sizes of bursts ---- */

/* As the header says it: without a place the first library ends the process. */
static void check_wrong_sizes(void) {
    const IMB_MGR *m = libraries[1].m;
    unsigned size;
    compare("the size of hashes without a manager", 0, IMB_ERR_NULL_MBMGR, calls[1].hash_size(NULL, IMB_AUTH_SHA_1, &size));
    compare("the size of hashes without a place", 0, IMB_ERR_NULL_BURST, calls[1].hash_size(m, IMB_AUTH_SHA_1, NULL));
    compare("the size of ciphers without a manager", 0, IMB_ERR_NULL_MBMGR, calls[1].cipher_size(NULL, IMB_CIPHER_CBC, &size));
    compare("the size of ciphers without a place", 0, IMB_ERR_NULL_BURST, calls[1].cipher_size(m, IMB_CIPHER_CBC, NULL));
    compare("the size of AEADs without a manager", 0, IMB_ERR_NULL_MBMGR, calls[1].aead_size(NULL, IMB_CIPHER_CCM, &size));
    compare("the size of AEADs without a place", 0, IMB_ERR_NULL_BURST, calls[1].aead_size(m, IMB_CIPHER_CCM, NULL));
}

static void compare_sizes(void) {
    unsigned sizes[2];
    for (int hash = 0; hash <= IMB_AUTH_NUM; hash++)
        if (has_hash(hash) || is_none(hash, IMB_AUTH_NUM)) {
            long results[2];
            for (int side = 0; side < 2; side++)
                results[side] = calls[side].hash_size(libraries[side].m, (IMB_HASH_ALG)hash, &sizes[side]);
            compare("the size of a burst of hashes", hash, results[0], results[1]);
            compare("whether it is none", hash, sizes[0] == 0, sizes[1] == 0);
        }
    for (int cipher = 0; cipher <= IMB_CIPHER_NUM; cipher++)
        if (has_cipher(cipher) || is_none(cipher, IMB_CIPHER_NUM))
            for (int is_aead = 0; is_aead < 2; is_aead++) {
                long results[2];
                for (int side = 0; side < 2; side++)
                    results[side] = is_aead ? calls[side].aead_size(libraries[side].m, (IMB_CIPHER_MODE)cipher, &sizes[side])
                                            : calls[side].cipher_size(libraries[side].m, (IMB_CIPHER_MODE)cipher, &sizes[side]);
                compare("the size of a burst of ciphers", cipher * 10 + is_aead, results[0], results[1]);
                compare("whether it is none", cipher * 10 + is_aead, sizes[0] == 0, sizes[1] == 0);
            }
    check_wrong_sizes();
}

/* ---- the function that is told of self-tests ---- */

struct told {
    unsigned starts, passes, others;
};

static int note_phase(void *argument, const IMB_SELF_TEST_CALLBACK_DATA *data) {
    struct told *told = argument;
    bool is_start = strcmp(data->phase, IMB_SELF_TEST_PHASE_START) == 0, is_pass = strcmp(data->phase, IMB_SELF_TEST_PHASE_PASS) == 0;
    if (is_start && (data->type == NULL || data->descr == NULL))
        told->others += 100;
    told->starts += is_start;
    told->passes += is_pass;
    told->others += strcmp(data->phase, IMB_SELF_TEST_PHASE_FAIL) == 0;
    return 1;
}

static void compare_self_tests(void) {
    long results[2][8];
    for (int side = 0; side < 2; side++) {
        IMB_MGR *m = libraries[side].alloc(0);
        struct told told = {0, 0, 0};
        imb_self_test_cb_t function = NULL;
        void *argument = NULL;
        long *result = results[side];
        result[0] = calls[side].set_function(NULL, note_phase, &told);
        result[1] = calls[side].set_function(m, note_phase, &told);
        result[2] = calls[side].get_function(m, &function, &argument) == 0 && function == note_phase && argument == &told;
        result[3] = calls[side].get_function(NULL, &function, &argument);
        result[4] = calls[side].get_function(m, NULL, NULL) != 0;
        libraries[side].init(m, NULL);
        result[5] = told.starts != 0 && told.starts == told.passes && told.others == 0;
        result[6] = (long)(m->features & (IMB_FEATURE_SELF_TEST | IMB_FEATURE_SELF_TEST_PASS));
        told = (struct told){0, 0, 0};
        calls[side].set_function(m, NULL, NULL);
        libraries[side].init(m, NULL);
        result[7] = told.starts + told.passes + told.others;
        libraries[side].release(m);
    }
    for (int i = 0; i < 8; i++)
        compare("self-tests", i, results[0][i], results[1][i]);
}

/* ---- the architecture ---- */

static void compare_architectures(void) {
    const char *name = NULL, *features = NULL;
    for (int i = 0; i < 3; i++) {
        long results[2];
        for (int side = 0; side < 2; side++)
            results[side] = calls[side].architecture(i == 0 ? NULL : libraries[side].m, i == 1 ? NULL : &name, i == 2 ? NULL : &features);
        compare("the name of the architecture", i, results[0], results[1]);
    }
    calls[1].architecture(libraries[1].m, &name, &features);
    compare("it has a text", 0, 1, name != NULL && features != NULL && name[0] != 0 && features[0] != 0);
}

int main(int argc, char **argv) {
    if (argc < 3)
        return 2;
    start_drawing(1);
    for (int side = 0; side < 2; side++) {
        load_library(&libraries[side], argv[1 + side]);
        find_calls(side);
    }
    compare_sessions();
    compare_wrong_sessions();
    compare_suites();
    check_slots();
    compare_states();
    compare_sizes();
    compare_self_tests();
    compare_architectures();
    printf("%u things compared, %u differ\n", compared, differing);
    for (int side = 0; side < 2; side++)
        libraries[side].release(libraries[side].m);
    return differing != 0;
}

#else

int main(void) {
    puts("nothing was added in 1.3");
    return 0;
}

#endif
