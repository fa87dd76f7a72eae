/* Tests key sessions: sets of keys and their handles, and managers that use them. Link with refuse.c. */
#include "check.h"
#include "refuse.h"

/* FIPS 197, A.2 and A.3. */
static const uint8_t key_192[24] = {0x8e, 0x73, 0xb0, 0xf7, 0xda, 0x0e, 0x64, 0x52, 0xc8, 0x10, 0xf3, 0x2b,
                                    0x80, 0x90, 0x79, 0xe5, 0x62, 0xf8, 0xea, 0xd2, 0x52, 0x2c, 0x6b, 0x7b};
static const uint8_t key_256[32] = {0x60, 0x3d, 0xeb, 0x10, 0x15, 0xca, 0x71, 0xbe, 0x2b, 0x73, 0xae, 0xf0, 0x85, 0x7d, 0x77, 0x81,
                                    0x1f, 0x35, 0x2c, 0x07, 0x3b, 0x61, 0x08, 0xd7, 0x2d, 0x98, 0x10, 0xa3, 0x09, 0x14, 0xdf, 0xf4};

enum { KEYS = 3 };

static const struct mbj_bytes three_keys[KEYS] = {{cbc_key, sizeof cbc_key}, {key_192, sizeof key_192}, {key_256, sizeof key_256}};

static void sets_are_made_of_keys_of_aes(void) {
    static struct mbj_bytes keys[MBJ_MAX_SESSIONS + 1];
    struct mbj_keys set = MBJ_KEYS_INIT;
    for (size_t i = 0; i <= MBJ_MAX_SESSIONS; i++)
        keys[i] = three_keys[i % KEYS];
    CHECK(!mbj_keys_free(&set));
    CHECK(mbj_keys_new(&set, keys, MBJ_MAX_SESSIONS + 1) == MBJ_ERR_MANY_KEYS && set.at == NULL);
    keys[MBJ_MAX_SESSIONS - 1].len = 31;
    CHECK(mbj_keys_new(&set, keys, MBJ_MAX_SESSIONS) == MBJ_ERR_KEY_LENGTH && set.at == NULL);
    keys[MBJ_MAX_SESSIONS - 1].len = 0;
    CHECK(mbj_keys_new(&set, keys, MBJ_MAX_SESSIONS) == MBJ_ERR_KEY_LENGTH && set.at == NULL);
    CHECK(mbj_keys_new(&set, keys, MBJ_MAX_SESSIONS - 1) == MBJ_ERR_NONE && set.at != NULL);
    CHECK(mbj_keys_new(&set, keys, 1) == MBJ_ERR_HAS_KEYS && set.at != NULL);
    CHECK(mbj_keys_free(&set) && set.at == NULL);
    CHECK(!mbj_keys_free(&set) && blocks == 0);
    CHECK(mbj_keys_new(&set, keys, 0) == MBJ_ERR_NONE && mbj_keys_free(&set) && blocks == 0);
}

static void handles_share_a_set(void) {
    struct mbj_keys one = MBJ_KEYS_INIT, other = MBJ_KEYS_INIT;
    CHECK(mbj_keys_share(&one, &other) == MBJ_ERR_NO_KEYS);
    CHECK(mbj_keys_new(&one, three_keys, KEYS) == MBJ_ERR_NONE);
    CHECK(mbj_keys_share(&one, &other) == MBJ_ERR_NONE && other.at != NULL);
    CHECK(mbj_keys_share(&one, &other) == MBJ_ERR_HAS_KEYS);
    CHECK(mbj_keys_free(&one) && blocks != 0 && mbj_keys_free(&other) && blocks == 0);
}

/* The block of SP 800-38A, F.2.1, with this session beside its key. */
static void check_block(MBJ_MGR *m, uint32_t session) {
    uint8_t dst[CBC_BYTES] = {0};
    MBJ_JOB *job = mbj_get_next_job(m);
    CHECK(job->session == MBJ_NO_SESSION);
    fill_cbc(job, cbc_text, sizeof cbc_text, 0, dst);
    job->session = session;
    CHECK(is_done(finish(m)) && memcmp(dst, cbc_ciphertext, sizeof dst) == 0);
}

/* The session with the job's key, those with other keys, numbers of no session, and none: the key decides. */
static void check_sessions(MBJ_MGR *m) {
    static const uint32_t sessions[] = {0, 1, 2, 3, 256, UINT32_MAX - 1, MBJ_NO_SESSION};
    for (size_t i = 0; i < sizeof sessions / sizeof *sessions; i++)
        check_block(m, sessions[i]);
}

static void the_key_decides(void) {
    struct mbj_keys set = MBJ_KEYS_INIT, no_set = MBJ_KEYS_INIT;
    static MBJ_MGR none;
    CHECK(mbj_use_keys(NULL, &set) == MBJ_ERR_NO_MANAGER && mbj_use_keys(&none, &set) == MBJ_ERR_NO_MANAGER);
    MBJ_MGR *m = mbj_alloc_mgr();
    CHECK(mbj_use_keys(m, NULL) == MBJ_ERR_NO_KEYS && mbj_use_keys(m, &no_set) == MBJ_ERR_NO_KEYS && mbj_get_errno(m) == MBJ_ERR_NO_KEYS);
    check_sessions(m);
    CHECK(mbj_keys_new(&set, three_keys, KEYS) == MBJ_ERR_NONE);
    CHECK(mbj_use_keys(m, &set) == MBJ_ERR_NONE && mbj_get_errno(m) == MBJ_ERR_NONE);
    CHECK(mbj_keys_free(&set));
    check_sessions(m);
    mbj_free_mgr(m);
    CHECK(blocks == 0);
}

/* Keys are changed while a job waits for lanes: it is done with its own key, and so is the next one, whose session has another key in the
 * new set. */
static void keys_are_changed_in_flight(void) {
    struct mbj_keys old = MBJ_KEYS_INIT, next = MBJ_KEYS_INIT;
    uint8_t first[CBC_BYTES] = {0}, second[CBC_BYTES] = {0};
    MBJ_MGR *m = mbj_alloc_mgr();
    CHECK(mbj_keys_new(&old, three_keys, 1) == MBJ_ERR_NONE && mbj_use_keys(m, &old) == MBJ_ERR_NONE);
    MBJ_JOB *job = mbj_get_next_job(m);
    fill_cbc(job, cbc_text, sizeof cbc_text, 0, first);
    job->session = 0;
    CHECK(mbj_submit_job(m) == NULL && mbj_queue_size(m) == 1);
    CHECK(mbj_keys_new(&next, three_keys + 1, KEYS - 1) == MBJ_ERR_NONE && mbj_use_keys(m, &next) == MBJ_ERR_NONE);
    CHECK(mbj_keys_free(&old) && mbj_keys_free(&next));
    job = mbj_get_next_job(m);
    fill_cbc(job, cbc_text, sizeof cbc_text, 0, second);
    job->session = 0;
    CHECK(mbj_submit_job(m) == NULL && is_done(mbj_flush_job(m)) && is_done(mbj_flush_job(m)));
    CHECK(memcmp(first, cbc_ciphertext, CBC_BYTES) == 0 && memcmp(second, cbc_ciphertext, CBC_BYTES) == 0);
    mbj_free_mgr(m);
    CHECK(blocks == 0);
}

/* Whether a set was made, shared and used, if an allocation may be refused; else nothing stays of it. */
static bool goes_well(MBJ_MGR *m) {
    struct mbj_keys one = MBJ_KEYS_INIT, other = MBJ_KEYS_INIT;
    mbj_err made = mbj_keys_new(&one, three_keys, KEYS);
    mbj_err shared = made == MBJ_ERR_NONE ? mbj_keys_share(&one, &other) : made;
    mbj_err used = shared == MBJ_ERR_NONE ? mbj_use_keys(m, &other) : shared;
    CHECK(used == MBJ_ERR_NONE || used == MBJ_ERR_MEMORY);
    CHECK(mbj_keys_free(&one) == (made == MBJ_ERR_NONE) && mbj_keys_free(&other) == (shared == MBJ_ERR_NONE));
    return used == MBJ_ERR_NONE;
}

static void each_allocation_is_refused(void) {
    MBJ_MGR *m = mbj_alloc_mgr();
    long before = blocks;
    for (long number = 1;; number++) {
        refuse_at = allocations + number;
        bool is_well = goes_well(m);
        refuse_at = 0;
        if (is_well) {
            CHECK(number > KEYS + 3);
            break;
        }
        mbj_trim(m);
        CHECK(blocks == before);
        check_block(m, 0);
    }
    check_sessions(m);
    mbj_free_mgr(m);
    CHECK(blocks == 0);
}

int main(void) {
    sets_are_made_of_keys_of_aes();
    handles_share_a_set();
    the_key_decides();
    keys_are_changed_in_flight();
    each_allocation_is_refused();
    return 0;
}
