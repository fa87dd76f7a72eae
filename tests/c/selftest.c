/* Tests include/mbj_selftest.c: no fault is found if there is none, every result that is spoiled is found and named, and a refusal is
 * told. Link with that file, with refuse.c, and with -Wl,--wrap for mbj_c_submit, mbj_c_submit_job and mbj_c_flush, whose results are spoiled here. */
#include "check.h"
#include "mbj_selftest.h"
#include "refuse.h"

#ifdef __cplusplus
extern "C" {
#endif

/* The linker puts the first of each pair in the place of the function, which is the second. */
bool __wrap_mbj_c_submit(struct mbj_handle *handle, struct mbj_raw_done *done, uint32_t *refusal);
bool __real_mbj_c_submit(struct mbj_handle *handle, struct mbj_raw_done *done, uint32_t *refusal);
bool __wrap_mbj_c_submit_job(struct mbj_handle *handle, const struct mbj_raw_job *job, struct mbj_raw_done *done, uint32_t *refusal);
bool __real_mbj_c_submit_job(struct mbj_handle *handle, const struct mbj_raw_job *job, struct mbj_raw_done *done, uint32_t *refusal);
bool __wrap_mbj_c_flush(struct mbj_handle *handle, struct mbj_raw_done *done, uint32_t *refusal);
bool __real_mbj_c_flush(struct mbj_handle *handle, struct mbj_raw_done *done, uint32_t *refusal);

/* The number of the result that is spoiled, from 1 on, where; and how many were given. */
enum place { FIRST_BYTE, LAST_BYTE, FIRST_TAG_BYTE, LAST_TAG_BYTE, STATUS, PLACES };

static long spoil_at, given;
static enum place place;
static bool is_spoiled;

static void spoil_byte(uint8_t *at, size_t len, bool is_last) {
    if (len == 0)
        return;
    at[is_last ? len - 1 : 0] ^= 1;
    is_spoiled = true;
}

static void spoil(struct mbj_raw_done *done) {
    switch (place) {
    case FIRST_BYTE: spoil_byte(done->dst.at, done->dst_len, false); return;
    case LAST_BYTE: spoil_byte(done->dst.at, done->dst_len, true); return;
    case FIRST_TAG_BYTE: spoil_byte(done->tag.at, done->tag_len, false); return;
    case LAST_TAG_BYTE: spoil_byte(done->tag.at, done->tag_len, true); return;
    default: done->status = 1; is_spoiled = true; return;
    }
}

static bool look_at(bool is_given, struct mbj_raw_done *done) {
    if (is_given && ++given == spoil_at)
        spoil(done);
    return is_given;
}

bool __wrap_mbj_c_submit(struct mbj_handle *handle, struct mbj_raw_done *done, uint32_t *refusal) {
    return look_at(__real_mbj_c_submit(handle, done, refusal), done);
}

bool __wrap_mbj_c_submit_job(struct mbj_handle *handle, const struct mbj_raw_job *job, struct mbj_raw_done *done, uint32_t *refusal) {
    return look_at(__real_mbj_c_submit_job(handle, job, done, refusal), done);
}

bool __wrap_mbj_c_flush(struct mbj_handle *handle, struct mbj_raw_done *done, uint32_t *refusal) {
    return look_at(__real_mbj_c_flush(handle, done, refusal), done);
}

#ifdef __cplusplus
}
#endif

/* Of the answers twelve are those of a cipher, which are done in both directions; six of these and the other ones have a tag. */
enum { ANSWERS = 27, CIPHERED = 24, TAGGED = 27, JOBS = 39 };

static const char *run_test(void) {
    static MBJ_MGR m;
    long before = blocks;
    given = 0;
    is_spoiled = false;
    const char *fault = mbj_selftest(&m);
    CHECK(blocks == before);
    return fault;
}

static void no_fault_is_found(void) {
    CHECK(run_test() == NULL && given == JOBS);
}

/* Each result is spoiled in turn, in each place where it has bytes. */
static void each_fault_is_found(void) {
    static const int counts[PLACES] = {CIPHERED, CIPHERED, TAGGED, TAGGED, JOBS};
    for (int i = 0; i < PLACES; i++) {
        int found = 0;
        place = (enum place)i;
        for (spoil_at = 1; spoil_at <= JOBS; spoil_at++) {
            const char *fault = run_test();
            CHECK(is_spoiled ? fault != NULL && given == spoil_at : fault == NULL && given == JOBS);
            found += is_spoiled;
        }
        CHECK(found == counts[i]);
    }
    spoil_at = 0;
}

/* Faults are named in the order of the answers, each by a name of its own. */
static void each_answer_has_a_name(void) {
    const char *names[ANSWERS];
    size_t count = 0;
    place = STATUS;
    for (spoil_at = 1; spoil_at <= JOBS; spoil_at++) {
        const char *fault = run_test();
        if (count == 0 || strcmp(fault, names[count - 1]) != 0) {
            CHECK(count < ANSWERS);
            for (size_t i = 0; i < count; i++)
                CHECK(strcmp(fault, names[i]) != 0);
            names[count++] = fault;
        }
    }
    spoil_at = 0;
    CHECK(count == ANSWERS && strcmp(names[0], "AES-CBC-128") == 0 && strcmp(names[ANSWERS - 1], "SHA-512") == 0);
}

static void want_of_memory_is_told(void) {
    for (long at = 1;; at++) {
        allocations = 0;
        refuse_at = at;
        const char *fault = run_test();
        refuse_at = 0;
        if (fault == NULL) {
            CHECK(at > JOBS);
            return;
        }
        CHECK(strcmp(fault, mbj_err_text(MBJ_ERR_MEMORY)) == 0);
    }
}

static void refusals_are_told(void) {
    faked_version = UINT32_MAX;
    CHECK(strcmp(run_test(), mbj_err_text(MBJ_ERR_VERSION)) == 0 && given == 0);
    faked_version = 0;
    faked_missing_feature = "avx2";
    CHECK(strcmp(run_test(), mbj_err_text(MBJ_ERR_PROCESSOR)) == 0 && given == 0);
    faked_missing_feature = NULL;
    CHECK(strcmp(mbj_selftest(NULL), mbj_err_text(MBJ_ERR_NULL)) == 0);
}

int main(void) {
    no_fault_is_found();
    each_fault_is_found();
    each_answer_has_a_name();
    want_of_memory_is_told();
    refusals_are_told();
    no_fault_is_found();
    return 0;
}
