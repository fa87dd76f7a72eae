/* Hides one feature after another from the library's look at the processor: each time no manager is made, and none of the proved exports is
 * called. These are played here, and no archive is linked. Built for both levels. */
#define MBJ_OWN_PROCESSOR
#include "mbj_processor.c"

#include "check.h"

/* ---- the processor ---- */

/* A processor with leaves up to these, and what is set in the words that are looked at. */
struct processor {
    uint32_t last_leaf, last_extended_leaf, words[WORDS];
};

static struct processor processor;

static struct registers cpuid(uint32_t number) {
    struct registers r = {0, 0, 0, 0};
    switch (number) {
    case 0: r.eax = processor.last_leaf; break;
    case 1: r.ecx = processor.words[LEAF_1_ECX]; break;
    case 7: r.ebx = processor.words[LEAF_7_EBX]; break;
    case 0x80000000: r.eax = processor.last_extended_leaf; break;
    case 0x80000001: r.ecx = processor.words[LEAF_80000001_ECX]; break;
    default: CHECK(number == 0); /* no other leaf is looked at */
    }
    return r;
}

/* Bit 27 of leaf 1's ECX says that the instruction may be used. */
static uint32_t xgetbv(void) {
    CHECK((processor.words[LEAF_1_ECX] >> 27 & 1) != 0);
    return processor.words[XCR_0];
}

/* Where the manuals of Intel (volume 2, CPUID; volume 1, 13.3) and of AMD (volume 3, appendix E) have each feature of the two levels. */
static const struct {
    const char *name;
    enum word word;
    unsigned bit;
} bits[] = {
    {"sse3", LEAF_1_ECX, 0},
    {"ssse3", LEAF_1_ECX, 9},
    {"cmpxchg16b", LEAF_1_ECX, 13},
    {"sse4.1", LEAF_1_ECX, 19},
    {"sse4.2", LEAF_1_ECX, 20},
    {"popcnt", LEAF_1_ECX, 23},
    {"lahf", LEAF_80000001_ECX, 0},
#if MBJ_LEVEL == 3
    {"fma", LEAF_1_ECX, 12},
    {"movbe", LEAF_1_ECX, 22},
    {"xsave", LEAF_1_ECX, 27},
    {"avx", LEAF_1_ECX, 28},
    {"f16c", LEAF_1_ECX, 29},
    {"bmi", LEAF_7_EBX, 3},
    {"avx2", LEAF_7_EBX, 5},
    {"bmi2", LEAF_7_EBX, 8},
    {"lzcnt", LEAF_80000001_ECX, 5},
    {"saved ymm registers", XCR_0, 1},
    {"saved ymm registers", XCR_0, 2},
#endif
};

enum { BITS = sizeof bits / sizeof *bits };

/* Exactly what the level needs. */
static void make_processor(void) {
    memset(&processor, 0, sizeof processor);
    processor.last_leaf = 7;
    processor.last_extended_leaf = UINT32_C(0x80000001);
    for (int i = 0; i < BITS; i++)
        processor.words[bits[i].word] |= UINT32_C(1) << bits[i].bit;
}

/* ---- the proved exports ---- */

static unsigned calls;

#ifdef __cplusplus
extern "C" {
#endif

uint32_t mbj_c_version(void) {
    calls++;
    return MBJ_VERSION_NUM;
}

mbj_err mbj_c_new(struct mbj_handle *handle) {
    calls++;
    handle->at = &calls;
    return MBJ_ERR_NONE;
}

mbj_err mbj_c_new_keeping(struct mbj_handle *handle) {
    return mbj_c_new(handle);
}

const struct mbj_heap *mbj_c_name_heap(const struct mbj_heap *heap) {
    return heap;
}

bool mbj_c_has_heaps(void) {
    return true;
}

uint32_t mbj_c_is_same_tag(struct mbj_bytes one, struct mbj_bytes other) {
    (void)one, (void)other;
    calls++;
    return 0;
}

void mbj_c_wipe(struct mbj_room room) {
    (void)room;
    calls++;
}

mbj_err mbj_c_new_keeping_none(struct mbj_handle *handle) {
    return mbj_c_new(handle);
}

size_t mbj_c_held_bytes(struct mbj_handle *handle) {
    (void)handle;
    calls++;
    return 0;
}

void mbj_c_trim(struct mbj_handle *handle) {
    (void)handle;
    calls++;
}

bool mbj_c_free(struct mbj_handle *handle) {
    calls++;
    handle->at = NULL;
    return true;
}

uint32_t mbj_c_queue_size(struct mbj_handle *handle) {
    (void)handle;
    calls++;
    return 0;
}

mbj_err mbj_c_fill(struct mbj_handle *handle, const struct mbj_raw_job *raw) {
    (void)handle, (void)raw;
    calls++;
    return MBJ_ERR_MEMORY;
}

static bool give_none(struct mbj_handle *handle, struct mbj_raw_done *done, uint32_t *refusal) {
    (void)handle, (void)done;
    calls++;
    *refusal = MBJ_ERR_NONE;
    return false;
}

bool mbj_c_submit(struct mbj_handle *handle, struct mbj_raw_done *done, uint32_t *refusal) {
    return give_none(handle, done, refusal);
}

bool mbj_c_submit_job(struct mbj_handle *handle, const struct mbj_raw_job *raw, struct mbj_raw_done *done, uint32_t *refusal) {
    (void)raw;
    return give_none(handle, done, refusal);
}

bool mbj_c_get_completed(struct mbj_handle *handle, struct mbj_raw_done *done, uint32_t *refusal) {
    return give_none(handle, done, refusal);
}

bool mbj_c_flush(struct mbj_handle *handle, struct mbj_raw_done *done, uint32_t *refusal) {
    return give_none(handle, done, refusal);
}

#ifdef __cplusplus
}
#endif

/* ---- tests ---- */

static MBJ_MGR m;

/* No call of the interface reaches a proved export. */
static void nothing_is_called_without(const char *name) {
    calls = 0;
    CHECK(mbj_c_missing_feature() != NULL && strcmp(mbj_c_missing_feature(), name) == 0);
    CHECK(mbj_init_mgr(&m) == MBJ_ERR_PROCESSOR && mbj_get_errno(&m) == MBJ_ERR_PROCESSOR && mbj_alloc_mgr() == NULL);
    CHECK(mbj_init_mgr_keeping(&m) == MBJ_ERR_PROCESSOR && mbj_held_bytes(&m) == 0);
    mbj_trim(&m);
    CHECK(mbj_get_next_job(&m) != NULL && mbj_submit_job(&m) == NULL && mbj_get_errno(&m) == MBJ_ERR_NO_MANAGER);
    CHECK(mbj_get_completed_job(&m) == NULL && mbj_flush_job(&m) == NULL && mbj_queue_size(&m) == 0);
    mbj_end_mgr(&m);
    CHECK(mbj_version_text() != NULL && calls == 0);
}

static void each_feature_is_missed(void) {
    for (int i = 0; i < BITS; i++) {
        make_processor();
        processor.words[bits[i].word] ^= UINT32_C(1) << bits[i].bit;
        nothing_is_called_without(bits[i].name);
    }
}

/* What a processor says of leaves that it hasn't is not looked at. */
static void leaves_that_are_not_there(void) {
    make_processor();
    processor.last_extended_leaf = UINT32_C(0x80000000);
    nothing_is_called_without("lahf");
    make_processor();
    processor.last_extended_leaf = 7;
    nothing_is_called_without("lahf");
#if MBJ_LEVEL == 3
    make_processor();
    processor.last_leaf = 6;
    nothing_is_called_without("avx2");
#endif
}

static void all_features_are_enough(void) {
    make_processor();
    CHECK(mbj_c_missing_feature() == NULL);
    CHECK(mbj_init_mgr(&m) == MBJ_ERR_NONE && calls != 0);
    mbj_end_mgr(&m);
    CHECK(m.handle.at == NULL);
}

int main(void) {
    each_feature_is_missed();
    leaves_that_are_not_there();
    all_features_are_enough();
    CHECK(strcmp(mbj_version_text(), MBJ_VERSION_STR " for x86-64-v" LEVEL_TEXT(MBJ_LEVEL) ", " MBJ_TOOLCHAIN) == 0);
    return 0;
}
