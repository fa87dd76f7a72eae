/* What an archive was built for, and whether the processor has it. `make` compiles this file into each archive, for every x86-64. It
 * needs MBJ_LEVEL, 2 or 3, the level of x86-64 that the archive was built for, and MBJ_TOOLCHAIN, the line of the toolchain that made it.
 *
 * The levels are those of the System V ABI, AMD64 supplement, 3.1.1. */
#include "mbj.h"

#include <cpuid.h>

#if MBJ_LEVEL != 2 && MBJ_LEVEL != 3
#error "MBJ_LEVEL is 2 or 3"
#endif

#define LEVEL_TEXT(level) MBJ_QUOTE_(level)

#ifdef __cplusplus
extern "C" {
#endif

/* The words in which features are told: registers of CPUID's leaves, and what the operating system saves. */
enum word { LEAF_1_ECX, LEAF_7_EBX, LEAF_80000001_ECX, XCR_0, WORDS };

/* A feature is there if all these bits of its word are set. */
struct feature {
    const char *name;
    enum word word;
    uint32_t bits;
};

enum { SAVES_XMM = 2, SAVES_YMM = 4 };

static const struct feature features[] = {
    {"sse3", LEAF_1_ECX, bit_SSE3},
    {"ssse3", LEAF_1_ECX, bit_SSSE3},
    {"cmpxchg16b", LEAF_1_ECX, bit_CMPXCHG16B},
    {"sse4.1", LEAF_1_ECX, bit_SSE4_1},
    {"sse4.2", LEAF_1_ECX, bit_SSE4_2},
    {"popcnt", LEAF_1_ECX, bit_POPCNT},
    {"lahf", LEAF_80000001_ECX, bit_LAHF_LM},
#if MBJ_LEVEL == 3
    {"xsave", LEAF_1_ECX, bit_OSXSAVE},
    {"avx", LEAF_1_ECX, bit_AVX},
    {"saved ymm registers", XCR_0, SAVES_XMM | SAVES_YMM},
    {"avx2", LEAF_7_EBX, bit_AVX2},
    {"bmi", LEAF_7_EBX, bit_BMI},
    {"bmi2", LEAF_7_EBX, bit_BMI2},
    {"f16c", LEAF_1_ECX, bit_F16C},
    {"fma", LEAF_1_ECX, bit_FMA},
    {"lzcnt", LEAF_80000001_ECX, bit_LZCNT},
    {"movbe", LEAF_1_ECX, bit_MOVBE},
#endif
};

struct registers {
    uint32_t eax, ebx, ecx, edx;
};

/* A leaf of CPUID that the processor has, with the subleaf 0. */
static struct registers cpuid(uint32_t number);

/* The lower half of XCR0. It traps if the operating system doesn't use XSAVE. */
static uint32_t xgetbv(void);

#ifndef MBJ_OWN_PROCESSOR /* a test has a processor of its own */
static struct registers cpuid(uint32_t number) {
    struct registers r;
    __cpuid_count(number, 0, r.eax, r.ebx, r.ecx, r.edx);
    return r;
}

static uint32_t xgetbv(void) {
    uint32_t low, high;
    __asm__ volatile("xgetbv" : "=a"(low), "=d"(high) : "c"(0));
    return low;
}
#endif

/* A leaf of CPUID, or zeros if the processor doesn't have it. Leaf 0 tells the last one, and 0x80000000 that of those from there on. */
static struct registers leaf(uint32_t number) {
    static const struct registers none = {0, 0, 0, 0};
    uint32_t last = cpuid(number & UINT32_C(0x80000000)).eax;
    return number <= last ? cpuid(number) : none;
}

static void read_words(uint32_t *words) {
    words[LEAF_1_ECX] = leaf(1).ecx;
    words[LEAF_7_EBX] = leaf(7).ebx;
    words[LEAF_80000001_ECX] = leaf(UINT32_C(0x80000001)).ecx;
    words[XCR_0] = (words[LEAF_1_ECX] & bit_OSXSAVE) != 0 ? xgetbv() : 0;
}

const char *mbj_c_missing_feature(void) {
    uint32_t words[WORDS];
    read_words(words);
    for (size_t i = 0; i < sizeof features / sizeof *features; i++)
        if ((words[features[i].word] & features[i].bits) != features[i].bits)
            return features[i].name;
    return NULL;
}

const char *mbj_c_build_text(void) {
    return MBJ_VERSION_STR " for x86-64-v" LEVEL_TEXT(MBJ_LEVEL) ", " MBJ_TOOLCHAIN;
}

#ifdef __cplusplus
}
#endif
