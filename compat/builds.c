#include "builds.h"

#define DECLARE_V2(name) extern __typeof__(name) name##_v2;
#define DECLARE_V3(name) extern __typeof__(name) name##_v3;
#define FOR_V2(name) .name = name##_v2,
#define FOR_V3(name) .name = name##_v3,

#ifdef COMPAT_HAS_V2
COMPAT_EXPORTS(DECLARE_V2)
#endif
#ifdef COMPAT_HAS_V3
COMPAT_EXPORTS(DECLARE_V3)
#endif

/* The build with the longer vectors comes first. */
static const struct build builds[] = {
#ifdef COMPAT_HAS_V3
    {COMPAT_EXPORTS(FOR_V3)},
#endif
#ifdef COMPAT_HAS_V2
    {COMPAT_EXPORTS(FOR_V2)},
#endif
};

struct build proved;
static bool has_one;

/* Stands for each export if there is no build. On x86-64 (System V ABI, 3.2.3) a function that takes nothing may be called with any
 * arguments, and a result of 32 bits is in the register that a pointer or a bool is taken from. */
static uint32_t refuse(void) {
    return MBJ_ERR_PROCESSOR;
}

#define REFUSE(name) proved.name = (__typeof__(proved.name))(void (*)(void))refuse;

__attribute__((constructor(COMPAT_FIRST))) static void choose(void) {
    for (size_t i = 0; i < sizeof builds / sizeof *builds; i++)
        if (builds[i].mbj_c_missing_feature() == NULL) {
            proved = builds[i];
            has_one = true;
            return;
        }
    COMPAT_EXPORTS(REFUSE)
}

bool has_build(void) {
    return has_one;
}

uint8_t nowhere[1];
