/* selftest [fails]: a manager's features tell whether the known answers came out when the library was loaded. With `fails`, and
 * REFUSE_AT_LOAD in the environment, they can't be tried, since memory is refused until main begins: then they aren't told as passed. In
 * 2.0 a function that is told of them has them tried again, with and without memory. This program is linked to the library. */
#define NO_COMPAT_IMB_API_053
#include <intel-ipsec-mb.h>
#include <stdbool.h>
#include <stdio.h>
#include <string.h>

void *__libc_malloc(size_t len);

static bool has_begun, refuses;

/* What the library asks for at load is more than this; what the loader asks for is less. */
enum { LONG_BLOCK = 1 << 16 };

void *malloc(size_t len) {
    bool is_refused = refuses || (!has_begun && getenv("REFUSE_AT_LOAD") != NULL);
    return is_refused && len >= LONG_BLOCK ? NULL : __libc_malloc(len);
}

#if IMB_VERSION_NUM >= IMB_VERSION(2, 0, 0)
static char phases[64];

static int note_phase(void *argument, const IMB_SELF_TEST_CALLBACK_DATA *data) {
    (void)argument;
    strncat(phases, data->phase, sizeof phases - strlen(phases) - 1);
    return 1;
}

/* Sets a manager up while memory is refused or not: what the function is told, the error and the feature have to agree. */
static bool is_told_to_function(IMB_MGR *m, bool fails) {
    phases[0] = 0;
    refuses = fails;
    init_mb_mgr_auto(m, NULL);
    refuses = false;
    bool is_passed = (m->features & IMB_FEATURE_SELF_TEST_PASS) != 0;
    printf("told %s, passed %d, error %d\n", phases, is_passed, imb_get_errno(m));
    int error = fails ? IMB_ERR_SELFTEST : 0;
    return strcmp(phases, fails ? "STARTFAIL" : "STARTPASS") == 0 && is_passed != fails && imb_get_errno(m) == error;
}

static bool has_function_told(IMB_MGR *m) {
    return imb_self_test_set_cb(m, note_phase, NULL) == 0 && is_told_to_function(m, true) && is_told_to_function(m, false);
}
#else
static bool has_function_told(IMB_MGR *m) {
    return m != NULL;
}
#endif

int main(int argc, char **argv) {
    bool fails = argc > 1 && strcmp(argv[1], "fails") == 0;
    has_begun = true;
    IMB_MGR *m = alloc_mb_mgr(0);
    init_mb_mgr_auto(m, NULL);
    bool is_told = (m->features & IMB_FEATURE_SELF_TEST) != 0, is_passed = (m->features & IMB_FEATURE_SELF_TEST_PASS) != 0;
    int error = imb_get_errno(m);
    printf("told %d, passed %d, error %d\n", is_told, is_passed, error);
    bool is_function_told = has_function_told(m);
    free_mb_mgr(m);
    return !is_told || is_passed == fails || error != (fails ? IMB_ERR_SELFTEST : 0) || !is_function_told;
}
