/* Prints the library's text, and whether a manager is made here: its refusal, and the feature that the processor lacks. Status 0 if one
 * is made, 1 if the processor is refused, 2 else. */
#include "mbj.h"

#include <stdio.h>

int main(void) {
    static MBJ_MGR manager;
    const char *missing = mbj_c_missing_feature();
    mbj_err refusal = mbj_init_mgr(&manager);
    mbj_end_mgr(&manager);
    printf("%s: %s%s%s\n", mbj_version_text(), mbj_err_text(refusal), missing != NULL ? ": " : "", missing != NULL ? missing : "");
    return refusal == MBJ_ERR_NONE ? 0 : refusal == MBJ_ERR_PROCESSOR ? 1 : 2;
}
