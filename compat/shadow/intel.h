/* Intel's library, which does all the work of the application: found, opened, and reached by a table. */
#ifndef SHADOW_INTEL_H
#define SHADOW_INTEL_H

#include "imb.h"

/* Where its file is. */
extern const char *intel_path;

/* What of it the checker calls by name. */
extern struct intel {
    __typeof__(&imb_get_mb_mgr_size) manager_size;
    __typeof__(&imb_set_pointers_mb_mgr) set_pointers;
    __typeof__(&imb_get_strerror) text_of_error;
    __typeof__(&imb_get_version_str) version_text;
    void (*init[IMB_ARCH_NUM])(IMB_MGR *); /* by IMB_ARCH; NULL if there is none */
    void (*init_auto)(IMB_MGR *, IMB_ARCH *);
} intel;

/* The address of a name that the header declares. A library that hasn't it ends the process when it is loaded. */
void *intel_function(const char *name);

#endif
