/* The header of intel-ipsec-mb, which is the system's, or the one that the build was given: it is included, and nothing of it is copied. What
 * differs by its version stands in version_1 and version_2. */
#ifndef COMPAT_IMB_H
#define COMPAT_IMB_H

#ifndef NO_COMPAT_IMB_API_053
#define NO_COMPAT_IMB_API_053 /* no short names of older versions */
#endif
#include <intel-ipsec-mb.h>

#if IMB_VERSION_NUM >= IMB_VERSION(1, 3, 0) && IMB_VERSION_NUM < IMB_VERSION(1, 4, 0)
#include "version_1.h"
#elif IMB_VERSION_NUM >= IMB_VERSION(2, 0, 0) && IMB_VERSION_NUM < IMB_VERSION(2, 1, 0)
#include "version_2.h"
#else
#error "the drop-in has the ABIs of intel-ipsec-mb 1.3 and 2.0: its structs differ in other versions"
#endif

#endif
