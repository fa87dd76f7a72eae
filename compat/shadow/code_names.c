#include "code_names.h"
#include "imb.h"

#include "codes.inc" /* which the build makes from Intel's header */

#include <stddef.h>

const char *name_of_cipher(unsigned code) {
    const char *name = code < IMB_CIPHER_NUM ? cipher_names[code] : NULL;
    return name != NULL ? name : "no cipher of the header";
}

const char *name_of_hash(unsigned code) {
    const char *name = code < IMB_AUTH_NUM ? hash_names[code] : NULL;
    return name != NULL ? name : "no authentication of the header";
}
