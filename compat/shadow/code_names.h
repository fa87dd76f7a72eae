/* The header's names of ciphers and authentications. */
#ifndef SHADOW_CODE_NAMES_H
#define SHADOW_CODE_NAMES_H

/* The name of a code, or a text that says that there is none. */
const char *name_of_cipher(unsigned code);
const char *name_of_hash(unsigned code);

#endif
