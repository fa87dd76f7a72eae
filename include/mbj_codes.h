/* The limits of jobs, and the numbers of mbj.h, which includes this: ciphers, authentications and hashes, and why a job or a call is
 * refused. */
#ifndef MBJ_CODES_H
#define MBJ_CODES_H

#include <stdint.h>

/* ---- limits ---- */

#define MBJ_MAX_JOBS 512         /* submitted and not given back */
#define MBJ_MAX_PACKET_BYTES 65535
#define MBJ_MAX_IV_BYTES 65535   /* of GCM and GMAC */
#define MBJ_MAX_GCM_AAD_BYTES 65535
#define MBJ_MAX_CCM_AAD_BYTES 65279
#define MBJ_MAX_HMAC_KEY_BYTES 1024
#define MBJ_MAX_TAG_BYTES 64
#define MBJ_MAX_SESSIONS 256
#define MBJ_NO_SESSION UINT32_MAX

/* ---- codes ---- */

/* Codes are handed over as uint32_t, so that a number that is no code is one that can be refused. */
enum mbj_cipher { MBJ_CIPHER_NULL, MBJ_CIPHER_CBC, MBJ_CIPHER_CNTR, MBJ_CIPHER_GCM, MBJ_CIPHER_CCM, MBJ_CIPHER_UNSET = 255 };

enum mbj_dir { MBJ_DIR_ENCRYPT, MBJ_DIR_DECRYPT };

enum mbj_order { MBJ_ORDER_CIPHER_HASH, MBJ_ORDER_HASH_CIPHER };

/* CMAC has keys of 128 or of 256 bits. MBJ_AUTH_GCM and MBJ_AUTH_AES_CCM are the tags of GCM and of CCM, and go with these ciphers.
 * MBJ_AUTH_AES_GMAC is GMAC by itself, over the hash range and under auth_key, with the job's IV; it goes with MBJ_CIPHER_NULL. From
 * MBJ_AUTH_SHA_1 on the tag is a digest, without a key. From MBJ_AUTH_HMAC_SHA_1_STATES on it is HMAC from stored states: auth_key is the
 * inner state of the key and the outer state behind it, whole and big-endian, together 40, 64, 64, 128 or 128 bytes. */
enum mbj_auth {
    MBJ_AUTH_NULL,
    MBJ_AUTH_HMAC_SHA_1,
    MBJ_AUTH_HMAC_SHA_224,
    MBJ_AUTH_HMAC_SHA_256,
    MBJ_AUTH_HMAC_SHA_384,
    MBJ_AUTH_HMAC_SHA_512,
    MBJ_AUTH_AES_CMAC,
    MBJ_AUTH_AES_CMAC_256,
    MBJ_AUTH_GCM,
    MBJ_AUTH_AES_GMAC,
    MBJ_AUTH_AES_CCM,
    MBJ_AUTH_SHA_1,
    MBJ_AUTH_SHA_224,
    MBJ_AUTH_SHA_256,
    MBJ_AUTH_SHA_384,
    MBJ_AUTH_SHA_512,
    MBJ_AUTH_HMAC_SHA_1_STATES,
    MBJ_AUTH_HMAC_SHA_224_STATES,
    MBJ_AUTH_HMAC_SHA_256_STATES,
    MBJ_AUTH_HMAC_SHA_384_STATES,
    MBJ_AUTH_HMAC_SHA_512_STATES,
    MBJ_AUTH_UNSET = 255
};

/* The hashes, if one is asked for by itself. */
enum mbj_hash { MBJ_HASH_SHA_1, MBJ_HASH_SHA_224, MBJ_HASH_SHA_256, MBJ_HASH_SHA_384, MBJ_HASH_SHA_512 };

/* Why a job or a call is refused: each number has one meaning, and a text by mbj_err_text. 1 to 10, and 100 on, are the reasons of jobs
 * (docs/FORMAT.md has a table of the first); the others are those of calls. A refused call changes nothing, but for MBJ_ERR_TAG. */
typedef enum mbj_err {
    MBJ_ERR_NONE,             /* it isn't */
    MBJ_REASON_PACKET_LONG,   /* the packet is longer than 65,535 bytes */
    MBJ_REASON_PAIR,          /* GCM and CCM need their own authentication and no other; GMAC needs MBJ_CIPHER_NULL */
    MBJ_REASON_CIPHER_KEY,    /* the cipher's key has neither 16, 24 nor 32 bytes */
    MBJ_REASON_IV_LENGTH,     /* the cipher, or GMAC, doesn't take an IV of this length */
    MBJ_REASON_CIPHER_RANGE,  /* the cipher range passes the packet's end */
    MBJ_REASON_CIPHER_LENGTH, /* the cipher doesn't take a range of this length */
    MBJ_REASON_AUTH_KEY,      /* the authentication doesn't take a key of this length */
    MBJ_REASON_HASH_RANGE,    /* the hash range passes the packet's end */
    MBJ_REASON_AAD_LONG,      /* the additional data is longer than 65,535 bytes for GCM, or 65,279 for CCM */
    MBJ_REASON_TAG_LENGTH,    /* the authentication doesn't give a tag of this length */
    MBJ_ERR_TEXT_LENGTH,      /* the algorithm doesn't take a text of this length */
    MBJ_ERR_KEY_LENGTH,       /* the algorithm doesn't take a key of this length */
    MBJ_ERR_IV_LENGTH,        /* the algorithm doesn't take an IV, or a nonce, of this length */
    MBJ_ERR_TAG_LENGTH,       /* the algorithm doesn't give a tag of this length */
    MBJ_ERR_AAD_LENGTH,       /* the additional data is too long */
    MBJ_ERR_NO_STATE,         /* the bytes are no state of a text in parts, or of one that is finished */
    MBJ_ERR_HAS_KEYS,         /* the handle has a set of key sessions already */
    MBJ_ERR_NO_KEYS,          /* the handle has no set of key sessions */
    MBJ_ERR_MANY_KEYS,        /* there are more than MBJ_MAX_SESSIONS keys */
    MBJ_ERR_TAG,              /* the tag that came with the text isn't that of the text, which was cleared; of jobs too */
    MBJ_ERR_FULL,             /* MBJ_MAX_JOBS jobs are submitted and not given back */
    MBJ_ERR_WORD,             /* a code is no cipher, direction, order, authentication or hash */
    MBJ_ERR_MEMORY,           /* there wasn't memory enough */
    MBJ_ERR_NO_MANAGER,       /* there is no manager */
    MBJ_ERR_NO_JOB,           /* no job is filled, or handed out, that could be submitted */
    MBJ_ERR_NO_ROOM,          /* there is too little room for the result that is given back next, or for what is written */
    MBJ_ERR_HAS_MANAGER,      /* the handle has a manager already */
    MBJ_ERR_NULL,             /* mbj_init_mgr was given no memory */
    MBJ_ERR_VERSION,          /* the library has another major version than the header that the program was compiled with, or is older */
    MBJ_ERR_PROCESSOR,        /* the processor lacks a feature that the library was built for: mbj_c_missing_feature names it */
    MBJ_ERR_HEAP,             /* no heap can be chosen, since the program was linked with one of its own */
    MBJ_ERR_NO_SEAT,          /* there is no seat */
    MBJ_ERR_HAS_SEAT,         /* a place has a seat already */
    MBJ_ERR_SEAT_COUNT,       /* a front has 1 to 16 submitters and at most 16 workers */
    MBJ_ERR_NOT_SUBMITTER,    /* the seat is a worker's, which posts and collects nothing */
    MBJ_REASON_CODE = 100,    /* a code is no cipher, direction, order or authentication, as in a job whose cipher was never set */
    MBJ_REASON_NULL,          /* bytes that the job uses are at NULL */
    MBJ_REASON_NO_TAG,        /* a tag is expected of a job without an authentication */
    MBJ_REASON_NONE = MBJ_ERR_NONE
} mbj_err;
#endif
