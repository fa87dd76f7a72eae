/* The texts and the comparison of mbj.h, which mbj_inline.h includes. */
#ifndef MBJ_INLINE_TEXTS_H
#define MBJ_INLINE_TEXTS_H

#ifndef MBJ_H
#error "include mbj.h"
#endif

#ifdef __cplusplus
extern "C" {
#endif

MBJ_API bool mbj_is_same_tag(const void *one, const void *other, size_t len) {
    struct mbj_bytes first = {(const uint8_t *)one, len}, second = {(const uint8_t *)other, len};
    return len == 0 || mbj_c_is_same_tag(first, second) == 1;
}

MBJ_API void mbj_wipe(void *at, size_t len) {
    struct mbj_room room = {(uint8_t *)at, len};
    if (len != 0)
        mbj_c_wipe(room);
}

MBJ_API const char *mbj_version_text(void) {
    return mbj_c_build_text();
}

/* Why a job was refused, as text; NULL if this is no reason of a job. */
static inline const char *mbj_reason_text_(uint32_t reason) {
    switch (reason) {
    case MBJ_REASON_PACKET_LONG: return "the packet is longer than 65,535 bytes";
    case MBJ_REASON_PAIR:
        return "the authentication doesn't go with the cipher: "
               "exactly one of the two is GCM, exactly one is CCM, or GMAC stands beside a cipher";
    case MBJ_REASON_CIPHER_KEY: return "the cipher's key has neither 16, 24 nor 32 bytes";
    case MBJ_REASON_IV_LENGTH: return "the cipher or GMAC doesn't take an IV of this length";
    case MBJ_REASON_CIPHER_RANGE: return "the cipher range passes the packet's end";
    case MBJ_REASON_CIPHER_LENGTH: return "the cipher doesn't take a range of this length";
    case MBJ_REASON_AUTH_KEY: return "the authentication doesn't take a key of this length";
    case MBJ_REASON_HASH_RANGE: return "the hash range passes the packet's end";
    case MBJ_REASON_AAD_LONG: return "the additional data is longer than the 65,535 bytes that GCM takes, or the 65,279 that CCM takes";
    case MBJ_REASON_TAG_LENGTH: return "the authentication doesn't give a tag of this length";
    case MBJ_REASON_CODE: return "a code is no cipher, direction, order or authentication";
    case MBJ_REASON_NULL: return "bytes that the job uses are at NULL";
    case MBJ_REASON_NO_TAG: return "a tag is expected of a job without an authentication";
    default: return NULL;
    }
}

MBJ_API const char *mbj_err_text(uint32_t err) {
    const char *reason = mbj_reason_text_(err);
    switch (err) {
    case MBJ_ERR_NONE: return "not refused";
    case MBJ_ERR_TEXT_LENGTH: return "the algorithm doesn't take a text of this length";
    case MBJ_ERR_KEY_LENGTH: return "the algorithm doesn't take a key of this length";
    case MBJ_ERR_IV_LENGTH: return "the algorithm doesn't take an IV or a nonce of this length";
    case MBJ_ERR_TAG_LENGTH: return "the algorithm doesn't give a tag of this length";
    case MBJ_ERR_AAD_LENGTH: return "the additional data is too long";
    case MBJ_ERR_NO_STATE: return "the bytes are no state that could go on";
    case MBJ_ERR_HAS_KEYS: return "the handle has a set of key sessions already";
    case MBJ_ERR_NO_KEYS: return "the handle has no set of key sessions";
    case MBJ_ERR_MANY_KEYS: return "there are more keys than a set has sessions";
    case MBJ_ERR_TAG: return "the tag that came with the text isn't that of the text";
    case MBJ_ERR_FULL: return "MBJ_MAX_JOBS jobs are submitted and not given back";
    case MBJ_ERR_WORD: return "a code is no cipher, direction, order, authentication or hash";
    case MBJ_ERR_MEMORY: return "out of memory";
    case MBJ_ERR_NO_MANAGER: return "there is no manager";
    case MBJ_ERR_NO_JOB: return "no job was handed out";
    case MBJ_ERR_NO_ROOM: return "too little room for what is written";
    case MBJ_ERR_HAS_MANAGER: return "the handle has a manager already";
    case MBJ_ERR_NULL: return "no memory was given for the manager";
    case MBJ_ERR_VERSION: return "the library has another major version than the header, or is older";
    case MBJ_ERR_PROCESSOR: return "the processor lacks a feature that the library was built for";
    case MBJ_ERR_HEAP: return "no heap can be chosen, since the program was linked with one of its own";
    case MBJ_ERR_NO_SEAT: return "there is no seat";
    case MBJ_ERR_HAS_SEAT: return "a place has a seat already";
    case MBJ_ERR_SEAT_COUNT: return "a front has 1 to 16 submitters and at most 16 workers";
    case MBJ_ERR_NOT_SUBMITTER: return "the seat is a worker's, which posts and collects nothing";
    default: return reason != NULL ? reason : "no such error";
    }
}

#ifdef __cplusplus
}
#endif
#endif
