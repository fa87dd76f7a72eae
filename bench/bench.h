/* What is timed, by which library: shared by the files of the bench. */
#ifndef BENCH_H
#define BENCH_H

#include <stdbool.h>
#include <stddef.h>
#include <stdint.h>

enum { BATCH = 256, MAX_LEN = 65535, TAG_ROOM = 64 };

/* All encrypt but CBC_DEC. */
enum cipher { NO_CIPHER, CBC, CTR, GCM, CCM, CBC_DEC };

/* Those with STATES are HMACs from stored states. The last two are the tags of GCM and CCM, which go with these ciphers. */
enum auth {
    NO_AUTH,
    HMAC_SHA_1,
    HMAC_SHA_224,
    HMAC_SHA_256,
    HMAC_SHA_384,
    HMAC_SHA_512,
    CMAC,
    GMAC,
    SHA_1,
    SHA_224,
    SHA_256,
    SHA_384,
    SHA_512,
    HMAC_SHA_1_STATES,
    HMAC_SHA_224_STATES,
    HMAC_SHA_256_STATES,
    HMAC_SHA_384_STATES,
    HMAC_SHA_512_STATES,
    GCM_TAG,
    CCM_TAG
};

/* A kind of jobs: a cipher, an authentication, or both, the packet being enciphered before it is authenticated. This library takes them by
 * single calls or by bursts of 32, and expands the cipher's key for each job, or far less often if all jobs name a key session; the
 * other one takes them by single calls, and its keys are expanded before any job is timed. */
struct work {
    enum cipher cipher;
    enum auth auth;
    bool by_bursts, in_session;
    bool keeps; /* the manager here keeps the memory of jobs */
    size_t flush_after; /* all jobs that wait are flushed after this many single calls */
};

/* The packets of a pass, which are enciphered in place, and where their tags go. */
struct batch {
    uint8_t *packets[BATCH];
    size_t lens[BATCH];
    uint8_t tags[BATCH][TAG_ROOM];
};

/* The keys of all jobs: 128 bits for AES, as many as its tag has for an HMAC. */
struct keys {
    uint8_t aes[16], hmac[TAG_ROOM], iv[16], aad[12];
};

extern const struct keys keys;

/* Whether the authentication is an HMAC, from a key or from states. */
bool is_hmac(enum auth auth);

/* Whether it is one from stored states. intel-ipsec-mb has no other ones. */
bool has_states(enum auth auth);

/* Bytes of the tag. */
size_t tag_len(const struct work *work);

/* Bytes of the IV, which is that of the cipher or of GMAC. */
size_t iv_len(const struct work *work);

/* Prints why, and ends the program. */
void give_up(const char *why);

/* A library: what starts it for a kind of jobs, in the thread that uses it, puts a batch through it, and ends it. */
struct library {
    const char *name;
    void *(*start)(const struct library *library, const struct work *work);
    void (*pass)(void *started, const struct work *work, struct batch *batch);
    void (*end)(void *started);
};

/* This library. */
extern const struct library ours;

/* The managers that intel-ipsec-mb offers here, and how many they are: none if the bench is built without it. */
const struct library *theirs(size_t *count);

#endif
