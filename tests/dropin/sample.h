/* A job that is drawn, told by offsets into memory of its own, so that two libraries get the same one. */
#ifndef DROPIN_SAMPLE_H
#define DROPIN_SAMPLE_H

#include "library.h"

struct sample {
    int cipher, dir, hash, order;
    size_t key_len, memory, src, cipher_off, dst, hash_off, tag, tag_len, iv_len, aad_len;
    uint64_t cipher_len, hash_len; /* in the unit of the algorithm */
    bool is_faulty;
    uint8_t key[32], auth_key[128], iv[64], aad[64];
};

/* What a library makes of a sample's keys. */
struct keys {
    DECLARE_ALIGNED(uint8_t encryption[240], 64);
    DECLARE_ALIGNED(uint8_t decryption[240], 64);
    DECLARE_ALIGNED(uint8_t cmac[240], 16);
    DECLARE_ALIGNED(uint8_t subkeys[2][16], 16);
    DECLARE_ALIGNED(uint8_t states[2][64], 16);
    DECLARE_ALIGNED(struct gcm_key_data gcm, 64);
    DECLARE_ALIGNED(struct gcm_key_data gmac, 64);
};

/* What was drawn so far, to be told. */
struct drawn {
    unsigned jobs, faulty, long_ones, elsewhere, wrapping, ciphered_tags;
};

extern struct drawn drawn;

/* Draws a job, one in about thirty of which has a fault. */
void draw_sample(struct sample *sample);

/* Fills a job of a library with the sample, whose memory is at this address, having made its keys. */
void fill_job(IMB_MGR *m, IMB_JOB *job, struct keys *keys, const struct sample *sample, uint8_t *memory);

/* Prints a sample on one line. */
void print_sample(const struct sample *sample);

#endif
