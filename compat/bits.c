/* CMAC (SP 800-38B, 6.2) adds the first subkey to a last block that is whole, and the second one to a last block that was padded. The
 * proved code has CMAC of whole bytes, and adds the first subkey to the block that is padded here. So the sum of both is added before: the
 * second one is left. */
#include "bits.h"
#include "algorithms.h"
#include "keys.h"
#include "pieces.h"

#include <string.h>

enum { BLOCK = 16, HEAD = 32768 };

static void add(uint8_t *block, const uint8_t *other) {
    for (unsigned i = 0; i < BLOCK; i++)
        block[i] ^= other[i];
}

/* Fills in the text from an offset on, padded to whole blocks. */
static void fill_padded_from(struct dropin *d, struct raw_form *form, const IMB_JOB *job, uint64_t off) {
    uint64_t len = hash_bytes(job) - off, blocks = (len + BLOCK - 1) / BLOCK;
    unsigned bits = hash_open_bits(job);
    uint8_t *copy = d->gathered + form->gathered, *last = copy + BLOCK * (blocks - 1);
    memset(last, 0, BLOCK);
    memcpy(copy, hash_start(job) + off, len);
    copy[len - 1] = (uint8_t)((copy[len - 1] & ~(0xff >> bits)) | 0x80 >> bits);
    add(last, job->u.CMAC._skey1);
    add(last, job->u.CMAC._skey2);
    form->raw->packet = bytes_at(copy, BLOCK * blocks);
    form->raw->hash_len = BLOCK * blocks;
}

void fill_padded(struct dropin *d, struct raw_form *form, const IMB_JOB *job) {
    fill_padded_from(d, form, job, 0);
}

/* ---- a text whose blocks don't fit into a packet ---- */

bool is_padded_long(const IMB_JOB *job) {
    return hash_open_bits(job) != 0 && hash_bytes(job) > PACKET_BYTES / BLOCK * BLOCK;
}

/* The chain of CMAC behind the first bytes of the text is the last block of their CBC encryption from zeros. */
static IMB_STATUS put_chain(IMB_MGR *m, struct dropin *d, const IMB_JOB *job, uint8_t *chain) {
    static const uint8_t zeros[BLOCK];
    struct mbj_raw_job raw;
    struct raw_form form;
    fill_nothing(&form, &raw);
    form.raw->cipher = MBJ_CIPHER_CBC;
    form.raw->key = bytes_at(job->u.CMAC._key_expanded, hash_of(job)->key);
    form.raw->iv = bytes_at(zeros, BLOCK);
    form.raw->packet = bytes_at(hash_start(job), HEAD);
    form.raw->cipher_len = HEAD;
    IMB_STATUS status = do_alone(m, d, &form, d->gathered, NULL);
    memcpy(chain, d->gathered + HEAD - BLOCK, BLOCK);
    wipe(d->gathered, HEAD);
    return status;
}

IMB_STATUS do_padded_long(IMB_MGR *m, struct dropin *d, const IMB_JOB *job) {
    uint8_t chain[BLOCK];
    struct mbj_raw_job raw;
    struct raw_form form;
    IMB_STATUS status = put_chain(m, d, job, chain);
    if (status == IMB_STATUS_COMPLETED) {
        fill_nothing(&form, &raw);
        fill_hash(&form, job);
        fill_padded_from(d, &form, job, HEAD);
        add(d->gathered, chain);
        status = do_alone(m, d, &form, NULL, job->auth_tag_output);
    }
    wipe(chain, sizeof chain);
    return status;
}
