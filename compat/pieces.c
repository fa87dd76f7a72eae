#include "pieces.h"
#include "algorithms.h"
#include "errors.h"
#include "raw_key.h"

#include <string.h>

enum { BLOCK = 16, MOST_PIECE = PACKET_BYTES / BLOCK * BLOCK };

IMB_STATUS do_alone(IMB_MGR *m, struct dropin *d, struct raw_form *form, uint8_t *dst, uint8_t *tag) {
    COMPAT_ALIGNED_FRAME uint8_t whole_tag[MBJ_MAX_TAG_BYTES];
    struct mbj_raw_done done;
    memset(&done, 0, sizeof done);
    done.dst = room_at(dst, form->raw->cipher == MBJ_CIPHER_NULL ? 0 : form->raw->cipher_len);
    done.tag = room_at(whole_tag, sizeof whole_tag);
    (void)mbj_pool_name(d->pool);
    uint32_t refusal = proved.mbj_c_fill(&d->handle, form->raw);
    forget_form(d, form);
    leave_key(d, form->found);
    if (refusal != MBJ_ERR_NONE) {
        set_error(m, error_of_refusal(refusal));
        return IMB_STATUS_INTERNAL_ERROR;
    }
    if (!proved.mbj_c_submit(&d->handle, &done, &refusal) && !proved.mbj_c_flush(&d->handle, &done, &refusal))
        return IMB_STATUS_INTERNAL_ERROR;
    if (done.status != 0) {
        set_error(m, error_of_reason(done.reason));
        return IMB_STATUS_INVALID_ARGS;
    }
    if (done.tag_len != 0 && done.tag_len <= form->raw->tag_len)
        memcpy(tag, whole_tag, done.tag_len);
    return IMB_STATUS_COMPLETED;
}

/* ---- the counter of CTR ---- */

/* The last len bytes of a counter block as a number. */
static uint64_t number_of(const uint8_t *block, unsigned len) {
    uint64_t number = 0;
    for (unsigned i = BLOCK - len; i < BLOCK; i++)
        number = number << 8 | block[i];
    return number;
}

static void put_number(uint8_t *block, unsigned len, uint64_t number) {
    for (unsigned i = 0; i < len; i++)
        block[BLOCK - 1 - i] = (uint8_t)(number >> 8 * i);
}

static unsigned counter_len(const IMB_JOB *job) {
    return cipher_of(job)->is_in_bits ? 8 : 4;
}

/* How many blocks there are before the counter's number is 0 again. */
static uint64_t blocks_to_wrap(const IMB_JOB *job, const uint8_t *block) {
    uint64_t number = number_of(block, counter_len(job));
    if (counter_len(job) == 8)
        return number == 0 ? UINT64_MAX : -number;
    return (UINT64_C(1) << 32) - number;
}

static uint64_t blocks_of(uint64_t len) {
    return len / BLOCK + (len % BLOCK != 0);
}

bool counter_wraps(const IMB_JOB *job) {
    if (cipher_of(job)->kind != CIPHER_CTR || job->iv_len_in_bytes != BLOCK)
        return false;
    return blocks_of(cipher_bytes(job)) > blocks_to_wrap(job, job->iv);
}

/* ---- pieces ---- */

/* The first block of the counter, or CBC's IV. With an IV of 12 bytes the counter begins with the number 1 in 4 bytes. */
static void put_first_block(uint8_t *block, const IMB_JOB *job) {
    memset(block, 0, BLOCK);
    memcpy(block, job->iv, job->iv_len_in_bytes);
    if (job->iv_len_in_bytes == BLOCK - 4)
        block[BLOCK - 1] = 1;
}

static uint64_t piece_len(const IMB_JOB *job, const uint8_t *block, uint64_t left) {
    uint64_t len = left < MOST_PIECE ? left : MOST_PIECE;
    bool is_ctr = cipher_of(job)->kind == CIPHER_CTR;
    return is_ctr && blocks_of(len) > blocks_to_wrap(job, block) ? BLOCK * blocks_to_wrap(job, block) : len;
}

/* The block that the next piece begins with. CBC chains the last block of the ciphertext, which is read before it is overwritten. */
static void put_next_block(uint8_t *next, const uint8_t *block, const IMB_JOB *job, const uint8_t *src, uint64_t len) {
    if (cipher_of(job)->kind == CIPHER_CTR) {
        memcpy(next, block, BLOCK);
        put_number(next, counter_len(job), number_of(block, counter_len(job)) + len / BLOCK);
    } else {
        memcpy(next, src + len - BLOCK, BLOCK);
    }
}

static IMB_STATUS do_piece(IMB_MGR *m, struct dropin *d, const IMB_JOB *job, const uint8_t *block, uint64_t off, uint64_t len) {
    struct mbj_raw_job raw;
    struct raw_form form;
    fill_nothing(&form, &raw);
    fill_cipher(d, &form, job);
    form.raw->iv = bytes_at(block, BLOCK);
    form.raw->packet = bytes_at(cipher_start(job) + off, len);
    form.raw->cipher_len = len;
    return do_alone(m, d, &form, job->dst + off, NULL);
}

static IMB_STATUS do_pieces(IMB_MGR *m, struct dropin *d, const IMB_JOB *job) {
    bool is_chained = cipher_of(job)->kind == CIPHER_CBC && is_encryption(job);
    uint8_t block[BLOCK], next[BLOCK];
    uint64_t len = cipher_bytes(job), piece = 0;
    IMB_STATUS status = IMB_STATUS_COMPLETED;
    put_first_block(block, job);
    for (uint64_t off = 0; off < len && status == IMB_STATUS_COMPLETED; off += piece) {
        piece = piece_len(job, block, len - off);
        put_next_block(next, block, job, cipher_start(job) + off, piece);
        status = do_piece(m, d, job, block, off, piece);
        memcpy(block, is_chained ? job->dst + off + piece - BLOCK : next, BLOCK);
    }
    return status;
}

IMB_STATUS cipher_in_pieces(IMB_MGR *m, struct dropin *d, const IMB_JOB *job) {
    uint64_t len = cipher_bytes(job);
    unsigned open_bits = cipher_open_bits(job);
    uint8_t kept = open_bits != 0 ? 0xff >> open_bits : 0, last = kept != 0 ? job->dst[len - 1] : 0;
    IMB_STATUS status = do_pieces(m, d, job);
    if (kept != 0 && status == IMB_STATUS_COMPLETED)
        job->dst[len - 1] = (uint8_t)((job->dst[len - 1] & ~kept) | (last & kept));
    return status;
}
