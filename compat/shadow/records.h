/* Records of any length in a ring of bytes: one thread appends, and one takes the earliest away. */
#ifndef SHADOW_RECORDS_H
#define SHADOW_RECORDS_H

#include <stdatomic.h>
#include <stddef.h>
#include <stdint.h>

/* Records begin at multiples of this, as keys of GCM have to. */
enum { RECORD_LINE = 64 };

/* Counted in bytes from the beginning, modulo 2^64. A record lies in one piece: if it doesn't fit behind the last one, the bytes up to
 * the end of the ring are left out. */
struct records {
    _Alignas(RECORD_LINE) _Atomic uint64_t head; /* where the next record is appended */
    uint64_t reserved;                           /* where the record begins that is being written */
    uint64_t size;                               /* a multiple of RECORD_LINE */
    _Alignas(RECORD_LINE) _Atomic uint64_t tail; /* where the earliest one begins */
};

/* Makes a ring of memory of so many bytes, with what is here in front. They needn't be zeros. */
void records_make(struct records *records, size_t memory_len);

/* Room for a record of at most so many bytes, or NULL. It is appended by the next call, or not at all. */
void *records_reserve(struct records *records, size_t len);
void records_append(struct records *records, size_t len);

/* The earliest record, or NULL; and what takes it away, having overwritten it. */
void *records_first(struct records *records);
void records_drop(struct records *records);

/* The record that begins at this place, which was the head before, and moves the place behind it; NULL if the place is the head. */
void *records_next(struct records *records, uint64_t *place);

/* Takes away the records that were appended since the head was at this place, having overwritten them. */
void records_rewind(struct records *records, uint64_t place);

static inline uint64_t records_head(const struct records *records) {
    return atomic_load_explicit(&records->head, memory_order_relaxed);
}

#endif
