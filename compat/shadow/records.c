#include "records.h"
#include "keys.h"

#include <string.h>

/* In front of each record: its length with this, or 0 if the rest of the ring is left out. */
struct front {
    _Alignas(RECORD_LINE) uint64_t len;
};

static uint64_t lines(uint64_t len) {
    return (len + RECORD_LINE - 1) / RECORD_LINE * RECORD_LINE;
}

static struct front *front_at(struct records *records, uint64_t at) {
    return (struct front *)(void *)((uint8_t *)(records + 1) + at % records->size);
}

void records_make(struct records *records, size_t memory_len) {
    records->size = (memory_len - sizeof *records) / RECORD_LINE * RECORD_LINE;
    records->reserved = 0;
    atomic_store_explicit(&records->tail, 0, memory_order_relaxed);
    atomic_store_explicit(&records->head, 0, memory_order_release);
}

void *records_reserve(struct records *records, size_t len) {
    uint64_t head = records_head(records), tail = atomic_load_explicit(&records->tail, memory_order_acquire);
    uint64_t wanted = sizeof(struct front) + lines(len), to_end = records->size - head % records->size;
    uint64_t skipped = to_end < wanted ? to_end : 0;
    if (len > records->size || wanted + skipped > records->size - (head - tail))
        return NULL;
    if (skipped != 0)
        front_at(records, head)->len = 0;
    records->reserved = head + skipped;
    return front_at(records, records->reserved) + 1;
}

void records_append(struct records *records, size_t len) {
    struct front *front = front_at(records, records->reserved);
    front->len = sizeof *front + lines(len);
    atomic_store_explicit(&records->head, records->reserved + front->len, memory_order_release);
}

void *records_first(struct records *records) {
    uint64_t tail = atomic_load_explicit(&records->tail, memory_order_relaxed);
    if (tail == atomic_load_explicit(&records->head, memory_order_acquire))
        return NULL;
    if (front_at(records, tail)->len == 0) {
        tail += records->size - tail % records->size;
        atomic_store_explicit(&records->tail, tail, memory_order_release);
    }
    return front_at(records, tail) + 1;
}

void records_drop(struct records *records) {
    struct front *front = (struct front *)records_first(records) - 1;
    uint64_t len = front->len;
    wipe(front, len);
    atomic_fetch_add_explicit(&records->tail, len, memory_order_release);
}

void *records_next(struct records *records, uint64_t *place) {
    if (*place == records_head(records))
        return NULL;
    if (front_at(records, *place)->len == 0)
        *place += records->size - *place % records->size;
    struct front *front = front_at(records, *place);
    *place += front->len;
    return front + 1;
}

void records_rewind(struct records *records, uint64_t place) {
    uint64_t at = place;
    for (struct front *front; (front = records_next(records, &at)) != NULL;)
        wipe(front, (front - 1)->len - sizeof *front);
    atomic_store_explicit(&records->head, place, memory_order_relaxed);
}
