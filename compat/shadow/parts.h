/* Texts by GCM and GMAC in parts that are sampled. What they read and what Intel's library wrote is gathered by the address of their
 * context, from the first call to the last one. */
#ifndef SHADOW_PARTS_H
#define SHADOW_PARTS_H

#include "tables.h"

#include <stdatomic.h>
#include <stdbool.h>

/* In place of a direction: the parts are of GMAC, and give no text. */
enum { PARTS_NO_TEXT = -1 };

/* The place of an address, by the golden ratio of 2^64 (Knuth, The Art of Computer Programming, 6.4). Another context at the same place
 * takes it. */
enum { PLACE_BITS = 6, PLACES = 1 << PLACE_BITS };

extern _Atomic(const struct gcm_context_data *) known_contexts[PLACES];

static inline unsigned place_of_context(const struct gcm_context_data *context) {
    return (unsigned)(((uintptr_t)context * UINT64_C(0x9e3779b97f4a7c15)) >> (64 - PLACE_BITS));
}

/* Whether the text of this context is sampled. */
static inline bool is_known(const struct gcm_context_data *context) {
    return context != NULL &&
           __builtin_expect(atomic_load_explicit(&known_contexts[place_of_context(context)], memory_order_relaxed) == context, 0);
}

/* A text was begun in this context: what was known of it is forgotten, and if it is sampled, noted. */
void parts_begin(bool is_sampled, const struct table *table, unsigned kind, unsigned size, const struct gcm_key_data *key,
                 const struct gcm_context_data *context, const uint8_t *iv, uint64_t iv_len, const uint8_t *aad, uint64_t aad_len);

/* Before a part, whose source is copied, or the last call. False if the text can't be followed: it is forgotten. */
bool parts_before(const struct gcm_context_data *context, const struct gcm_key_data *key, int dir, const uint8_t *out, const uint8_t *in,
                  uint64_t len);

/* After a part, and after the last call, which gives the sample away. */
void parts_after(const struct gcm_context_data *context, const uint8_t *out, uint64_t len);
void parts_end(const struct gcm_context_data *context, const uint8_t *tag, uint64_t tag_len);

/* In a child of a fork. */
void parts_forget_all(void);

#endif
