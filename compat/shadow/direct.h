/* What the checker does at a direct call: it makes Intel's call, and samples some. Most calls aren't sampled: so these are inline. */
#ifndef SHADOW_DIRECT_H
#define SHADOW_DIRECT_H

#include "due.h"
#include "parts.h"
#include "sample.h"
#include "tables.h"

/* The arguments of each call, named as in the header. */
#define WHOLE_ARGUMENTS                                                                                                                    \
    const struct gcm_key_data *key, struct gcm_context_data *context, uint8_t *out, uint8_t const *in, uint64_t len, const uint8_t *iv,    \
        uint8_t const *aad, uint64_t aad_len, uint8_t *tag, uint64_t tag_len
#define WHOLE_VALUES key, context, out, in, len, iv, aad, aad_len, tag, tag_len

void sampled_whole(const struct table *table, unsigned dir, unsigned size, WHOLE_ARGUMENTS);
void sampled_keys(const struct table *table, unsigned size, const void *key, void *encryption, void *decryption);
void sampled_encryption_keys(const struct table *table, unsigned size, const void *key, void *encryption);
void sampled_gcm_key(const struct table *table, unsigned size, const void *key, struct gcm_key_data *data);
void sampled_subkeys(const struct table *table, unsigned size, const void *schedule, void *first, void *second);
void sampled_block(const struct table *table, unsigned hash, const void *block, void *state);
void sampled_digest(const struct table *table, unsigned hash, const void *text, uint64_t len, void *digest);

/* The classes of direct calls. */
#define CALL_CLASS(kind, which) (&not_yet_of_calls[class_of_call(kind, which)])

static inline bool is_call_due(unsigned kind, unsigned which) {
    return here.inside == INSIDE_NONE && is_due(CALL_CLASS(kind, which));
}

static inline void whole(const struct table *table, unsigned dir, unsigned size, WHOLE_ARGUMENTS) {
    if (is_call_due(KIND_GCM, dir * KEY_SIZES + size))
        sampled_whole(table, dir, size, WHOLE_VALUES);
    else
        table->calls.whole[dir][size](WHOLE_VALUES);
}

/* ---- keys and hashes: rare, and each is sampled ---- */

static inline void expand(const struct table *table, unsigned size, const void *key, void *encryption, void *decryption) {
    if (here.inside == INSIDE_NONE)
        sampled_keys(table, size, key, encryption, decryption);
    else
        table->calls.expand[size](key, encryption, decryption);
}

static inline void expand_encryption(const struct table *table, unsigned size, const void *key, void *encryption) {
    if (here.inside == INSIDE_NONE)
        sampled_encryption_keys(table, size, key, encryption);
    else
        table->calls.expand_encryption[size](key, encryption);
}

static inline void gcm_key(const struct table *table, unsigned size, const void *key, struct gcm_key_data *data) {
    if (here.inside == INSIDE_NONE)
        sampled_gcm_key(table, size, key, data);
    else
        table->calls.gcm_key[size](key, data);
}

static inline void subkeys(const struct table *table, unsigned size, const void *schedule, void *first, void *second) {
    if (here.inside == INSIDE_NONE)
        sampled_subkeys(table, size, schedule, first, second);
    else
        table->calls.subkeys[size](schedule, first, second);
}

static inline void block(const struct table *table, unsigned hash, const void *bytes, void *state) {
    if (here.inside == INSIDE_NONE)
        sampled_block(table, hash, bytes, state);
    else
        table->calls.block[hash](bytes, state);
}

/* A whole digest may be of any length, and is sampled as a text is. */
static inline void digest(const struct table *table, unsigned hash, const void *text, uint64_t len, void *out) {
    if (is_call_due(KIND_DIGEST, hash))
        sampled_digest(table, hash, text, len, out);
    else
        table->calls.digest[hash](text, len, out);
}

/* ---- a text in parts ---- */

/* Intel's library does the parts of a job by these, too. */
static inline bool is_begin_due(unsigned kind, unsigned size) {
    return here.inside != INSIDE_CALL && is_due(CALL_CLASS(kind, size));
}

static inline void begin(const struct table *table, unsigned size, const struct gcm_key_data *key, struct gcm_context_data *context,
                         const uint8_t *iv, uint8_t const *aad, uint64_t aad_len) {
    bool is_sampled = is_begin_due(KIND_GCM_IN_PARTS, size);
    table->calls.begin[size](key, context, iv, aad, aad_len);
    if (is_sampled || is_known(context))
        parts_begin(is_sampled, table, KIND_GCM_IN_PARTS, size, key, context, iv, IMB_GCM_IV_DATA_LEN, aad, aad_len);
}

static inline void begin_with_iv(const struct table *table, unsigned size, const struct gcm_key_data *key, struct gcm_context_data *context,
                                 const uint8_t *iv, uint64_t iv_len, const uint8_t *aad, uint64_t aad_len) {
    bool is_sampled = is_begin_due(KIND_GCM_IN_PARTS, size);
    table->calls.begin_with_iv[size](key, context, iv, iv_len, aad, aad_len);
    if (is_sampled || is_known(context))
        parts_begin(is_sampled, table, KIND_GCM_IN_PARTS, size, key, context, iv, iv_len, aad, aad_len);
}

static inline void part(const struct table *table, unsigned dir, unsigned size, const struct gcm_key_data *key,
                        struct gcm_context_data *context, uint8_t *out, const uint8_t *in, uint64_t len) {
    bool is_sampled = is_known(context) && parts_before(context, key, (int)dir, out, in, len);
    table->calls.part[dir][size](key, context, out, in, len);
    if (is_sampled)
        parts_after(context, out, len);
}

static inline void end(const struct table *table, unsigned dir, unsigned size, const struct gcm_key_data *key,
                       struct gcm_context_data *context, uint8_t *tag, uint64_t tag_len) {
    bool is_sampled = is_known(context) && parts_before(context, key, (int)dir, NULL, NULL, 0);
    table->calls.end[dir][size](key, context, tag, tag_len);
    if (is_sampled)
        parts_end(context, tag, tag_len);
}

static inline void gmac_begin(const struct table *table, unsigned size, const struct gcm_key_data *key, struct gcm_context_data *context,
                              const uint8_t *iv, uint64_t iv_len) {
    bool is_sampled = here.inside == INSIDE_NONE && is_due(CALL_CLASS(KIND_GMAC_IN_PARTS, size));
    table->calls.gmac_begin[size](key, context, iv, iv_len);
    if (is_sampled || is_known(context))
        parts_begin(is_sampled, table, KIND_GMAC_IN_PARTS, size, key, context, iv, iv_len, NULL, 0);
}

static inline void gmac_part(const struct table *table, unsigned size, const struct gcm_key_data *key, struct gcm_context_data *context,
                             const uint8_t *in, uint64_t len) {
    bool is_sampled = is_known(context) && parts_before(context, key, PARTS_NO_TEXT, NULL, in, len);
    table->calls.gmac_part[size](key, context, in, len);
    if (is_sampled)
        parts_after(context, NULL, len);
}

static inline void gmac_end(const struct table *table, unsigned size, const struct gcm_key_data *key, struct gcm_context_data *context,
                            uint8_t *tag, uint64_t tag_len) {
    bool is_sampled = is_known(context) && parts_before(context, key, PARTS_NO_TEXT, NULL, NULL, 0);
    table->calls.gmac_end[size](key, context, tag, tag_len);
    if (is_sampled)
        parts_end(context, tag, tag_len);
}

#endif
