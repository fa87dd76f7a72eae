#include "direct.h"
#include "counts.h"
#include "feed.h"
#include "raw_form.h"

#include <string.h>

enum { IV_BYTES = IMB_GCM_IV_DATA_LEN, SUBKEY = 16 };

static size_t key_bytes(unsigned size) {
    return 16 + 8 * size;
}

static size_t schedule_bytes(unsigned size) {
    return 16 * (key_bytes(size) / 4 + 7);
}

/* Begins the sample of a call that reads and writes so many bytes. False if it isn't sampled. Calls with wrong arguments aren't: Intel's
 * functions return nothing for them. */
static bool begin_sample(struct builder *builder, bool is_right, const struct table *table, unsigned kind, unsigned which, uint64_t reads,
                         uint64_t writes) {
    size_t bytes = most_bytes_of(reads, reads + writes, writes);
    if (!is_right) {
        pass_due(CALL_CLASS(kind, which));
        return false;
    }
    void *room = take_due(CALL_CLASS(kind, which), bytes) ? feed_room(bytes) : NULL;
    if (room == NULL)
        return false;
    builder_begin(builder, room, bytes, (enum kind)kind, CALL_DIRECT);
    builder->sample->which = (uint8_t)which;
    builder->sample->table = (uint8_t)(table - tables);
    builder->sample->their_status = IMB_STATUS_COMPLETED;
    return true;
}

/* What is written is all that the image has. */
static void expect_bytes(struct builder *builder, size_t len) {
    builder->sample->image = builder_leave(builder, len);
    builder->sample->text = (struct range){0, (uint32_t)len};
}

static void end_sample(struct builder *builder, const void *text, const void *tag) {
    if (put_results(builder, text, tag))
        feed_give(builder->sample);
    else
        count_more(COUNT_DROPPED, 1);
}

/* ---- whole texts ---- */

static bool is_right_text(WHOLE_ARGUMENTS) {
    bool has_text = len == 0 || (out != NULL && in != NULL), has_aad = aad_len == 0 || aad != NULL;
    bool is_apart = out == in || !overlap(out, len, in, len);
    return key != NULL && context != NULL && iv != NULL && tag != NULL && has_text && has_aad && is_apart && tag_len != 0 &&
           tag_len <= IMB_MAX_TAG_LEN;
}

static void put_text(struct builder *builder, unsigned dir, WHOLE_ARGUMENTS) {
    struct sample *sample = builder->sample;
    (void)context;
    sample->dir = dir == 0 ? IMB_DIR_ENCRYPT : IMB_DIR_DECRYPT;
    sample->job.src = in;
    sample->job.dst = out;
    sample->job.auth_tag_output = tag;
    sample->inputs[INPUT_KEY] = builder_put(builder, key, sizeof *key);
    sample->inputs[INPUT_IV] = builder_put(builder, iv, IV_BYTES);
    sample->inputs[INPUT_AAD] = builder_put(builder, aad, aad_len);
    sample->image = builder_leave(builder, len + tag_len);
    sample->text = (struct range){0, (uint32_t)len};
    sample->tag = (struct range){(uint32_t)len, (uint32_t)tag_len};
    if (!builder->is_full && len != 0)
        memcpy((char *)sample + sample->image.off, in, len);
}

__attribute__((noinline, cold)) void sampled_whole(const struct table *table, unsigned dir, unsigned size, WHOLE_ARGUMENTS) {
    struct builder builder;
    uint64_t reads = len > MOST_SAMPLE || aad_len > MOST_SAMPLE ? MOST_SAMPLE : len + aad_len + sizeof *key + IV_BYTES;
    bool is_sampled =
        begin_sample(&builder, is_right_text(WHOLE_VALUES), table, KIND_GCM, dir * KEY_SIZES + size, reads, len + IMB_MAX_TAG_LEN);
    if (is_sampled)
        put_text(&builder, dir, WHOLE_VALUES);
    here.inside = INSIDE_CALL;
    table->calls.whole[dir][size](WHOLE_VALUES);
    here.inside = INSIDE_NONE;
    if (is_sampled)
        end_sample(&builder, out, tag);
}

/* ---- keys ---- */

/* Both schedules stand one behind the other. */
static void give_schedules(struct builder *builder, const void *encryption, const void *decryption, size_t len) {
    uint8_t both[2 * 240];
    memcpy(both, encryption, len);
    if (decryption != NULL)
        memcpy(both + len, decryption, len);
    end_sample(builder, both, NULL);
    wipe(both, sizeof both);
}

static bool begin_keys(struct builder *builder, bool is_right, const struct table *table, unsigned size, const void *key, bool is_both) {
    size_t len = schedule_bytes(size) * (is_both ? 2 : 1);
    (void)is_due(CALL_CLASS(KIND_KEYS, size));
    if (!begin_sample(builder, is_right, table, KIND_KEYS, size, key_bytes(size), len))
        return false;
    builder->sample->inputs[INPUT_KEY] = builder_put(builder, key, key_bytes(size));
    expect_bytes(builder, len);
    return true;
}

void sampled_keys(const struct table *table, unsigned size, const void *key, void *encryption, void *decryption) {
    struct builder builder;
    bool is_right = key != NULL && encryption != NULL && decryption != NULL;
    bool is_sampled = begin_keys(&builder, is_right, table, size, key, true);
    table->calls.expand[size](key, encryption, decryption);
    if (is_sampled)
        give_schedules(&builder, encryption, decryption, schedule_bytes(size));
}

void sampled_encryption_keys(const struct table *table, unsigned size, const void *key, void *encryption) {
    struct builder builder;
    bool is_sampled = begin_keys(&builder, key != NULL && encryption != NULL, table, size, key, false);
    table->calls.expand_encryption[size](key, encryption);
    if (is_sampled)
        give_schedules(&builder, encryption, NULL, schedule_bytes(size));
}

/* The tables of hash keys behind the schedule aren't the proved library's. */
void sampled_gcm_key(const struct table *table, unsigned size, const void *key, struct gcm_key_data *data) {
    struct builder builder;
    bool is_sampled = begin_keys(&builder, key != NULL && data != NULL, table, size, key, false);
    table->calls.gcm_key[size](key, data);
    if (is_sampled)
        give_schedules(&builder, data->expanded_keys, NULL, schedule_bytes(size));
}

void sampled_subkeys(const struct table *table, unsigned size, const void *schedule, void *first, void *second) {
    struct builder builder;
    uint8_t both[2 * SUBKEY];
    size_t len = schedule_bytes(2 * size);
    bool is_right = schedule != NULL && first != NULL && second != NULL;
    (void)is_due(CALL_CLASS(KIND_SUBKEYS, size));
    bool is_sampled = begin_sample(&builder, is_right, table, KIND_SUBKEYS, size, len, sizeof both);
    if (is_sampled) {
        builder.sample->inputs[INPUT_KEY] = builder_put(&builder, schedule, len);
        expect_bytes(&builder, sizeof both);
    }
    table->calls.subkeys[size](schedule, first, second);
    if (is_sampled) {
        memcpy(both, first, SUBKEY);
        memcpy(both + SUBKEY, second, SUBKEY);
        end_sample(&builder, both, NULL);
        wipe(both, sizeof both);
    }
}

/* ---- hashes ---- */

/* The bytes of a block, of a state and of a digest (FIPS 180-4, 1). */
static const struct {
    uint8_t block, state, digest;
} hash_bytes_of[HASHES] = {{64, 20, 20}, {64, 32, 28}, {64, 32, 32}, {128, 64, 48}, {128, 64, 64}};

void sampled_block(const struct table *table, unsigned hash, const void *bytes, void *state) {
    struct builder builder;
    size_t len = hash_bytes_of[hash].block, written = hash_bytes_of[hash].state;
    (void)is_due(CALL_CLASS(KIND_BLOCK, hash));
    bool is_sampled = begin_sample(&builder, bytes != NULL && state != NULL, table, KIND_BLOCK, hash, len, written);
    if (is_sampled) {
        builder.sample->inputs[INPUT_FIRST] = builder_put(&builder, bytes, len);
        expect_bytes(&builder, written);
    }
    table->calls.block[hash](bytes, state);
    if (is_sampled)
        end_sample(&builder, state, NULL);
}

__attribute__((noinline, cold)) void sampled_digest(const struct table *table, unsigned hash, const void *text, uint64_t len, void *out) {
    struct builder builder;
    size_t written = hash_bytes_of[hash].digest;
    bool is_right = out != NULL && (text != NULL || len == 0);
    bool is_sampled = begin_sample(&builder, is_right, table, KIND_DIGEST, hash, len, written);
    if (is_sampled) {
        builder.sample->inputs[INPUT_AAD] = builder_put(&builder, text, len);
        expect_bytes(&builder, written);
    }
    here.inside = INSIDE_CALL;
    table->calls.digest[hash](text, len, out);
    here.inside = INSIDE_NONE;
    if (is_sampled)
        end_sample(&builder, out, NULL);
}
