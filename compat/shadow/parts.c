#include "parts.h"
#include "counts.h"
#include "due.h"
#include "feed.h"
#include "keys.h"
#include "raw_form.h"

#include <pthread.h>
#include <stdlib.h>
#include <string.h>

/* The most bytes of text, so that a sample has them as source and as result. */
enum { MOST_TEXT = MOST_SAMPLE / 3, FIRST_ROOM = 4096, BLOCK = 16 };

/* A text that is followed. */
struct text {
    struct gcm_context_data last; /* what the context had when Intel's library last wrote it */
    struct gcm_key_data key;
    unsigned table, kind, size;
    int dir; /* 0 to seal, 1 to open, PARTS_NO_TEXT before the first part */
    size_t iv_len, aad_len, len, pending, room;
    const uint8_t *first_in;
    uint8_t *first_out;
    uint8_t *in, *out; /* len bytes each, and the part that is being done behind them */
    uint8_t given[];   /* the IV, and the additional data behind it */
};

_Atomic(const struct gcm_context_data *) known_contexts[PLACES];
static struct text *texts[PLACES];
static pthread_mutex_t parts_lock = PTHREAD_MUTEX_INITIALIZER;

/* ---- memory ---- */

static void release(uint8_t *bytes, size_t len) {
    if (bytes != NULL)
        wipe(bytes, len);
    free(bytes);
}

static void free_text(struct text *text) {
    release(text->in, text->room);
    release(text->out, text->room);
    release((uint8_t *)text, sizeof *text + text->iv_len + text->aad_len);
}

/* With the lock: takes a text away from its place. */
static struct text *taken_from(unsigned place) {
    struct text *text = texts[place];
    atomic_store_explicit(&known_contexts[place], NULL, memory_order_relaxed);
    texts[place] = NULL;
    return text;
}

static void drop(unsigned place) {
    struct text *text = taken_from(place);
    if (text == NULL)
        return;
    count_more(COUNT_DROPPED, 1);
    free_text(text);
}

static bool grow(uint8_t **bytes, size_t len, size_t room) {
    uint8_t *made = malloc(room);
    if (made == NULL)
        return false;
    if (len != 0)
        memcpy(made, *bytes, len);
    release(*bytes, len);
    *bytes = made;
    return true;
}

static bool has_room(struct text *text, uint64_t more) {
    size_t room = text->room;
    if (more > MOST_TEXT - text->len)
        return false;
    if (text->len + more <= room)
        return true;
    room = 2 * (text->len + more) > FIRST_ROOM ? 2 * (text->len + more) : FIRST_ROOM;
    bool is_grown = grow(&text->in, text->len, room) && grow(&text->out, text->len, room);
    text->room = is_grown ? room : text->len;
    return is_grown;
}

/* ---- the calls ---- */

static struct text *make_text(const struct table *table, unsigned kind, unsigned size, const struct gcm_key_data *key,
                              const struct gcm_context_data *context, const uint8_t *iv, uint64_t iv_len, const uint8_t *aad,
                              uint64_t aad_len) {
    bool is_right = key != NULL && iv != NULL && iv_len != 0 && iv_len <= MOST_TEXT && aad_len <= MOST_TEXT && (aad != NULL || aad_len == 0);
    size_t bytes = (sizeof(struct text) + (is_right ? iv_len + aad_len : 0) + RECORD_LINE) / RECORD_LINE * RECORD_LINE;
    struct text *text = is_right ? aligned_alloc(RECORD_LINE, bytes) : NULL;
    if (text == NULL)
        return NULL;
    *text = (struct text){.last = *context,
                          .key = *key,
                          .table = (unsigned)(table - tables),
                          .kind = kind,
                          .size = size,
                          .dir = PARTS_NO_TEXT,
                          .iv_len = iv_len,
                          .aad_len = aad_len};
    memcpy(text->given, iv, iv_len);
    if (aad_len != 0)
        memcpy(text->given + iv_len, aad, aad_len);
    return text;
}

void parts_begin(bool is_sampled, const struct table *table, unsigned kind, unsigned size, const struct gcm_key_data *key,
                 const struct gcm_context_data *context, const uint8_t *iv, uint64_t iv_len, const uint8_t *aad, uint64_t aad_len) {
    _Atomic uint8_t *not_yet = &not_yet_of_calls[class_of_call(kind, size)];
    unsigned place = place_of_context(context);
    pthread_mutex_lock(&parts_lock);
    drop(place);
    if (is_sampled && context != NULL && take_due(not_yet, sizeof(struct text) + iv_len + (aad_len > MOST_TEXT ? 0 : aad_len))) {
        texts[place] = make_text(table, kind, size, key, context, iv, iv_len, aad, aad_len);
        if (texts[place] == NULL)
            count_more(COUNT_DROPPED, 1);
        atomic_store_explicit(&known_contexts[place], texts[place] == NULL ? NULL : context, memory_order_relaxed);
    } else if (is_sampled && context == NULL) {
        pass_due(not_yet);
    }
    pthread_mutex_unlock(&parts_lock);
}

/* Whether the text goes on as it was left: the context has what Intel's library wrote, the key is the same, and the direction. */
static bool goes_on(struct text *text, const struct gcm_context_data *context, const struct gcm_key_data *key, int dir, bool is_end) {
    size_t round_keys = sizeof key->expanded_keys;
    if (key == NULL || memcmp(&text->last, context, sizeof *context) != 0 ||
        memcmp(text->key.expanded_keys, key->expanded_keys, round_keys) != 0)
        return false;
    if (!is_end && text->dir == PARTS_NO_TEXT)
        text->dir = dir;
    return dir == text->dir || text->dir == PARTS_NO_TEXT;
}

static bool copy_part(struct text *text, const uint8_t *out, const uint8_t *in, uint64_t len) {
    bool is_gmac = text->kind == KIND_GMAC_IN_PARTS, has_places = in != NULL && (is_gmac || out != NULL);
    text->pending = len;
    if (len == 0)
        return true;
    if (!has_places || (!is_gmac && out != in && overlap(out, len, in, len)) || !has_room(text, len))
        return false;
    memcpy(text->in + text->len, in, len);
    if (text->len == 0) {
        text->first_in = in;
        text->first_out = (uint8_t *)(uintptr_t)out;
    }
    return true;
}

bool parts_before(const struct gcm_context_data *context, const struct gcm_key_data *key, int dir, const uint8_t *out, const uint8_t *in,
                  uint64_t len) {
    unsigned place = place_of_context(context);
    bool is_end = len == 0 && in == NULL, is_followed = false;
    pthread_mutex_lock(&parts_lock);
    struct text *text = is_known(context) ? texts[place] : NULL;
    if (text != NULL) {
        is_followed = goes_on(text, context, key, dir, is_end) && copy_part(text, out, in, len);
        if (!is_followed)
            drop(place);
    }
    pthread_mutex_unlock(&parts_lock);
    return is_followed;
}

void parts_after(const struct gcm_context_data *context, const uint8_t *out, uint64_t len) {
    pthread_mutex_lock(&parts_lock);
    struct text *text = is_known(context) ? texts[place_of_context(context)] : NULL;
    if (text != NULL && text->pending == len) {
        if (out != NULL && len != 0)
            memcpy(text->out + text->len, out, len);
        text->len += len;
        text->last = *context;
    }
    pthread_mutex_unlock(&parts_lock);
}

/* ---- the sample ---- */

static void put_text(struct builder *builder, const struct text *text, const uint8_t *tag, size_t tag_len) {
    struct sample *sample = builder->sample;
    bool is_gmac = text->kind == KIND_GMAC_IN_PARTS;
    size_t len = is_gmac ? 0 : text->len;
    sample->which = (uint8_t)text->size;
    sample->table = (uint8_t)text->table;
    sample->dir = text->dir == 1 ? IMB_DIR_DECRYPT : IMB_DIR_ENCRYPT;
    sample->their_status = IMB_STATUS_COMPLETED;
    sample->job.src = text->first_in;
    sample->job.dst = text->first_out;
    sample->job.auth_tag_output = (uint8_t *)(uintptr_t)tag;
    sample->inputs[INPUT_KEY] = builder_put(builder, &text->key, sizeof text->key);
    sample->inputs[INPUT_IV] = builder_put(builder, text->given, text->iv_len);
    sample->inputs[INPUT_AAD] =
        is_gmac ? builder_put(builder, text->in, text->len) : builder_put(builder, text->given + text->iv_len, text->aad_len);
    sample->image = builder_leave(builder, len + tag_len);
    sample->text = (struct range){0, (uint32_t)len};
    sample->tag = (struct range){(uint32_t)len, (uint32_t)tag_len};
    if (!builder->is_full && len != 0)
        memcpy((char *)sample + sample->image.off, text->in, len);
}

static void give(const struct text *text, const uint8_t *tag, size_t tag_len) {
    struct builder builder;
    size_t bytes = most_bytes_of(sizeof text->key + text->iv_len + text->aad_len + text->len, text->len + tag_len, text->len + tag_len);
    void *room = feed_room(bytes);
    if (room == NULL)
        return;
    builder_begin(&builder, room, bytes, (enum kind)text->kind, CALL_DIRECT);
    put_text(&builder, text, tag, tag_len);
    if (put_results(&builder, text->out, tag))
        feed_give(builder.sample);
    else
        count_more(COUNT_DROPPED, 1);
}

void parts_end(const struct gcm_context_data *context, const uint8_t *tag, uint64_t tag_len) {
    unsigned place = place_of_context(context);
    pthread_mutex_lock(&parts_lock);
    struct text *text = is_known(context) ? taken_from(place) : NULL;
    pthread_mutex_unlock(&parts_lock);
    if (text == NULL)
        return;
    if (tag != NULL && tag_len != 0 && tag_len <= BLOCK)
        give(text, tag, tag_len);
    else
        count_more(COUNT_DROPPED, 1);
    free_text(text);
}

void parts_forget_all(void) {
    pthread_mutex_init(&parts_lock, NULL);
    for (unsigned place = 0; place < PLACES; place++) {
        atomic_store_explicit(&known_contexts[place], NULL, memory_order_relaxed);
        texts[place] = NULL;
    }
}
