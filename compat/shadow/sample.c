#include "sample.h"
#include "records.h"
#include "settings.h"

#include <sched.h>
#include <string.h>
#include <time.h>
#include <unistd.h>

static size_t lines(size_t len) {
    return (len + RECORD_LINE - 1) / RECORD_LINE * RECORD_LINE;
}

int this_process;

__attribute__((constructor(SHADOW_SETTINGS))) void keep_process(void) {
    this_process = getpid();
}

void builder_begin(struct builder *builder, void *room, size_t len, enum kind kind, enum call call) {
    struct timespec now;
    *builder = (struct builder){.sample = room, .used = lines(sizeof *builder->sample), .room = len, .is_full = len < sizeof(struct sample)};
    if (builder->is_full)
        return;
    memset(room, 0, sizeof *builder->sample);
    clock_gettime(CLOCK_REALTIME_COARSE, &now);
    builder->sample->kind = (uint8_t)kind;
    builder->sample->call = (uint8_t)call;
    builder->sample->seconds = now.tv_sec;
    builder->sample->process = this_process;
    builder->sample->processors[0] = sched_getcpu();
    builder->sample->size = (uint32_t)builder->used;
}

struct range builder_leave(struct builder *builder, size_t len) {
    struct range range = {(uint32_t)builder->used, (uint32_t)len};
    if (builder->is_full || builder->used > builder->room || len > builder->room - builder->used) {
        builder->is_full = true;
        return (struct range){0, 0};
    }
    builder->used = lines(builder->used + len);
    builder->sample->size = (uint32_t)builder->used;
    return range;
}

struct range builder_put(struct builder *builder, const void *from, size_t len) {
    struct range range = builder_leave(builder, len);
    if (range.len != 0)
        memcpy((char *)builder->sample + range.off, from, len);
    return range;
}

bool put_results(struct builder *builder, const void *text, const void *tag) {
    struct sample *sample = builder->sample;
    sample->processors[1] = sched_getcpu();
    sample->their_text = builder_put(builder, text, sample->text.len);
    sample->their_tag = builder_put(builder, tag, sample->tag.len);
    return !builder->is_full;
}

/* Each piece begins at a line. */
size_t most_bytes_of(uint64_t inputs, uint64_t image, uint64_t results) {
    uint64_t pieces = INPUTS + 1 + 2;
    if (inputs > MOST_SAMPLE || image > MOST_SAMPLE || results > MOST_SAMPLE)
        return SIZE_MAX;
    return (size_t)(lines(sizeof(struct sample)) + inputs + image + results + pieces * RECORD_LINE);
}
