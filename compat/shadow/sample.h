/* A sample: all that a job or a call read, copied before Intel's library saw it, and what Intel's library wrote. It has offsets and no
 * pointers that are followed, so that it can be moved. */
#ifndef SHADOW_SAMPLE_H
#define SHADOW_SAMPLE_H

#include "imb.h"

#include <stdbool.h>

/* What was sampled. */
enum kind { KIND_JOB, KIND_GCM, KIND_GCM_IN_PARTS, KIND_GMAC_IN_PARTS, KIND_KEYS, KIND_SUBKEYS, KIND_BLOCK, KIND_DIGEST, KINDS };

/* By which call. */
enum call {
    CALL_JOB,
    CALL_JOB_UNCHECKED,
    CALL_BURST,
    CALL_BURST_UNCHECKED,
    CALL_ARRAY,
    CALL_ARRAY_UNCHECKED,
    CALL_DIRECT,
    CALLS
};

/* Bytes of a sample, counted from its beginning. */
struct range {
    uint32_t off, len;
};

/* What is read besides the text. The data of a key of GCM is whole, with its tables. */
enum input { INPUT_KEY, INPUT_IV, INPUT_AAD, INPUT_FIRST, INPUT_SECOND, INPUT_THIRD, INPUTS };

/* A range of the application's memory, and where the sample has its bytes. */
struct piece {
    uintptr_t from;
    struct range at;
};

enum { PIECES = 4 };

struct sample {
    uint32_t size;       /* with all that is behind */
    uint8_t kind;        /* enum kind */
    uint8_t call;        /* enum call */
    uint8_t dir;         /* IMB_CIPHER_DIRECTION of a direct call */
    uint8_t which;       /* of a direct call: the length of the key as 0, 1, 2, or the hash */
    uint8_t table;       /* the number of the table of Intel's functions */
    bool is_unsent;      /* the job is wrong: the proved library would refuse it with the error, and isn't given it */
    int error;           /* that error, or 0 */
    int process;         /* which process took it: a child of a fork has a copy of what waits */
    int processors[2];   /* where it was submitted, and where it came back */
    int64_t seconds;     /* since the epoch, when it was submitted */
    IMB_JOB job;         /* as it was submitted: its pointers are the application's */
    const IMB_JOB *from; /* where it was */
    struct range inputs[INPUTS];
    struct range image; /* what text and tag are read from and written to, and what lies about them */
    struct piece pieces[PIECES];
    struct range text, tag; /* what is written, counted from the image's beginning */
    /* What Intel's library made of it. */
    IMB_STATUS their_status;
    int their_error; /* the one that it refused a wrong job with, or 0 */
    struct range their_text, their_tag;
};

/* The number of this process. It is noted when the library is loaded, and in a child of a fork. */
extern int this_process;
void keep_process(void);

/* The most bytes of a sample with its results. */
enum { MOST_SAMPLE = 1 << 18 };

/* How many bytes a sample takes at most whose inputs, image and results have so many; SIZE_MAX if one of them is too long. */
size_t most_bytes_of(uint64_t inputs, uint64_t image, uint64_t results);

/* A sample is built in room of a known length: each piece behind the last one. */
struct builder {
    struct sample *sample;
    size_t used, room;
    bool is_full;
};

void builder_begin(struct builder *builder, void *room, size_t len, enum kind kind, enum call call);

/* Copies bytes behind what is there. Returns where, or a range of no byte if the room is too short. */
struct range builder_put(struct builder *builder, const void *from, size_t len);

/* The same, without copying: where they begin. */
struct range builder_leave(struct builder *builder, size_t len);

/* What Intel's library wrote, behind all the rest. False if the room is too short. */
bool put_results(struct builder *builder, const void *text, const void *tag);

static inline const void *bytes_of(const struct sample *sample, struct range range) {
    return (const char *)sample + range.off;
}

/* NULL if the range has no byte. */
static inline const void *input_of(const struct sample *sample, enum input input) {
    return sample->inputs[input].len == 0 ? NULL : bytes_of(sample, sample->inputs[input]);
}

#endif
