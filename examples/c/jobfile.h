/* Job files without session lines (docs/FORMAT.md), read from standard input, and the lines of results: what gateway.c and crew.c share. A
 * program defines PROGRAM, its name in messages, before it includes this. */
#ifndef JOBFILE_H
#define JOBFILE_H

#include "mbj.h"

#include <stdio.h>

enum { MAX_FILE_BYTES = 16777216, MAX_FILE_JOBS = 65536, FIELDS = 14, MAX_DIGITS = 5 };

enum { READ_FAILED = 3, WRITE_FAILED = 4, BAD_LINE = 5, TOO_LONG = 6, NO_MEMORY = 7 };

/* A job of the file. Its bytes stand in the file's text, in place of their digits; its tag is its own. */
struct file_job {
    MBJ_JOB job;
    uint8_t tag[MBJ_MAX_TAG_BYTES];
};

struct file {
    char *text;
    size_t len;
    struct file_job *jobs;
    size_t count, room;
};

/* ---- reading ---- */

/* A field of a line. */
struct field {
    char *at;
    size_t len;
};

static bool is_word(struct field field, const char *word) {
    return field.len == strlen(word) && memcmp(field.at, word, field.len) == 0;
}

/* The words of fields, in the order of their codes. */
static const char *const ciphers[] = {"null", "cbc", "ctr", "gcm", "ccm"};
static const char *const dirs[] = {"enc", "dec"};
static const char *const orders[] = {"ch", "hc"};
static const char *const auths[] = {"null",    "hmac-sha1", "hmac-sha224", "hmac-sha256", "hmac-sha384", "hmac-sha512",
                                    "cmac128", "cmac256",   "gcm",         "gmac",        "ccm",         "sha1",
                                    "sha224",  "sha256",    "sha384",      "sha512"};

/* The code of the field, by its place among these words, of which there are count; false if it is none of them. */
static bool read_word(struct field field, const char *const *words, uint32_t count, uint32_t *code) {
    for (*code = 0; *code < count; ++*code)
        if (is_word(field, words[*code]))
            return true;
    return false;
}

/* One to five digits with no zero in front. */
static bool read_number(struct field field, uint64_t *number) {
    if (field.len == 0 || field.len > MAX_DIGITS || (field.len > 1 && field.at[0] == '0'))
        return false;
    *number = 0;
    for (size_t i = 0; i < field.len; i++) {
        if (field.at[i] < '0' || field.at[i] > '9')
            return false;
        *number = *number * 10 + (uint64_t)(field.at[i] - '0');
    }
    return true;
}

static int digit_value(char digit) {
    if (digit >= '0' && digit <= '9')
        return digit - '0';
    if (digit >= 'a' && digit <= 'f')
        return digit - 'a' + 10;
    if (digit >= 'A' && digit <= 'F')
        return digit - 'A' + 10;
    return -1;
}

/* Pairs of hexadecimal digits, or `-` for none: the bytes are written over the digits. */
static bool read_bytes(struct field field, const uint8_t **bytes, size_t *len) {
    uint8_t *out = (uint8_t *)field.at;
    *bytes = out;
    *len = 0;
    if (is_word(field, "-"))
        return true;
    if (field.len == 0 || field.len % 2 != 0)
        return false;
    for (size_t i = 0; i < field.len; i += 2) {
        int high = digit_value(field.at[i]), low = digit_value(field.at[i + 1]);
        if (high < 0 || low < 0)
            return false;
        out[(*len)++] = (uint8_t)(high * 16 + low);
    }
    return true;
}

/* The fields of a line, which are parted by single spaces; false if they aren't fourteen. */
static bool split_line(char *line, size_t len, struct field *fields) {
    int count = 0;
    fields[0].at = line;
    for (size_t i = 0; i <= len; i++) {
        if (i < len && line[i] != ' ')
            continue;
        fields[count].len = (size_t)(line + i - fields[count].at);
        if (++count == FIELDS)
            return i == len;
        fields[count].at = line + i + 1;
    }
    return false;
}

/* Where the cipher range begins. One that begins behind the packet is refused, and nothing is written there. */
static uint8_t *range_in(uint8_t *packet, const MBJ_JOB *job) {
    uint64_t off = job->cipher_start_src_offset_in_bytes;
    return off <= job->packet_len_in_bytes ? packet + off : packet;
}

/* Reads a job line. Returns 0 and fills the job, or the number of the first field that isn't of its form, or -1 for a wrong number of
 * fields. */
static int read_job(char *line, size_t len, struct file_job *into) {
    struct field f[FIELDS];
    MBJ_JOB *job = &into->job;
    uint64_t tag_len;
    mbj_job_blank(job);
    if (!split_line(line, len, f))
        return -1;
    if (!read_word(f[0], ciphers, MBJ_CIPHER_CCM + 1, &job->cipher_mode))
        return 1;
    if (!read_word(f[1], dirs, MBJ_DIR_DECRYPT + 1, &job->cipher_direction))
        return 2;
    if (!read_word(f[2], orders, MBJ_ORDER_HASH_CIPHER + 1, &job->chain_order))
        return 3;
    if (!read_bytes(f[3], &job->key, &job->key_len_in_bytes))
        return 4;
    if (!read_bytes(f[4], &job->iv, &job->iv_len_in_bytes))
        return 5;
    if (!read_number(f[5], &job->cipher_start_src_offset_in_bytes))
        return 6;
    if (!read_number(f[6], &job->msg_len_to_cipher_in_bytes))
        return 7;
    if (!read_word(f[7], auths, MBJ_AUTH_SHA_512 + 1, &job->hash_alg))
        return 8;
    if (!read_bytes(f[8], &job->auth_key, &job->auth_key_len_in_bytes))
        return 9;
    if (!read_bytes(f[9], &job->aad, &job->aad_len_in_bytes))
        return 10;
    if (!read_number(f[10], &job->hash_start_src_offset_in_bytes))
        return 11;
    if (!read_number(f[11], &job->msg_len_to_hash_in_bytes))
        return 12;
    if (!read_number(f[12], &tag_len) || tag_len > UINT8_MAX)
        return 13;
    if (!read_bytes(f[13], &job->packet, &job->packet_len_in_bytes))
        return 14;
    job->dst = range_in((uint8_t *)f[13].at, job); /* in place */
    job->auth_tag_output_len_in_bytes = (size_t)tag_len;
    return 0;
}

/* Room for one more job. */
static bool has_room(struct file *file) {
    if (file->count < file->room)
        return true;
    size_t room = file->room == 0 ? 64 : 2 * file->room;
    struct file_job *jobs = (struct file_job *)realloc(file->jobs, room * sizeof *jobs);
    if (jobs == NULL)
        return false;
    file->jobs = jobs;
    file->room = room;
    return true;
}

/* Reads the text's lines into jobs. Returns a status, and says on standard error why it isn't 0. */
static int read_jobs(struct file *file) {
    size_t start = 0, number = 0;
    while (start < file->len) {
        char *line = file->text + start;
        char *end = (char *)memchr(line, '\n', file->len - start);
        size_t len = end != NULL ? (size_t)(end - line) : file->len - start;
        start += len + 1;
        number++;
        if (len > 0 && line[len - 1] == '\r')
            len--;
        if (len == 0 || line[0] == '#')
            continue;
        if (file->count == MAX_FILE_JOBS) {
            fprintf(stderr, PROGRAM ": line %zu: over %d jobs\n", number, MAX_FILE_JOBS);
            return TOO_LONG;
        }
        if (!has_room(file))
            return NO_MEMORY;
        int field = read_job(line, len, &file->jobs[file->count]);
        if (field != 0) {
            fprintf(stderr, PROGRAM ": line %zu: field %d\n", number, field < 0 ? 0 : field);
            return BAD_LINE;
        }
        file->count++;
    }
    return 0;
}

/* Reads all of standard input, until it is longer than a file may be. */
static int read_text(struct file *file) {
    size_t room = 0;
    for (;;) {
        if (file->len == room) {
            room = room == 0 ? 65536 : 2 * room;
            char *text = (char *)realloc(file->text, room);
            if (text == NULL)
                return NO_MEMORY;
            file->text = text;
        }
        size_t got = fread(file->text + file->len, 1, room - file->len, stdin);
        file->len += got;
        if (file->len > MAX_FILE_BYTES) {
            fprintf(stderr, PROGRAM ": input over %d bytes\n", MAX_FILE_BYTES);
            return TOO_LONG;
        }
        if (got == 0)
            return ferror(stdin) ? READ_FAILED : 0;
    }
}

/* ---- printing ---- */

static void print_bytes(const uint8_t *bytes, size_t len) {
    static const char digits[] = "0123456789abcdef";
    if (len == 0)
        putchar('-');
    for (size_t i = 0; i < len; i++) {
        putchar(digits[bytes[i] >> 4]);
        putchar(digits[bytes[i] & 15]);
    }
}

/* Prints the result of a job; user_data is the job of the file. */
static void print_result(const MBJ_JOB *done, const struct file_job *first) {
    size_t number = (size_t)((const struct file_job *)done->user_data - first);
    if (done->status == MBJ_STATUS_COMPLETED) {
        printf("%zu ok ", number);
        print_bytes(done->packet, done->packet_len_in_bytes);
        putchar(' ');
        print_bytes(done->auth_tag_output, done->hash_alg == MBJ_AUTH_NULL ? 0 : done->auth_tag_output_len_in_bytes);
        putchar('\n');
    } else {
        printf("%zu invalid-args %u\n", number, (unsigned)done->reason);
    }
}

/* Writes what is left of the text, says on standard error why the status isn't 0, and frees the file. */
static int end_file(struct file *file, int status) {
    if ((fflush(stdout) != 0 || ferror(stdout)) && status == 0)
        status = WRITE_FAILED;
    if (status == READ_FAILED)
        fprintf(stderr, PROGRAM ": read failed\n");
    if (status == WRITE_FAILED)
        fprintf(stderr, PROGRAM ": write failed\n");
    if (status == NO_MEMORY)
        fprintf(stderr, PROGRAM ": out of memory\n");
    free(file->jobs);
    free(file->text);
    return status;
}

#endif
