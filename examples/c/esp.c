/* Seals and opens ESP packets (RFC 4303) as a gateway does, by bursts through one manager. Reads lines from standard input, and prints a
 * line for each, in order, N from 0:
 *
 *     seal SUITE KEY AKEY SPI SEQ IV NEXT PAYLOAD    ->  N PACKET
 *     open SUITE KEY AKEY PACKET                     ->  N NEXT PAYLOAD, or N drop
 *
 * Bytes and SPI are hexadecimal, SEQ and NEXT decimal; `-` is no bytes. KEY has the suite's salt at its end. PACKET is SPI, SEQ, IV, text
 * with padding, its length and NEXT, and the tag. A suite's name with `-esn` behind it has extended sequence numbers: SEQ has 64 bits then,
 * also in PACKET. On the wire only its low half goes, and a receiver knows the high half by its window.
 *
 * Status 1 for a bad line, 2 if reading, writing or memory fails; the lines before are answered. */
#define _POSIX_C_SOURCE 200809L /* getline */
#include "esp_packet.h"

#include <stdio.h>
#include <sys/types.h>

enum { BAD_LINE = 1, FAILED = 2 };

/* Jobs come back in order, so a line's place is free once as many later ones are submitted as the manager takes. */
static struct packet packets[MBJ_MAX_JOBS];

/* ---- answers ---- */

static void print_bytes(const uint8_t *at, size_t len) {
    static const char digits[] = "0123456789abcdef";
    for (size_t i = 0; i < len; i++) {
        putchar(digits[at[i] >> 4]);
        putchar(digits[at[i] & 15]);
    }
}

static void print_sealed(const struct packet *p) {
    printf("%zu ", p->number);
    print_bytes(p->bytes, SPI);
    print_bytes(p->seq_high, p->is_esn ? SEQ : 0);
    print_bytes(p->bytes + SPI, p->len - SPI);
    print_bytes(p->tag, p->suite->tag_len);
    putchar('\n');
}

static void print_opened(const struct packet *p) {
    const uint8_t *text = p->bytes + text_at(p);
    size_t len = p->len - text_at(p), payload = payload_len(text, len);
    if (payload == SIZE_MAX) {
        printf("%zu drop\n", p->number);
        return;
    }
    printf("%zu %u ", p->number, text[len - 1]);
    if (payload == 0)
        putchar('-');
    print_bytes(text, payload);
    putchar('\n');
}

/* A packet whose tag is wrong has another status, and its text was cleared. */
static void answer(const MBJ_JOB *done) {
    const struct packet *p = (const struct packet *)done->user_data;
    if (p->task == DROP || done->status != MBJ_STATUS_COMPLETED)
        printf("%zu drop\n", p->number);
    else if (p->task == SEAL)
        print_sealed(p);
    else
        print_opened(p);
}

/* ---- lines ---- */

enum { SEAL_FIELDS = 9, OPEN_FIELDS = 5 };

static int digit_value(uint8_t digit) {
    const char *digits = "0123456789abcdefABCDEF", *at = (const char *)memchr(digits, digit, 22);
    return at == NULL ? -1 : (int)(at - digits < 16 ? at - digits : at - digits - 6);
}

/* Pairs of hexadecimal digits, or `-`: the bytes are written over the digits. */
static bool read_bytes(struct bytes *field) {
    size_t len = field->len;
    bool is_none = len == 1 && field->at[0] == '-';
    field->len = is_none ? 0 : len / 2;
    for (size_t i = 0; i < field->len; i++) {
        int high = digit_value(field->at[2 * i]), low = digit_value(field->at[2 * i + 1]);
        if (high < 0 || low < 0)
            return false;
        field->at[i] = (uint8_t)(high * 16 + low);
    }
    return is_none || (len != 0 && len % 2 == 0);
}

/* A number to this base that is at most the limit. */
static bool read_number(struct bytes field, unsigned base, uint64_t limit, uint64_t *number) {
    *number = 0;
    for (size_t i = 0; i < field.len; i++) {
        int value = digit_value(field.at[i]);
        if (value < 0 || (unsigned)value >= base || *number > (limit - (unsigned)value) / base)
            return false;
        *number = *number * base + (unsigned)value;
    }
    return field.len != 0;
}

static bool is_word(struct bytes field, const char *word) {
    return field.len == strlen(word) && memcmp(field.at, word, field.len) == 0;
}

/* The suite's name, with -esn behind it or not. */
static bool read_suite(struct bytes field, struct association *sa) {
    static const char esn[] = "-esn";
    size_t len = sizeof esn - 1;
    sa->is_esn = field.len > len && memcmp(field.at + field.len - len, esn, len) == 0;
    field.len -= sa->is_esn ? len : 0;
    for (size_t i = 0; i < sizeof suites / sizeof *suites; i++)
        if (is_word(field, suites[i].name)) {
            sa->suite = &suites[i];
            return true;
        }
    return false;
}

/* Makes the packet of the fields SPI SEQ IV NEXT PAYLOAD, as it is before it is enciphered. Returns what is wrong with them, or NULL. */
static const char *put_together(struct packet *p, struct bytes *f) {
    uint64_t spi, seq, next;
    if (!read_number(f[0], 16, UINT32_MAX, &spi))
        return "no SPI";
    if (!read_number(f[1], 10, p->is_esn ? UINT64_MAX : UINT32_MAX, &seq))
        return "no SEQ";
    if (!read_bytes(&f[2]) || f[2].len != p->suite->iv_len)
        return "no IV of the suite";
    if (!read_number(f[3], 10, UINT8_MAX, &next))
        return "no NEXT";
    if (!read_bytes(&f[4]))
        return "no PAYLOAD";
    size_t align = p->suite->align, pad = (align - (f[4].len + TRAILER) % align) % align;
    if (f[4].len > MAX_PACKET || text_at(p) + f[4].len + pad + TRAILER + p->suite->tag_len > MAX_PACKET)
        return "PAYLOAD too long";
    put_number(p->bytes, spi, SPI);
    put_number(p->bytes + SPI, seq, SEQ);
    put_number(p->seq_high, seq >> 32, SEQ);
    uint8_t *end = put(put(p->bytes + HEADER, f[2].at, f[2].len), f[4].at, f[4].len);
    for (size_t i = 1; i <= pad; i++)
        *end++ = (uint8_t)i;
    *end++ = (uint8_t)pad;
    *end++ = (uint8_t)next;
    p->len = (size_t)(end - p->bytes);
    return NULL;
}

/* Cuts a line at its single spaces; returns how many fields it has, or one more than fit. */
static size_t split(uint8_t *line, size_t len, struct bytes *fields) {
    size_t count = 0, start = 0;
    for (size_t i = 0; i <= len && count < SEAL_FIELDS; i++)
        if (i == len || line[i] == ' ') {
            fields[count].at = line + start;
            fields[count++].len = i - start;
            start = i + 1;
        }
    return start > len ? count : count + 1;
}

/* Reads a line into a packet and its association; what is wrong with it, or NULL. */
static const char *read_line(uint8_t *line, size_t len, struct association *sa, struct packet *p) {
    struct bytes f[SEAL_FIELDS];
    size_t count = split(line, len, f);
    if (!(count == SEAL_FIELDS && is_word(f[0], "seal")) && !(count == OPEN_FIELDS && is_word(f[0], "open")))
        return "neither seal nor open with its fields";
    if (!read_suite(f[1], sa))
        return "no such SUITE";
    if (!read_bytes(&f[2]) || !read_bytes(&f[3]))
        return "no KEY or AKEY";
    sa->key = f[2];
    sa->akey = f[3];
    if (!has_keys(sa))
        return "no KEY and AKEY of the suite";
    p->suite = sa->suite;
    p->is_esn = sa->is_esn;
    p->task = SEAL;
    if (count == SEAL_FIELDS)
        return put_together(p, f + 4);
    if (!read_bytes(&f[4]))
        return "no PACKET";
    p->task = take_apart(p, f[4]) ? OPEN : DROP;
    return NULL;
}

/* ---- the gateway ---- */

static int complain(const char *what) {
    fprintf(stderr, "esp: %s\n", what);
    return FAILED;
}

enum { BURST = 32 };

/* The lines of a burst, in which its jobs have their keys until they are submitted. */
struct lines {
    char *at[BURST];
    size_t room[BURST];
};

static void answer_each(MBJ_JOB *const *done, uint32_t count) {
    for (uint32_t i = 0; i < count; i++)
        answer(done[i]);
}

/* Jobs for a burst, one at least. */
static uint32_t get_jobs(MBJ_MGR *m, MBJ_JOB **jobs) {
    if (mbj_queue_size(m) == MBJ_MAX_JOBS)
        answer_each(jobs, mbj_flush_burst(m, BURST, jobs));
    return mbj_get_next_burst(m, BURST, jobs);
}

static int do_line(MBJ_JOB *job, uint8_t *line, size_t len, size_t number) {
    struct association sa;
    struct packet *p = &packets[number % MBJ_MAX_JOBS];
    p->number = number;
    const char *fault = read_line(line, len, &sa, p);
    if (fault != NULL) {
        fprintf(stderr, "esp: line %zu: %s\n", number + 1, fault);
        return BAD_LINE;
    }
    fill_job(job, &sa, p);
    return 0;
}

/* Fills count jobs from lines. Returns how many it filled: fewer if the lines end, or before a bad one. */
static uint32_t read_lines(struct lines *lines, MBJ_JOB *const *jobs, uint32_t count, size_t *number, int *status) {
    for (uint32_t i = 0; i < count; i++) {
        ssize_t len = getline(&lines->at[i], &lines->room[i], stdin);
        if (len < 0)
            return i;
        char *line = lines->at[i];
        *status = do_line(jobs[i], (uint8_t *)line, (size_t)(line[len - 1] == '\n' ? len - 1 : len), *number);
        if (*status != 0)
            return i;
        ++*number;
    }
    return count;
}

/* Submits a burst, and prints the results of the jobs that are finished then. */
static int submit(MBJ_MGR *m, uint32_t count, MBJ_JOB **jobs) {
    answer_each(jobs, mbj_submit_burst(m, count, jobs, jobs));
    mbj_err refusal = mbj_get_errno(m);
    for (uint32_t done; (done = mbj_get_completed_burst(m, BURST, jobs)) != 0;)
        answer_each(jobs, done);
    return refusal == MBJ_ERR_NONE ? 0 : complain(mbj_err_text(refusal));
}

static int run(MBJ_MGR *m) {
    static struct lines lines;
    MBJ_JOB *jobs[BURST];
    size_t number = 0;
    int status = 0;
    for (bool is_last = false; status == 0 && !is_last;) {
        uint32_t wanted = get_jobs(m, jobs), filled = read_lines(&lines, jobs, wanted, &number, &status);
        int submitted = submit(m, filled, jobs);
        status = status == 0 ? submitted : status;
        is_last = filled < wanted;
    }
    for (uint32_t done; (done = mbj_flush_burst(m, BURST, jobs)) != 0;)
        answer_each(jobs, done);
    for (int i = 0; i < BURST; i++)
        free(lines.at[i]);
    if (status == 0 && !feof(stdin))
        status = complain("reading failed");
    return status;
}

int main(void) {
    static MBJ_MGR m;
    mbj_err refusal = mbj_init_mgr(&m);
    if (refusal != MBJ_ERR_NONE)
        return complain(mbj_err_text(refusal));
    int status = run(&m);
    mbj_end_mgr(&m);
    if ((fflush(stdout) != 0 || ferror(stdout)) && status == 0)
        status = complain("writing failed");
    return status;
}
