#include "report.h"
#include "again.h"
#include "code_names.h"
#include "counts.h"
#include "intel.h"
#include "line.h"
#include "processor.h"
#include "settings.h"
#include "tables.h"

#include <errno.h>
#include <fcntl.h>
#include <stdlib.h>
#include <string.h>
#include <time.h>
#include <unistd.h>

/* So many files of a process are written at most: a fault that stays makes no more than that. */
enum { MOST_FILES = 100, MOST_PATH = 4096 };

static unsigned files;
static time_t last_line;
static uint64_t lines_left_out;

static const char *const call_names[CALLS] = {
    [CALL_JOB] = "submit_job",
    [CALL_JOB_UNCHECKED] = "submit_job_nocheck",
    [CALL_BURST] = "submit_burst",
    [CALL_BURST_UNCHECKED] = "submit_burst_nocheck",
    [CALL_ARRAY] = "a burst of an application's array",
    [CALL_ARRAY_UNCHECKED] = "a burst of an application's array, without checks",
    [CALL_DIRECT] = "a direct call",
};

static const char *const kind_names[KINDS] = {
    [KIND_JOB] = "a job",
    [KIND_GCM] = "a whole text by GCM",
    [KIND_GCM_IN_PARTS] = "a text by GCM in parts",
    [KIND_GMAC_IN_PARTS] = "a text by GMAC in parts",
    [KIND_KEYS] = "the key schedule of AES",
    [KIND_SUBKEYS] = "the subkeys of CMAC",
    [KIND_BLOCK] = "the state of a hash behind a block",
    [KIND_DIGEST] = "a digest",
};

static const char *const arch_names[IMB_ARCH_NUM] = {
    [IMB_ARCH_NONE] = "none",  [IMB_ARCH_NOAESNI] = "NOAESNI", [IMB_ARCH_SSE] = "SSE",
    [IMB_ARCH_AVX] = "AVX",    [IMB_ARCH_AVX2] = "AVX2",       [IMB_ARCH_AVX512] = "AVX512",
};

static const char *const answer_names[] = {
    [ANSWER_NONE] = "was not asked",
    [ANSWER_SAME] = "gave the same answer as before",
    [ANSWER_OTHERS] = "changed its answer to that of the other library",
    [ANSWER_NEW] = "changed its answer to one that neither gave before",
};

static const char *difference_of(const struct verdict *verdict) {
    if (verdict->status)
        return "the status";
    if (verdict->error)
        return "the error";
    return verdict->text ? verdict->tag ? "text and tag" : "the text" : "the tag";
}

/* ---- the file ---- */

static void put_answer(FILE *file, const char *whose, IMB_STATUS status, int error, const void *text, const void *tag,
                        const struct sample *sample) {
    fprintf(file, "# %s status %d", whose, (int)status);
    if (status == IMB_STATUS_COMPLETED) {
        fputs(" text ", file);
        put_bytes(file, text, sample->text.len);
        fputs(" tag ", file);
        put_bytes(file, tag, sample->tag.len);
    } else if (error != 0) {
        fprintf(file, " error %d, %s", error, intel.text_of_error(error));
    }
    fputc('\n', file);
}

static void put_job(FILE *file, const IMB_JOB *job) {
    fprintf(file, "# cipher %d %s, direction %d, order %d, key of %llu bytes, IV of %llu\n", (int)job->cipher_mode,
            name_of_cipher((unsigned)job->cipher_mode), (int)job->cipher_direction, (int)job->chain_order,
            (unsigned long long)job->key_len_in_bytes, (unsigned long long)job->iv_len_in_bytes);
    fprintf(file, "# cipher range from %llu, length %llu (in bits where the cipher counts so)\n",
            (unsigned long long)job->cipher_start_src_offset_in_bytes, (unsigned long long)job->msg_len_to_cipher_in_bytes);
    fprintf(file, "# authentication %d %s, hash range from %lld, length %llu (likewise), tag of %llu bytes\n", (int)job->hash_alg,
            name_of_hash((unsigned)job->hash_alg), (long long)job->hash_start_src_offset_in_bytes,
            (unsigned long long)job->msg_len_to_hash_in_bytes, (unsigned long long)job->auth_tag_output_len_in_bytes);
}

static void put_inputs(FILE *file, const struct sample *sample) {
    static const char *const names[INPUTS] = {"key or schedule", "IV", "additional data", "first", "second", "third"};
    for (unsigned i = 0; i < INPUTS; i++)
        if (sample->inputs[i].len != 0) {
            fprintf(file, "# %s ", names[i]);
            put_bytes(file, bytes_of(sample, sample->inputs[i]), sample->inputs[i].len);
            fputc('\n', file);
        }
    for (unsigned i = 0; i < PIECES; i++)
        if (sample->pieces[i].at.len != 0) {
            fprintf(file, "# memory at %p ", (void *)sample->pieces[i].from);
            put_bytes(file, (const char *)bytes_of(sample, sample->image) + sample->pieces[i].at.off, sample->pieces[i].at.len);
            fputc('\n', file);
        }
}

static void put_head(FILE *file, const struct sample *sample, const struct verdict *verdict) {
    char text[32];
    time_t then = (time_t)sample->seconds;
    struct tm parts;
    unsigned arch = sample->table < TABLES ? tables[sample->table].arch % IMB_ARCH_NUM : IMB_ARCH_NONE;
    strftime(text, sizeof text, "%Y-%m-%dT%H:%M:%SZ", gmtime_r(&then, &parts));
    fprintf(file, "# %s differs between Intel's library and the proved one\n# time %s\n# process %d\n# submitted on processor ",
            difference_of(verdict), text, getpid());
    put_processor(file, sample->processors[0]);
    fputs("\n# came back on processor ", file);
    put_processor(file, sample->processors[1]);
    fprintf(file, "\n# %s by %s, architecture %s, library %s %s\n", kind_names[sample->kind], call_names[sample->call], arch_names[arch],
            intel_path, intel.version_text());
    fprintf(file, "# addresses: job %p, source %p, destination %p, tag %p\n", (const void *)sample->from, (const void *)sample->job.src,
            (void *)sample->job.dst, (void *)sample->job.auth_tag_output);
}

static void put_mismatch(FILE *file, const struct sample *sample, const struct made *made, const struct verdict *verdict,
                         const struct again *again) {
    put_head(file, sample, verdict);
    if (sample->kind == KIND_JOB)
        put_job(file, &sample->job);
    put_answer(file, "Intel's", sample->their_status, sample->their_error, bytes_of(sample, sample->their_text),
                bytes_of(sample, sample->their_tag), sample);
    put_answer(file, "proved", made->status, made->error, made->image + sample->text.off, made->image + sample->tag.off, sample);
    fprintf(file, "# once more: Intel's library %s; the proved one %s\n", answer_names[again->intel], answer_names[again->proved]);
    if (put_job_line(file, sample))
        return;
    fputs("# a job file has no line for this: what was read is\n", file);
    put_inputs(file, sample);
}

/* Opens a new file, which nobody else may read. */
static int open_file(char *path) {
    int opened = -1;
    do {
        if (snprintf(path, MOST_PATH, "%s/mismatch-%d-%u.txt", settings.folder, getpid(), files) >= MOST_PATH)
            return -1;
        opened = open(path, O_WRONLY | O_CREAT | O_EXCL | O_NOFOLLOW | O_CLOEXEC, 0600);
    } while (opened < 0 && errno == EEXIST && ++files < MOST_FILES);
    return opened;
}

/* Whether the file was written; its path, or why there is none. */
static bool write_mismatch(char *path, const struct sample *sample, const struct made *made, const struct verdict *verdict,
                           const struct again *again) {
    int opened = files < MOST_FILES ? open_file(path) : -1;
    FILE *file = opened < 0 ? NULL : fdopen(opened, "w");
    if (file == NULL) {
        snprintf(path, MOST_PATH, "no file: %s", files < MOST_FILES ? strerror(errno) : "as many as may be were written");
        if (opened >= 0)
            close(opened);
        return false;
    }
    files++;
    put_mismatch(file, sample, made, verdict, again);
    bool is_written = ferror(file) == 0;
    if ((fclose(file) == 0) & is_written)
        return true;
    snprintf(path, MOST_PATH, "a file that couldn't be written: %s", strerror(errno));
    return false;
}

/* ---- the line ---- */

static void print_line(const struct sample *sample, const struct verdict *verdict, const struct again *again, const char *path) {
    struct timespec now;
    char others[64] = "";
    clock_gettime(CLOCK_MONOTONIC, &now);
    if (now.tv_sec == last_line) {
        lines_left_out++;
        return;
    }
    if (lines_left_out != 0)
        snprintf(others, sizeof others, "; %llu mismatches before had no line", (unsigned long long)lines_left_out);
    last_line = now.tv_sec;
    lines_left_out = 0;
    const IMB_JOB *job = &sample->job;
    log_line("%s of %s differs from the proved one (%s, %s, key of %llu bytes, text of %u) on processor %d; once more, Intel's library %s; %s%s",
             difference_of(verdict), kind_names[sample->kind], sample->kind == KIND_JOB ? name_of_cipher((unsigned)job->cipher_mode) : "direct",
             sample->kind == KIND_JOB ? name_of_hash((unsigned)job->hash_alg) : "call", (unsigned long long)job->key_len_in_bytes,
             sample->text.len, sample->processors[1], answer_names[again->intel], path, others);
}

void report_mismatch(const struct sample *sample, const struct made *made, const struct verdict *verdict) {
    struct again again = do_again(sample, made);
    char path[MOST_PATH] = "no folder is set for its file";
    if (settings.folder != NULL && !write_mismatch(path, sample, made, verdict, &again))
        count_more(COUNT_UNTOLD, 1);
    print_line(sample, verdict, &again, path);
    if (settings.stops)
        abort();
}

void report_forget(void) {
    files = 0;
    last_line = 0;
    lines_left_out = 0;
    again_forget();
}
