/* Times the job calls of mbj.h, and beside them those of intel-ipsec-mb, if the bench is built with it, on the same jobs in the same
 * process. Prints a row for each kind of jobs and each length of packets: nanoseconds a job and Gbit/s, both of one core, and for each
 * architecture that ipsec-mb offers here also how many times as long this library takes. Results are compared before they are timed. */
#include "bench.h"
#include "front.h"
#include "timing.h"

#include <getopt.h>
#include <stdio.h>
#include <stdlib.h>
#include <string.h>

static const char usage[] =
    "bench [--sizes N,..] [--drawn LEAST-MOST,..] [--jobs NAME,..] [--flush N] [--threads N] [--passes N] [--keeping]\n"
    "bench --front [--passes N]\n"
    "\n"
    "--sizes     lengths of packets in bytes: 64,256,1500 if neither these nor drawn ones are given\n"
    "--drawn     lengths that are drawn for each packet from LEAST to MOST bytes\n"
    "--jobs      null, cbc, cbc-dec (decryption), ctr, gcm, ccm, cmac, gmac, sha1, sha224, sha256, sha384, sha512, the same\n"
    "            five with hmac- before them, these with -states behind them, or chained jobs as cbc+hmac-sha1, which are\n"
    "            enciphered and then authenticated; here by bursts of 32 with -bursts behind the name, or with -session in a key\n"
    "            session\n"
    "--flush     after how many single calls all jobs that wait are flushed: 256\n"
    "--threads   how many threads run at once, each with a manager of its own: 1\n"
    "--passes    how often the 256 jobs of a row are done, of which the fastest time counts: 40\n"
    "--keeping   here by managers that keep the memory of jobs for later ones\n"
    "--front     four threads, of which one has much to do, by one front beside a manager each, and likewise with an even load\n";

void give_up(const char *why) {
    fprintf(stderr, "bench: %s\n", why);
    exit(1);
}

/* ---- jobs ---- */

const struct keys keys = {{1, 2, 3, 4, 5, 6, 7, 8, 9, 10, 11, 12, 13, 14, 15, 16}, {1, 2, 3, 5, 7, 11, 13, 17, 19, 23}, {1}, {2}};

static const char *const ciphers[] = {"", "cbc", "ctr", "gcm", "ccm", "cbc-dec"};

static const char *const auths[] = {"",
                                    "hmac-sha1",
                                    "hmac-sha224",
                                    "hmac-sha256",
                                    "hmac-sha384",
                                    "hmac-sha512",
                                    "cmac",
                                    "gmac",
                                    "sha1",
                                    "sha224",
                                    "sha256",
                                    "sha384",
                                    "sha512",
                                    "hmac-sha1-states",
                                    "hmac-sha224-states",
                                    "hmac-sha256-states",
                                    "hmac-sha384-states",
                                    "hmac-sha512-states"};

bool has_states(enum auth auth) {
    return auth >= HMAC_SHA_1_STATES && auth <= HMAC_SHA_512_STATES;
}

bool is_hmac(enum auth auth) {
    return (auth >= HMAC_SHA_1 && auth <= HMAC_SHA_512) || has_states(auth);
}

size_t tag_len(const struct work *work) {
    static const size_t lens[] = {0, 20, 28, 32, 48, 64, 16, 16, 20, 28, 32, 48, 64, 20, 28, 32, 48, 64, 16, 16};
    return lens[work->auth];
}

/* CCM has 11 bytes, as in ESP (RFC 4309, section 4). */
size_t iv_len(const struct work *work) {
    static const size_t lens[] = {0, 16, 12, 12, 11, 16};
    return work->auth == GMAC ? 12 : lens[work->cipher];
}

/* The place of a word among these; 0 if it is none. */
static size_t place(const char *word, size_t len, const char *const *words, size_t count) {
    for (size_t i = 1; i < count; i++)
        if (strlen(words[i]) == len && memcmp(words[i], word, len) == 0)
            return i;
    return 0;
}

/* The length of a name before this suffix, if it has one. */
static bool has_suffix(const char *name, size_t *len, const char *suffix) {
    size_t before = *len - strlen(suffix);
    bool has = *len > strlen(suffix) && memcmp(name + before, suffix, strlen(suffix)) == 0;
    if (has)
        *len = before;
    return has;
}

/* The kind of jobs with this name: null, a cipher, an authentication, or one of each with + between them, and behind it -bursts, -session
 * or nothing. */
static struct work read_work(const char *name) {
    size_t len = strlen(name), plus = strcspn(name, "+");
    struct work work = {NO_CIPHER, NO_AUTH, false, false, false, BATCH};
    work.by_bursts = has_suffix(name, &len, "-bursts");
    work.in_session = !work.by_bursts && has_suffix(name, &len, "-session");
    size_t cipher_len = plus < len ? plus : len;
    const char *auth = name[cipher_len] == '+' ? name + cipher_len + 1 : name;
    work.cipher = (enum cipher)place(name, cipher_len, ciphers, sizeof ciphers / sizeof *ciphers);
    work.auth = (enum auth)place(auth, (size_t)(name + len - auth), auths, sizeof auths / sizeof *auths);
    bool has_cipher = work.cipher != NO_CIPHER, has_auth = work.auth != NO_AUTH;
    bool is_combined = work.cipher == GCM || work.cipher == CCM;
    bool is_one = has_cipher || has_auth || (len == strlen("null") && memcmp(name, "null", len) == 0);
    bool is_chain = has_cipher && has_auth && !is_combined && work.auth != GMAC;
    if ((auth != name ? !is_chain : !is_one) || (work.in_session && !has_cipher))
        give_up(usage);
    if (is_combined)
        work.auth = work.cipher == GCM ? GCM_TAG : CCM_TAG;
    return work;
}

/* ---- the command line ---- */

enum { MOST = 64, MOST_THREADS = 1024, MOST_PASSES = 1000000 };

struct settings {
    const char *jobs[MOST];
    struct lengths lengths[MOST];
    size_t job_count, length_count, threads, flush_after;
    bool keeps, by_front;
    int passes;
};

/* A number from least to most, that ends where this byte stands. */
static size_t read_number(char **at, size_t least, size_t most, char end) {
    char *from = *at;
    unsigned long number = strtoul(from, at, 10);
    if (*at == from || *from == '-' || number < least || number > most || (**at != end && !(end == ',' && **at == '\0')))
        give_up(usage);
    return number;
}

static void read_lengths(struct settings *s, char *at, bool is_drawn) {
    for (bool is_last = false; !is_last; at++) {
        if (s->length_count == MOST)
            give_up(usage);
        struct lengths *lengths = &s->lengths[s->length_count++];
        lengths->least = read_number(&at, 1, MAX_LEN, is_drawn ? '-' : ',');
        if (is_drawn)
            at++;
        lengths->most = is_drawn ? read_number(&at, lengths->least, MAX_LEN, ',') : lengths->least;
        is_last = *at == '\0';
    }
}

static void read_jobs(struct settings *s, char *at) {
    for (char *name = strtok(at, ","); name != NULL; name = strtok(NULL, ",")) {
        if (s->job_count == MOST)
            give_up(usage);
        read_work(name);
        s->jobs[s->job_count++] = name;
    }
}

static void read_settings(struct settings *s, int argc, char **argv) {
    static const struct option options[] = {{"sizes", 1, NULL, 's'},  {"drawn", 1, NULL, 'd'},   {"jobs", 1, NULL, 'j'},
                                            {"flush", 1, NULL, 'f'},  {"threads", 1, NULL, 't'}, {"passes", 1, NULL, 'p'},
                                            {"keeping", 0, NULL, 'k'}, {"front", 0, NULL, 'r'},   {NULL, 0, NULL, 0}};
    static char sizes[] = "64,256,1500", jobs[] = "null,null-bursts,hmac-sha1,hmac-sha1-states,hmac-sha256,hmac-sha256-states,hmac-sha512,"
                                                  "hmac-sha512-states,sha256,cbc,cbc-session,cbc-dec,ctr,gcm,gcm-session,ccm,cmac,gmac,cbc+hmac-sha256";
    memset(s, 0, sizeof *s);
    s->threads = 1;
    s->flush_after = BATCH;
    s->passes = 40;
    for (int option; (option = getopt_long(argc, argv, "", options, NULL)) != -1;) {
        char *at = optarg;
        switch (option) {
        case 's': read_lengths(s, at, false); break;
        case 'd': read_lengths(s, at, true); break;
        case 'j': read_jobs(s, at); break;
        case 'f': s->flush_after = read_number(&at, 1, BATCH, '\0'); break;
        case 't': s->threads = read_number(&at, 1, MOST_THREADS, '\0'); break;
        case 'p': s->passes = (int)read_number(&at, 1, MOST_PASSES, '\0'); break;
        case 'k': s->keeps = true; break;
        case 'r': s->by_front = true; break;
        default: give_up(usage);
        }
    }
    if (optind != argc)
        give_up(usage);
    if (s->length_count == 0)
        read_lengths(s, sizes, false);
    if (s->job_count == 0)
        read_jobs(s, jobs);
}

/* ---- the table ---- */

static double gbits(struct timed timed) {
    return timed.bytes * 8 / timed.ns;
}

static void print_head(const struct library *others, size_t count) {
    printf("%-18s %11s %9s %7s", "jobs", "bytes", "ns", "Gbit/s");
    for (size_t k = 0; k < count; k++)
        printf(" %9s ns %7s %6s", others[k].name, "Gbit/s", "times");
    printf("\n");
}

static void print_row(const struct settings *s, const char *name, struct lengths lengths, const struct library *others, size_t count) {
    struct work work = read_work(name);
    char bytes[32];
    work.keeps = s->keeps;
    work.flush_after = s->flush_after;
    struct timed own = time_library(&ours, &work, lengths, s->threads, s->passes);
    if (lengths.least == lengths.most)
        snprintf(bytes, sizeof bytes, "%.0f", own.bytes);
    else
        snprintf(bytes, sizeof bytes, "%zu-%zu", lengths.least, lengths.most);
    printf("%-18s %11s %9.0f %7.2f", name, bytes, own.ns, gbits(own));
    for (size_t k = 0; k < count; k++) {
        compare(&others[k], &work, lengths);
        struct timed other = time_library(&others[k], &work, lengths, s->threads, s->passes);
        printf(" %12.0f %7.2f %6.1f", other.ns, gbits(other), own.ns / other.ns);
    }
    printf("\n");
    fflush(stdout);
}

int main(int argc, char **argv) {
    struct settings settings;
    size_t count;
    read_settings(&settings, argc, argv);
    if (settings.by_front) {
        time_front(settings.passes);
        return 0;
    }
    const struct library *others = theirs(&count);
    print_head(others, count);
    for (size_t i = 0; i < settings.job_count; i++)
        for (size_t j = 0; j < settings.length_count; j++)
            print_row(&settings, settings.jobs[i], settings.lengths[j], others, count);
    return 0;
}
