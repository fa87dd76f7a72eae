/* Threads over one front, each with a seat of its own: what each submitter collects is what a manager alone gives for its jobs, in their
 * order and with their own ranges, for drawn numbers of jobs, seats and pauses; refusals change nothing; and a seat that is freed with jobs
 * in its hand loses none of them. Usage: seats [RUNS [SEED]]. Built with ThreadSanitizer over the shared library, it has the C code alone
 * looked at. */
#define _POSIX_C_SOURCE 200809L
#include "check.h"
#include "mbj_seat.h"

#include <pthread.h>
#include <sched.h>
#include <time.h>

enum { MOST_JOBS = 700, FEW_JOBS = 40, PACKET_BYTES = 96, SEATS = MBJ_MAX_SUBMITTERS + MBJ_MAX_WORKERS };

/* ThreadSanitizer sees bytes that the library copies, and none of its atomic operations, which put them in order. So it leaves the library
 * out. */
#ifdef __cplusplus
extern "C"
#endif
const char *__tsan_default_suppressions(void);

const char *__tsan_default_suppressions(void) {
    return "called_from_lib:libmbj_c.so";
}

/* ---- drawn jobs ---- */

static uint32_t draw(uint32_t *state, uint32_t below) {
    *state = *state * 1664525 + 1013904223;
    return (uint32_t)(((uint64_t)(*state >> 8) * below) >> 24);
}

/* A packet and its tag, as a job leaves them. */
struct text {
    uint8_t packet[PACKET_BYTES], tag[MBJ_MAX_TAG_BYTES];
    enum mbj_status status;
    uint32_t reason;
};

static void draw_text(struct text *text, uint32_t seed) {
    for (size_t i = 0; i < sizeof text->packet; i++)
        text->packet[i] = (uint8_t)draw(&seed, 256);
    memset(text->tag, 0, sizeof text->tag);
}

/* The job that this seed draws, over the text: its range begins and ends somewhere, and one in eight is refused. */
static void draw_job(MBJ_JOB *job, struct text *text, uint32_t seed) {
    uint32_t kind = draw(&seed, 8), off = draw(&seed, 17), len = 16 * (1 + draw(&seed, 4));
    if (kind == 0)
        fill_mac(job, text->packet, sizeof text->packet, text->tag);
    else if (kind < 4)
        fill_cbc(job, text->packet, sizeof text->packet, off, text->packet + off);
    else
        fill_gcm(job, text->packet, text->packet, text->tag);
    if (kind == 2)
        make_ccm(job, text->tag);
    if (kind == 3 || kind == 5) {
        job->cipher_mode = kind == 3 ? MBJ_CIPHER_CBC : MBJ_CIPHER_GCM;
        job->msg_len_to_cipher_in_bytes = len;
    }
    if (kind == 7)
        job->iv_len_in_bytes = 0;
    job->user_data = text;
}

static void note(const MBJ_JOB *done) {
    struct text *text = (struct text *)done->user_data;
    text->status = done->status;
    text->reason = done->reason;
}

/* What a manager alone makes of the jobs of these seeds. */
static void expect(struct text *texts, uint32_t seed, uint32_t count) {
    MBJ_MGR *m = mbj_alloc_mgr();
    MBJ_JOB *done;
    for (uint32_t i = 0; i < count; i++) {
        draw_text(&texts[i], seed + i);
        MBJ_JOB *job = mbj_get_next_job(m);
        if (job == NULL) {
            note(mbj_flush_job(m));
            job = mbj_get_next_job(m);
        }
        draw_job(job, &texts[i], seed + i);
        done = mbj_submit_job(m);
        CHECK(mbj_get_errno(m) == MBJ_ERR_NONE);
        if (done != NULL)
            note(done);
    }
    while ((done = mbj_flush_job(m)) != NULL)
        note(done);
    mbj_free_mgr(m);
}

/* ---- a run ---- */

struct submitter {
    MBJ_SEAT seat;
    uint32_t seed, count, next;
    pthread_t thread;
    struct text texts[MOST_JOBS], wanted[MOST_JOBS];
};

/* A worker goes away after so many turns, whatever is in its hand then; or if that is 0, when it is told to. */
struct worker {
    struct mbj_seat *seat;
    const bool *stop;
    uint32_t turns;
    pthread_t thread;
};

static void rest(uint32_t micros) {
    struct timespec time = {0, (long)micros * 1000};
    nanosleep(&time, NULL);
}

/* Each result is that of the next job, whose text is the next one. */
static void take(struct submitter *s, const MBJ_JOB *done) {
    struct text *got = &s->texts[s->next], *wanted = &s->wanted[s->next];
    CHECK(done->user_data == got);
    note(done);
    CHECK(got->status == wanted->status && got->reason == wanted->reason);
    CHECK(memcmp(got->packet, wanted->packet, sizeof got->packet) == 0 && memcmp(got->tag, wanted->tag, sizeof got->tag) == 0);
    s->next++;
}

static void take_all(struct submitter *s) {
    MBJ_JOB *done;
    while ((done = mbj_collect_job(&s->seat)) != NULL)
        take(s, done);
    CHECK(mbj_seat_errno(&s->seat) == MBJ_ERR_NONE);
}

static void *submit_all(void *at) {
    struct submitter *s = (struct submitter *)at;
    uint32_t state = s->seed;
    MBJ_JOB *job, *done;
    for (uint32_t i = 0; i < s->count; i++) {
        draw_text(&s->texts[i], s->seed + i);
        while ((job = mbj_seat_get_next_job(&s->seat)) == NULL)
            take(s, mbj_drain(&s->seat));
        draw_job(job, &s->texts[i], s->seed + i);
        CHECK(mbj_post_job(&s->seat) == MBJ_ERR_NONE);
        switch (draw(&state, 10)) {
        case 0: sched_yield(); break;
        case 1: rest(draw(&state, 200)); break;
        case 2: mbj_c_turn(&s->seat.seat); break;
        case 3: mbj_c_settle(&s->seat.seat); break;
        case 4: take_all(s); break;
        default: break;
        }
    }
    while ((done = mbj_drain(&s->seat)) != NULL)
        take(s, done);
    CHECK(s->next == s->count && mbj_c_out(&s->seat.seat) == 0 && mbj_c_hand(&s->seat.seat) == 0);
    mbj_leave_seat(&s->seat);
    return NULL;
}

static void yield(void *unused) {
    (void)unused;
    sched_yield();
}

static void *serve(void *at) {
    struct worker *w = (struct worker *)at;
    for (uint32_t i = 0; i < w->turns; i++)
        if (mbj_c_turn(w->seat) == 0)
            rest(20);
    if (w->turns == 0) {
        mbj_serve(w->seat, w->stop, yield, NULL);
        CHECK(mbj_c_hand(w->seat) == 0);
    }
    CHECK(mbj_c_seat_free(w->seat));
    return NULL;
}

/* So many submitters and workers, each submitter with so many jobs at most. */
static void run(uint32_t submitters, uint32_t workers, uint32_t most, uint32_t *state) {
    static struct submitter all[MBJ_MAX_SUBMITTERS];
    static struct worker crew[MBJ_MAX_WORKERS];
    struct mbj_seat places[SEATS];
    bool stop = false;
    memset(places, 0, sizeof places);
    CHECK(mbj_front_new(submitters, workers, NULL, places, SEATS) == MBJ_ERR_NONE);
    for (uint32_t i = 0; i < submitters; i++) {
        mbj_take_seat(&all[i].seat, &places[i]);
        all[i].seed = draw(state, 1000000);
        all[i].count = draw(state, most + 1);
        all[i].next = 0;
        expect(all[i].wanted, all[i].seed, all[i].count);
    }
    for (uint32_t i = 0; i < workers; i++) {
        crew[i].seat = &places[submitters + i];
        crew[i].stop = &stop;
        crew[i].turns = draw(state, 3) == 0 ? 1 + draw(state, 20) : 0;
        CHECK(pthread_create(&crew[i].thread, NULL, serve, &crew[i]) == 0);
    }
    for (uint32_t i = 0; i < submitters; i++)
        CHECK(pthread_create(&all[i].thread, NULL, submit_all, &all[i]) == 0);
    for (uint32_t i = 0; i < submitters; i++)
        CHECK(pthread_join(all[i].thread, NULL) == 0);
    __atomic_store_n(&stop, true, __ATOMIC_RELEASE);
    for (uint32_t i = 0; i < workers; i++)
        CHECK(pthread_join(crew[i].thread, NULL) == 0);
}

/* ---- one thread ---- */

static void refusals(void) {
    static MBJ_SEAT s;
    struct mbj_seat places[3] = {MBJ_SEAT_INIT, MBJ_SEAT_INIT, MBJ_SEAT_INIT}, none = MBJ_SEAT_INIT;
    struct mbj_raw_done done;
    struct mbj_raw_job raw;
    uint8_t tag[MBJ_MAX_TAG_BYTES];
    uint32_t refusal = 0;
    mbj_raw_refused_(&raw);
    done.dst.at = done.tag.at = tag;
    done.dst.len = 0;
    done.tag.len = sizeof tag;
    CHECK(mbj_front_new(0, 1, NULL, places, 3) == MBJ_ERR_SEAT_COUNT && mbj_front_new(17, 0, NULL, places, 3) == MBJ_ERR_SEAT_COUNT);
    CHECK(mbj_front_new(1, 17, NULL, places, 3) == MBJ_ERR_SEAT_COUNT && mbj_front_new(2, 2, NULL, places, 3) == MBJ_ERR_NO_ROOM);
    CHECK(places[0].at == NULL && places[1].at == NULL && places[2].at == NULL);
    CHECK(mbj_front_new(1, 1, NULL, places, 3) == MBJ_ERR_NONE && places[0].at != NULL && places[1].at != NULL && places[2].at == NULL);
    void *first = places[0].at;
    CHECK(mbj_front_new(1, 0, NULL, places, 3) == MBJ_ERR_HAS_SEAT && places[0].at == first);
    CHECK(mbj_c_post(&none, &raw) == MBJ_ERR_NO_SEAT && !mbj_c_collect(&none, &done, &refusal) && refusal == MBJ_ERR_NO_SEAT);
    CHECK(mbj_c_turn(&none) == 0 && !mbj_c_settle(&none) && mbj_c_hand(&none) == 0 && mbj_c_out(&none) == 0 && !mbj_c_seat_free(&none));
    CHECK(mbj_c_post(&places[1], &raw) == MBJ_ERR_NOT_SUBMITTER);
    CHECK(!mbj_c_collect(&places[1], &done, &refusal) && refusal == MBJ_ERR_NOT_SUBMITTER);
    mbj_take_seat(&s, &places[0]);
    CHECK(mbj_post_job(&s) == MBJ_ERR_NO_JOB && mbj_collect_job(&s) == NULL && mbj_seat_errno(&s) == MBJ_ERR_NONE);
    raw.cipher = 77;
    CHECK(mbj_c_post(&s.seat, &raw) == MBJ_ERR_WORD && mbj_c_out(&s.seat) == 0);
    mbj_leave_seat(&s);
    CHECK(mbj_c_seat_free(&places[1]) && !mbj_c_seat_free(&places[1]));
}

/* 512 jobs are out, and one more isn't posted; the worker claims all, and is freed with a full hand: no job is lost. */
static void a_full_hand(void) {
    static struct submitter s;
    struct mbj_seat places[2] = {MBJ_SEAT_INIT, MBJ_SEAT_INIT};
    MBJ_JOB *done;
    CHECK(mbj_front_new(1, 1, NULL, places, 2) == MBJ_ERR_NONE);
    mbj_take_seat(&s.seat, &places[0]);
    s.seed = 7;
    s.count = MBJ_MAX_JOBS;
    expect(s.wanted, s.seed, s.count);
    for (uint32_t i = 0; i < s.count; i++) {
        draw_text(&s.texts[i], s.seed + i);
        draw_job(mbj_seat_get_next_job(&s.seat), &s.texts[i], s.seed + i);
        CHECK(mbj_post_job(&s.seat) == MBJ_ERR_NONE);
    }
    struct mbj_raw_job raw;
    mbj_raw_refused_(&raw);
    CHECK(mbj_seat_get_next_job(&s.seat) == NULL && mbj_seat_errno(&s.seat) == MBJ_ERR_FULL);
    CHECK(mbj_c_post(&s.seat.seat, &raw) == MBJ_ERR_FULL && mbj_c_out(&s.seat.seat) == MBJ_MAX_JOBS);
    uint32_t claimed = 0, turn;
    while ((turn = mbj_c_turn(&places[1])) != 0)
        claimed += turn;
    CHECK(claimed == MBJ_MAX_JOBS && mbj_c_hand(&places[1]) > 0 && mbj_c_turn(&s.seat.seat) == 0);
    CHECK(mbj_c_seat_free(&places[1]));
    while ((done = mbj_collect_job(&s.seat)) != NULL)
        take(&s, done);
    CHECK(s.next == s.count && mbj_c_out(&s.seat.seat) == 0);
    mbj_leave_seat(&s.seat);
}

int main(int argc, char **argv) {
    uint32_t runs = argc > 1 ? (uint32_t)strtoul(argv[1], NULL, 10) : 50, state = argc > 2 ? (uint32_t)strtoul(argv[2], NULL, 10) : 1;
    refusals();
    a_full_hand();
    run(MBJ_MAX_SUBMITTERS, MBJ_MAX_WORKERS, MOST_JOBS, &state);
    run(1, 0, MOST_JOBS, &state);
    for (uint32_t i = 0; i < runs; i++) {
        uint32_t submitters = 1 + draw(&state, MBJ_MAX_SUBMITTERS), workers = draw(&state, MBJ_MAX_WORKERS + 1);
        run(submitters, workers, draw(&state, 16) == 0 ? MOST_JOBS : FEW_JOBS, &state);
    }
    return 0;
}
