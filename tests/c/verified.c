/* Tests what verifies: texts and jobs whose tag is compared, with each byte of each tag changed, and the comparison itself. */
#include "check.h"
#include "mbj_direct.h"

enum { ROOM = 96, TEXT = 48, KEYS = 32, MOST_TAG = MBJ_MAX_TAG_BYTES };

static struct mbj_bytes bytes_at(const void *at, size_t len) {
    struct mbj_bytes bytes = {(const uint8_t *)at, len};
    return bytes;
}

static struct mbj_room room_at(void *at, size_t len) {
    struct mbj_room room = {(uint8_t *)at, len};
    return room;
}

/* ---- the comparison ---- */

static void tags_are_compared(void) {
    uint8_t one[MOST_TAG], other[MOST_TAG];
    memset(one, 0x5a, sizeof one);
    memcpy(other, one, sizeof other);
    CHECK(mbj_is_same_tag(NULL, NULL, 0));
    for (size_t len = 1; len <= MOST_TAG; len++) {
        CHECK(mbj_is_same_tag(one, other, len) && mbj_c_is_same_tag(bytes_at(one, len), bytes_at(other, len - 1)) == 0);
        for (size_t bit = 0; bit < 8 * len; bit++) {
            other[bit / 8] ^= (uint8_t)(1u << bit % 8);
            CHECK(!mbj_is_same_tag(one, other, len));
            other[bit / 8] ^= (uint8_t)(1u << bit % 8);
        }
    }
}

static void bytes_are_wiped(void) {
    uint8_t bytes[ROOM];
    memset(bytes, 7, sizeof bytes);
    mbj_wipe(NULL, 0);
    mbj_wipe(bytes + 1, ROOM - 2);
    CHECK(bytes[0] == 7 && is_all(bytes + 1, ROOM - 2, 0) && bytes[ROOM - 1] == 7);
}

/* ---- texts ---- */

typedef mbj_err (*seal)(struct mbj_bytes, struct mbj_bytes, struct mbj_bytes, struct mbj_room, struct mbj_room);
typedef mbj_err (*open)(struct mbj_bytes, struct mbj_bytes, struct mbj_bytes, struct mbj_room, struct mbj_bytes);

/* A text is opened by its own tag alone. */
static void open_one(seal seal_by, open open_by, size_t len, size_t tag_len) {
    uint8_t plain[TEXT], sealed[TEXT], text[TEXT], tag[MOST_TAG];
    struct mbj_bytes key = bytes_at(cbc_key, 16), iv = bytes_at(cbc_iv, 12), aad = bytes_at(mac_text, 8);
    memset(plain, 0x11, sizeof plain);
    memcpy(sealed, plain, sizeof sealed);
    CHECK(seal_by(key, iv, aad, room_at(sealed, len), room_at(tag, tag_len)) == MBJ_ERR_NONE);
    memcpy(text, sealed, sizeof text);
    CHECK(open_by(key, iv, aad, room_at(text, len), bytes_at(tag, tag_len)) == MBJ_ERR_NONE && memcmp(text, plain, TEXT) == 0);
    for (size_t i = 0; i < tag_len; i++) {
        memcpy(text, sealed, sizeof text);
        tag[i] ^= 0x80;
        CHECK(open_by(key, iv, aad, room_at(text, len), bytes_at(tag, tag_len)) == MBJ_ERR_TAG);
        CHECK(is_all(text, len, 0) && is_all(text + len, TEXT - len, 0x11));
        tag[i] ^= 0x80;
    }
    for (size_t i = 0; i < len; i++) {
        memcpy(text, sealed, sizeof text);
        text[i] ^= 1;
        CHECK(open_by(key, iv, aad, room_at(text, len), bytes_at(tag, tag_len)) == MBJ_ERR_TAG && is_all(text, len, 0));
    }
    memcpy(text, sealed, sizeof text);
    CHECK(open_by(key, iv, bytes_at(mac_text, 7), room_at(text, len), bytes_at(tag, tag_len)) == MBJ_ERR_TAG && is_all(text, len, 0));
}

/* The least tags are left out: one of 1 byte is the right one for one text of 256. */
static void texts_are_opened(void) {
    for (size_t len = 0; len <= TEXT; len++) {
        for (size_t tag_len = 4; tag_len <= 16; tag_len++)
            open_one(mbj_gcm_seal, mbj_gcm_open, len, tag_len);
        for (size_t tag_len = 4; tag_len <= 16; tag_len += 2)
            open_one(mbj_ccm_seal, mbj_ccm_open, len, tag_len);
    }
}

static void refused_texts_stay(void) {
    uint8_t text[3] = {1, 2, 3};
    struct mbj_bytes key = bytes_at(cbc_key, 16), iv = bytes_at(cbc_iv, 12), none = bytes_at(cbc_iv, 0), tag = bytes_at(mac, 16);
    CHECK(mbj_gcm_open(bytes_at(cbc_key, 15), iv, none, room_at(text, 3), tag) == MBJ_ERR_KEY_LENGTH);
    CHECK(mbj_gcm_open(key, none, none, room_at(text, 3), tag) == MBJ_ERR_IV_LENGTH);
    CHECK(mbj_gcm_open(key, iv, none, room_at(text, 3), bytes_at(mac, 0)) == MBJ_ERR_TAG_LENGTH);
    CHECK(mbj_gcm_open(key, iv, none, room_at(text, 3), bytes_at(mac, 17)) == MBJ_ERR_TAG_LENGTH);
    CHECK(mbj_ccm_open(key, bytes_at(cbc_iv, 6), none, room_at(text, 3), tag) == MBJ_ERR_IV_LENGTH);
    CHECK(mbj_ccm_open(key, iv, none, room_at(text, 3), bytes_at(mac, 5)) == MBJ_ERR_TAG_LENGTH);
    CHECK(text[0] == 1 && text[1] == 2 && text[2] == 3);
}

/* ---- jobs ---- */

/* A kind of job with a tag, by its cipher and its authentication; and whether it decrypts. */
struct kind {
    uint32_t cipher, auth, dir;
    size_t auth_key_len, iv_len;
};

static const struct kind kinds[] = {
    {MBJ_CIPHER_NULL, MBJ_AUTH_HMAC_SHA_1, MBJ_DIR_ENCRYPT, 20, 0},
    {MBJ_CIPHER_NULL, MBJ_AUTH_HMAC_SHA_224, MBJ_DIR_ENCRYPT, 20, 0},
    {MBJ_CIPHER_NULL, MBJ_AUTH_HMAC_SHA_256, MBJ_DIR_ENCRYPT, 20, 0},
    {MBJ_CIPHER_NULL, MBJ_AUTH_HMAC_SHA_384, MBJ_DIR_ENCRYPT, 20, 0},
    {MBJ_CIPHER_NULL, MBJ_AUTH_HMAC_SHA_512, MBJ_DIR_ENCRYPT, 20, 0},
    {MBJ_CIPHER_NULL, MBJ_AUTH_AES_CMAC, MBJ_DIR_ENCRYPT, 16, 0},
    {MBJ_CIPHER_NULL, MBJ_AUTH_AES_CMAC_256, MBJ_DIR_ENCRYPT, 32, 0},
    {MBJ_CIPHER_NULL, MBJ_AUTH_AES_GMAC, MBJ_DIR_ENCRYPT, 16, 12},
    {MBJ_CIPHER_NULL, MBJ_AUTH_SHA_1, MBJ_DIR_ENCRYPT, 0, 0},
    {MBJ_CIPHER_NULL, MBJ_AUTH_SHA_512, MBJ_DIR_ENCRYPT, 0, 0},
    {MBJ_CIPHER_GCM, MBJ_AUTH_GCM, MBJ_DIR_DECRYPT, 0, 12},
    {MBJ_CIPHER_GCM, MBJ_AUTH_GCM, MBJ_DIR_ENCRYPT, 0, 12},
    {MBJ_CIPHER_CCM, MBJ_AUTH_AES_CCM, MBJ_DIR_DECRYPT, 0, 12},
    {MBJ_CIPHER_CBC, MBJ_AUTH_HMAC_SHA_1, MBJ_DIR_DECRYPT, 20, 16},
    {MBJ_CIPHER_CBC, MBJ_AUTH_HMAC_SHA_256, MBJ_DIR_ENCRYPT, 20, 16},
    {MBJ_CIPHER_CNTR, MBJ_AUTH_HMAC_SHA_1, MBJ_DIR_DECRYPT, 20, 16},
    {MBJ_CIPHER_CBC, MBJ_AUTH_AES_CMAC, MBJ_DIR_DECRYPT, 16, 16},
};

static const uint8_t keys[KEYS] = {1, 2, 3, 4, 5, 6, 7, 8, 9, 10, 11, 12, 13, 14, 15, 16, 17, 18, 19, 20};

/* The bytes of a job: it is done in place if a packet is given, and behind its text stands its tag. */
static void fill_kind(MBJ_JOB *job, const struct kind *kind, uint8_t *packet, uint8_t *tag) {
    size_t tag_len = mbj_tag_bytes(kind->auth);
    mbj_job_cipher_auth(job, kind->cipher, kind->auth, kind->dir, keys, 16, cbc_iv, kind->iv_len, keys, kind->auth_key_len, packet, TEXT, 0,
                        kind->cipher == MBJ_CIPHER_NULL ? 0 : TEXT, packet, 0, TEXT, tag, tag_len);
    job->aad = mac_text;
    job->aad_len_in_bytes = sizeof mac_text;
}

/* The tag that a job of this kind has, and what its packet becomes. */
static void do_kind(MBJ_MGR *m, const struct kind *kind, uint8_t *packet, uint8_t *tag) {
    fill_kind(mbj_get_next_job(m), kind, packet, tag);
    const MBJ_JOB *done = finish(m);
    CHECK(done != NULL && done->status == MBJ_STATUS_COMPLETED && done->expected_tag == NULL);
}

/* One job that expects the tag; if it has room for its own, that is written only if it is the right one. */
static void expect(MBJ_MGR *m, const struct kind *kind, const uint8_t *expected, uint8_t *own, const uint8_t *wanted) {
    uint8_t packet[TEXT + MOST_TAG], copy[MOST_TAG];
    size_t tag_len = mbj_tag_bytes(kind->auth);
    memset(packet, 0x11, sizeof packet);
    memcpy(copy, expected, tag_len);
    MBJ_JOB *job = mbj_get_next_job(m);
    fill_kind(job, kind, packet, own);
    job->expected_tag = copy;
    const MBJ_JOB *done = mbj_submit_job(m);
    memset(copy, 0, sizeof copy); /* it was copied */
    if (done == NULL)
        done = mbj_flush_job(m);
    CHECK(done == job && is_all(packet + TEXT, MOST_TAG, 0x11));
    if (wanted != NULL) {
        CHECK(done->status == MBJ_STATUS_COMPLETED && done->reason == MBJ_REASON_NONE && memcmp(packet, wanted, TEXT) == 0);
        CHECK(own == NULL || memcmp(own, expected, tag_len) == 0);
    } else {
        CHECK(done->status == MBJ_STATUS_WRONG_TAG && done->reason == MBJ_ERR_TAG);
        CHECK(is_all(packet, TEXT, kind->cipher == MBJ_CIPHER_NULL ? 0x11 : 0) && (own == NULL || is_all(own, tag_len, 0xee)));
    }
}

static void jobs_expect_their_tags(MBJ_MGR *m) {
    for (size_t i = 0; i < sizeof kinds / sizeof *kinds; i++) {
        uint8_t packet[TEXT], tag[MOST_TAG], own[MOST_TAG];
        size_t tag_len = mbj_tag_bytes(kinds[i].auth);
        memset(packet, 0x11, sizeof packet);
        do_kind(m, &kinds[i], packet, tag);
        expect(m, &kinds[i], tag, NULL, packet);
        expect(m, &kinds[i], tag, own, packet);
        for (size_t at = 0; at < tag_len; at++) {
            tag[at] ^= 1;
            memset(own, 0xee, sizeof own);
            expect(m, &kinds[i], tag, NULL, NULL);
            expect(m, &kinds[i], tag, own, NULL);
            tag[at] ^= 1;
        }
    }
}

/* In a burst each job has its own answer: those with an odd number expect a wrong tag. */
static void bursts_expect_their_tags(MBJ_MGR *m) {
    enum { MANY = 40 };
    static uint8_t packets[MANY][TEXT], tags[MANY][MOST_TAG];
    MBJ_JOB *jobs[MANY];
    uint32_t count = mbj_get_next_burst(m, MANY, jobs), given, seen = 0;
    CHECK(count == MANY);
    for (uint32_t i = 0; i < MANY; i++) {
        const struct kind *kind = &kinds[i % (sizeof kinds / sizeof *kinds)];
        memset(packets[i], 0x11, TEXT);
        MBJ_MGR *other = mbj_alloc_mgr();
        CHECK(other != NULL);
        do_kind(other, kind, packets[i], tags[i]);
        mbj_free_mgr(other);
        memset(packets[i], 0x11, TEXT);
        tags[i][0] ^= (uint8_t)(i % 2);
        fill_kind(jobs[i], kind, packets[i], NULL);
        jobs[i]->expected_tag = tags[i];
        jobs[i]->user_data = packets[i];
    }
    given = mbj_submit_burst(m, MANY, jobs, jobs);
    do
        for (uint32_t i = 0; i < given; i++, seen++) {
            CHECK(jobs[i]->user_data == packets[seen]);
            CHECK(jobs[i]->status == (seen % 2 == 0 ? MBJ_STATUS_COMPLETED : MBJ_STATUS_WRONG_TAG));
        }
    while ((given = mbj_flush_burst(m, MANY, jobs)) != 0);
    CHECK(seen == MANY);
}

/* A job that can't have the tag comes back refused, and one that is refused anyhow isn't compared. */
static void expectations_are_refused(MBJ_MGR *m) {
    static const uint8_t expected[MOST_TAG] = {0};
    uint8_t packet[TEXT], dst[TEXT];
    memset(packet, 0x11, sizeof packet);
    memset(dst, 0x22, sizeof dst);
    MBJ_JOB *job = mbj_get_next_job(m);
    mbj_job_cipher(job, MBJ_CIPHER_CBC, MBJ_DIR_DECRYPT, keys, 16, cbc_iv, 16, packet, TEXT, 0, TEXT, dst);
    job->expected_tag = mac;
    const MBJ_JOB *done = finish(m);
    CHECK(done == job && done->status == MBJ_STATUS_INVALID_ARGS && done->reason == MBJ_REASON_NO_TAG && is_all(dst, TEXT, 0x22));
    for (size_t len = 0; len <= 2 * MOST_TAG; len += MOST_TAG / 2) {
        job = mbj_get_next_job(m);
        mbj_job_auth(job, MBJ_AUTH_HMAC_SHA_1, keys, 20, packet, TEXT, 0, TEXT, NULL, len);
        job->expected_tag = expected;
        done = finish(m);
        CHECK(done == job && done->status == MBJ_STATUS_INVALID_ARGS && done->reason == MBJ_REASON_TAG_LENGTH);
    }
    job = mbj_get_next_job(m);
    mbj_job_auth(job, MBJ_AUTH_HMAC_SHA_1, keys, 20, packet, TEXT, 0, TEXT, NULL, 20);
    done = finish(m);
    CHECK(done == job && done->status == MBJ_STATUS_INVALID_ARGS && done->reason == MBJ_REASON_NULL);
}

/* The expected tag may stand in what the job writes over: it is copied before. */
static void a_tag_may_stand_in_the_destination(MBJ_MGR *m) {
    uint8_t packet[TEXT + 16], text[TEXT], tag[16];
    const struct kind gcm = {MBJ_CIPHER_GCM, MBJ_AUTH_GCM, MBJ_DIR_ENCRYPT, 0, 12};
    memset(text, 0x11, sizeof text);
    do_kind(m, &gcm, text, tag);
    memcpy(packet, text, TEXT);
    memcpy(packet + TEXT, tag, sizeof tag);
    MBJ_JOB *job = mbj_get_next_job(m);
    mbj_job_gcm(job, MBJ_DIR_DECRYPT, keys, 16, cbc_iv, 12, mac_text, 8, packet, TEXT, 0, TEXT, packet + 16, NULL, 16);
    job->expected_tag = packet + TEXT;
    const MBJ_JOB *done = finish(m);
    CHECK(done == job && done->status == MBJ_STATUS_COMPLETED && is_all(packet + 16, TEXT, 0x11));
}

int main(void) {
    static MBJ_MGR m;
    tags_are_compared();
    bytes_are_wiped();
    texts_are_opened();
    refused_texts_stay();
    CHECK(mbj_init_mgr(&m) == MBJ_ERR_NONE);
    jobs_expect_their_tags(&m);
    bursts_expect_their_tags(&m);
    expectations_are_refused(&m);
    a_tag_may_stand_in_the_destination(&m);
    mbj_end_mgr(&m);
    return 0;
}
