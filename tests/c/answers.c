/* Tests hashes, HMAC from stored states and GMAC: the answers that the standards have, which fields a job ignores, and why one is
 * refused. */
#include "answers.h"
#include "mbj_direct.h"

/* ---- answers ---- */

struct digest {
    const char *message, *digest;
};

/* FIPS 180-4, its examples ("Examples with Intermediate Values"): "abc", and messages of two blocks. */
#define TWO_BLOCKS_OF_64 "abcdbcdecdefdefgefghfghighijhijkijkljklmklmnlmnomnopnopq"
#define TWO_BLOCKS_OF_128 \
    "abcdefghbcdefghicdefghijdefghijkefghijklfghijklmghijklmnhijklmnoijklmnopjklmnopqklmnopqrlmnopqrsmnopqrstnopqrstu"

static const struct digest digests[][2] = {
    {{"abc", "a9993e364706816aba3e25717850c26c9cd0d89d"}, {TWO_BLOCKS_OF_64, "84983e441c3bd26ebaae4aa1f95129e5e54670f1"}},
    {{"abc", "23097d223405d8228642a477bda255b32aadbce4bda0b3f7e36c9da7"},
     {TWO_BLOCKS_OF_64, "75388b16512776cc5dba5da1fd890150b0c6455cb4f58b1952522525"}},
    {{"abc", "ba7816bf8f01cfea414140de5dae2223b00361a396177a9cb410ff61f20015ad"},
     {TWO_BLOCKS_OF_64, "248d6a61d20638b8e5c026930c3e6039a33ce45964ff2167f6ecedd419db06c1"}},
    {{"abc", "cb00753f45a35e8bb5a03d699ac65007272c32ab0eded1631a8b605a43ff5bed8086072ba1e7cc2358baeca134c825a7"},
     {TWO_BLOCKS_OF_128, "09330c33f71147e83d192fc782cd1b4753111b173b3b05d22fa08086e3b0f712fcc7c71a557e2db966c3e9fa91746039"}},
    {{"abc",
      "ddaf35a193617abacc417349ae20413112e6fa4e89a97ea20a9eeee64b55d39a2192992a274fc1a836ba3c23a3feebbd454d4423643ce80e2a9ac94fa54ca49f"},
     {TWO_BLOCKS_OF_128,
      "8e959b75dae313da8cf4f72814fc143f8f7779c6eb9f7fa17299aeadb6889018501d289e4900f7e4331b99dec4b5433ac7d329eeb6dd26545e96e55b874be909"}},
};

/* A digest of all of the packet but its first and its last byte. A hash uses no key, and a job without a cipher nothing of one. */
static void fill_hash(MBJ_JOB *job, uint32_t hash, const uint8_t *packet, size_t len, uint8_t *tag, size_t tag_len) {
    job->cipher_mode = MBJ_CIPHER_NULL;
    job->hash_alg = hash;
    job->key = job->iv = job->aad = job->auth_key = job->dst = nowhere();
    job->key_len_in_bytes = job->iv_len_in_bytes = job->aad_len_in_bytes = job->auth_key_len_in_bytes = 70000;
    job->cipher_start_src_offset_in_bytes = job->msg_len_to_cipher_in_bytes = UINT64_C(1) << 40;
    job->packet = packet;
    job->packet_len_in_bytes = len;
    job->hash_start_src_offset_in_bytes = 1;
    job->msg_len_to_hash_in_bytes = len - 2;
    job->auth_tag_output = tag;
    job->auth_tag_output_len_in_bytes = tag_len;
}

/* The leftmost bytes of the digest. */
static void check_digest(MBJ_MGR *m, uint32_t hash, const struct digest *answer, size_t tag_len) {
    struct text digest = bytes_of(answer->digest), packet = {{0xff}, strlen(answer->message) + 2};
    uint8_t tag[MBJ_MAX_TAG_BYTES];
    memcpy(packet.at + 1, answer->message, packet.len - 2);
    memset(tag, 0xee, sizeof tag);
    MBJ_JOB *job = mbj_get_next_job(m);
    fill_hash(job, hash, packet.at, packet.len, tag, tag_len);
    CHECK(finish(m) == job && is_done(job) && memcmp(tag, digest.at, tag_len) == 0);
    CHECK(is_all(tag + tag_len, sizeof tag - tag_len, 0xee));
}

static void digests_come_out(MBJ_MGR *m) {
    for (uint32_t hash = MBJ_AUTH_SHA_1; hash <= MBJ_AUTH_SHA_512; hash++)
        for (int i = 0; i < 2; i++) {
            const struct digest *answer = &digests[hash - MBJ_AUTH_SHA_1][i];
            check_digest(m, hash, answer, strlen(answer->digest) / 2);
            check_digest(m, hash, answer, 1);
        }
}

/* A hash goes with each cipher but GCM and CCM, before it or behind it: here over what is enciphered, and over the text in clear. */
static void a_hash_goes_with_a_cipher(MBJ_MGR *m) {
    for (uint32_t order = MBJ_ORDER_CIPHER_HASH; order <= MBJ_ORDER_HASH_CIPHER; order++) {
        uint8_t dst[CBC_BYTES], tag[32], own[32];
        MBJ_JOB *job = mbj_get_next_job(m);
        fill_hash(job, MBJ_AUTH_SHA_256, order == MBJ_ORDER_CIPHER_HASH ? cbc_ciphertext : cbc_text, CBC_BYTES, own, sizeof own);
        CHECK(finish(m) == job && is_done(job));
        job = mbj_get_next_job(m);
        fill_hash(job, MBJ_AUTH_SHA_256, cbc_text, CBC_BYTES, tag, sizeof tag);
        fill_cbc(job, cbc_text, CBC_BYTES, 0, dst);
        job->hash_alg = MBJ_AUTH_SHA_256;
        job->chain_order = order;
        CHECK(finish(m) == job && is_done(job) && memcmp(dst, cbc_ciphertext, sizeof dst) == 0 && memcmp(tag, own, sizeof tag) == 0);
    }
}

struct states_answer {
    const char *states, *tag;
};

/* The states of the key "Jefe", as OpenSSL's SHA_CTX, SHA256_CTX and SHA512_CTX hold them behind its two padded blocks, and the tags of RFC
 * 2202 and RFC 4231, test case 2 of each. */
static const struct states_answer states_answers[] = {
    {"624d8ea73f2b18039554b9e428c065f5a9fcb98e2088372af50610a1f82f8b058e4bfe32280b4e35",
     "effcdf6ae5eb2fa2d27416d5f184df9c259a7c79"},
    {"2416bc4e891b2f075a8308bbf070325b57a449561ad88a5111b2f40d08f36dc31815cdb2f5dae633fca74429cbf26349ce1bbbda75fa80ba3b31cfd50cba3793",
     "a30e01098bc6dbbf45690f3a7e9e6d0f8bbea2a39e6148008fd05e44"},
    {"655da7facc434b375a1cd5cb0692ee0ea47a23d34c3af449dba21ae278c7500c0eafe3d513412e6c6a6a2feb2d375acc51a4fd476db095e823bfa18a52f141d5",
     "5bdcc146bf60754e6a042426089575c75a003f089d2739839dec58b964ec3843"},
    {"4c5a1477b96dac421d6b3e71995138ee0217c0bf8fd468eface9b9f66c4f636966fbef38997a43610a39452721baeaa20c4d56fa1845f2165c1a73d501367d0967ddf91bc4617ed0172844b4e9c60f49ff78d941b8d419c47f70323be6fabdf1e5660783a439c29089d97512293159a0d5f6e8dba8b7922c89df3f9f7b72595d",
     "af45d2e376484031617f78d2b58a6b1b9c7ef464f5a01b47e42ec3736322445e8e2240ca5e69e2c78b3239ecfab21649"},
    {"d54c8054e3fafc6e52d18d7d18db608cf31b9122d16aa4cb02a0806a364882bebff036bc022388dab407cb5e93ac39dd8fe17f83da82db3741387c0228cdd7b383d8dbc75ec49d77d535857580406c07bb10239361eb94ed9f7e08acb483074c323fc8bd79797b65d89aac55f50a9028c174b5c89503ead315e05f915d5ceb81",
     "164b7a7bfcf819e2e395fbe73b56e0a387bd64222e831fd610270cd7ea2505549758bf75c05a994a6d034f65f8f0e6fdcaeab1a34d4a6b4b636e070a38bce737"},
};

static struct mbj_bytes bytes_at(const uint8_t *at, size_t len) {
    struct mbj_bytes bytes = {at, len};
    return bytes;
}

static struct mbj_room room_at(uint8_t *at, size_t len) {
    struct mbj_room room = {at, len};
    return room;
}

/* The states are made of the key, into room that just holds them; the room behind them stays, and too short room is refused. */
static void states_are_made(void) {
    static const uint8_t key[] = {'J', 'e', 'f', 'e'};
    for (uint32_t hash = MBJ_HASH_SHA_1; hash <= MBJ_HASH_SHA_512; hash++) {
        struct text states = bytes_of(states_answers[hash].states);
        uint8_t out[ROOM];
        for (size_t len = states.len; len <= ROOM; len += ROOM - states.len) {
            memset(out, 0xee, sizeof out);
            CHECK(mbj_hmac_states(hash, bytes_at(key, sizeof key), room_at(out, len)) == MBJ_ERR_NONE);
            CHECK(is_same(out, &states) && is_all(out + states.len, sizeof out - states.len, 0xee));
        }
        memset(out, 0xee, sizeof out);
        CHECK(mbj_hmac_states(hash, bytes_at(key, sizeof key), room_at(out, states.len - 1)) == MBJ_ERR_NO_ROOM);
        CHECK(mbj_hmac_states(MBJ_HASH_SHA_512 + 1, bytes_at(key, sizeof key), room_at(out, ROOM)) == MBJ_ERR_WORD);
        CHECK(is_all(out, sizeof out, 0xee));
    }
}

/* The inner state is the one behind the key, filled with zero bytes to a block and xored with 0x36. */
static void one_block_is_hashed(void) {
    for (uint32_t hash = MBJ_HASH_SHA_1; hash <= MBJ_HASH_SHA_512; hash++) {
        struct text states = bytes_of(states_answers[hash].states);
        size_t block_len = hash <= MBJ_HASH_SHA_256 ? 64 : 128, state_len = states.len / 2;
        uint8_t block[128 + 1] = {'J', 'e', 'f', 'e'}, out[ROOM];
        for (size_t i = 0; i < sizeof block; i++)
            block[i] ^= 0x36;
        memset(out, 0xee, sizeof out);
        for (size_t len = block_len - 1; len <= block_len + 1; len += 2)
            CHECK(mbj_one_block(hash, bytes_at(block, len), room_at(out, ROOM)) == MBJ_ERR_TEXT_LENGTH);
        CHECK(mbj_one_block(hash, bytes_at(block, block_len), room_at(out, state_len - 1)) == MBJ_ERR_NO_ROOM);
        CHECK(mbj_one_block(MBJ_HASH_SHA_512 + 1, bytes_at(block, block_len), room_at(out, ROOM)) == MBJ_ERR_WORD);
        CHECK(is_all(out, sizeof out, 0xee));
        CHECK(mbj_one_block(hash, bytes_at(block, block_len), room_at(out, state_len)) == MBJ_ERR_NONE);
        CHECK(memcmp(out, states.at, state_len) == 0 && is_all(out + state_len, sizeof out - state_len, 0xee));
    }
}

static void states_answers_come_out(MBJ_MGR *m) {
    static const char message[] = "what do ya want for nothing?";
    for (uint32_t hash = MBJ_AUTH_HMAC_SHA_1_STATES; hash <= MBJ_AUTH_HMAC_SHA_512_STATES; hash++) {
        const struct states_answer *answer = &states_answers[hash - MBJ_AUTH_HMAC_SHA_1_STATES];
        struct text states = bytes_of(answer->states), wanted = bytes_of(answer->tag), packet = {{0xff}, sizeof message - 1 + 2};
        memcpy(packet.at + 1, message, sizeof message - 1);
        uint8_t tag[MBJ_MAX_TAG_BYTES];
        for (size_t len = states.len - 1; len <= states.len + 1; len++) {
            MBJ_JOB *job = mbj_get_next_job(m);
            fill_hash(job, hash, packet.at, packet.len, tag, wanted.len);
            job->auth_key = states.at;
            job->auth_key_len_in_bytes = len;
            CHECK(finish(m) == job);
            if (len == states.len)
                CHECK(is_done(job) && memcmp(tag, wanted.at, wanted.len) == 0);
            else
                CHECK(is_refused(job, MBJ_REASON_AUTH_KEY));
        }
    }
}

struct gmac_answer {
    const char *key, *iv, *text, *tag;
};

static const struct gmac_answer gmac_answers[] = {
    /* `openssl mac` with AES-128-GCM */
    {"77be63708971c4e240d1cb79e8d77feb", "e0e00f19fed7ba0136a797f3", "7a43ec1d9c0a5a78a0b16533a6213cab",
     "209fcc8d3675ed938e9c7166709dd946"},
    /* The Galois/counter mode of operation (McGrew and Viega), appendix B, test cases 1, 7 and 13: GCM of no text is GMAC */
    {"00000000000000000000000000000000", "000000000000000000000000", "", "58e2fccefa7e3061367f1d57a4e7455a"},
    {"000000000000000000000000000000000000000000000000", "000000000000000000000000", "", "cd33b28ac773f74ba00ed1f312572435"},
    {"0000000000000000000000000000000000000000000000000000000000000000", "000000000000000000000000", "",
     "530f8afbc74536b9a963b4f1c4cb738b"},
};

/* The bytes go to the four places, where they stand until the job is submitted, or its result until it is given back. */
static void fill_gmac(MBJ_JOB *job, const struct gmac_answer *answer, struct text *key, struct text *iv, struct text *packet,
                      uint8_t *tag) {
    *key = bytes_of(answer->key);
    *iv = bytes_of(answer->iv);
    *packet = bytes_of(answer->text);
    fill_hash(job, MBJ_AUTH_AES_GMAC, packet->at, packet->len, tag, 16);
    job->auth_key = key->at;
    job->auth_key_len_in_bytes = key->len;
    job->iv = iv->at;
    job->iv_len_in_bytes = iv->len;
    job->hash_start_src_offset_in_bytes = 0;
    job->msg_len_to_hash_in_bytes = packet->len;
}

static void gmac_answers_come_out(MBJ_MGR *m) {
    for (size_t i = 0; i < sizeof gmac_answers / sizeof *gmac_answers; i++) {
        struct text key, iv, packet, want = bytes_of(gmac_answers[i].tag);
        uint8_t tag[16];
        MBJ_JOB *job = mbj_get_next_job(m);
        fill_gmac(job, &gmac_answers[i], &key, &iv, &packet, tag);
        CHECK(mbj_submit_job(m) == job && is_done(job) && is_same(tag, &want));
    }
}

/* ---- refusals ---- */

static const struct fault gmac_faults[] = {
    {take, offsetof(MBJ_JOB, iv), MBJ_REASON_NULL},
    {take, offsetof(MBJ_JOB, auth_key), MBJ_REASON_NULL},
    {take, offsetof(MBJ_JOB, packet), MBJ_REASON_NULL},
    {take, offsetof(MBJ_JOB, auth_tag_output), MBJ_REASON_NULL},
    {encipher_by, MBJ_CIPHER_CBC, MBJ_REASON_PAIR},
    {encipher_by, MBJ_CIPHER_CNTR, MBJ_REASON_PAIR},
    {encipher_by, MBJ_CIPHER_GCM, MBJ_REASON_PAIR},
    {encipher_by, MBJ_CIPHER_CCM, MBJ_REASON_PAIR},
    {give_iv, 0, MBJ_REASON_IV_LENGTH},
    {give_iv, 65536, MBJ_REASON_IV_LENGTH},
    {give_auth_key, 15, MBJ_REASON_AUTH_KEY},
    {hash_more, 1, MBJ_REASON_HASH_RANGE},
    {give_tag, 0, MBJ_REASON_TAG_LENGTH},
    {give_tag, 17, MBJ_REASON_TAG_LENGTH},
};

static void gmac_is_refused(MBJ_MGR *m) {
    struct text key, iv, packet;
    uint8_t dst[ROOM], tag[MBJ_MAX_TAG_BYTES];
    for (size_t i = 0; i < sizeof gmac_faults / sizeof *gmac_faults; i++) {
        MBJ_JOB *job = mbj_get_next_job(m);
        fill_gmac(job, &gmac_answers[0], &key, &iv, &packet, tag);
        check_fault(m, job, &gmac_faults[i], dst, tag);
    }
}

static const struct fault hash_faults[] = {
    {take, offsetof(MBJ_JOB, packet), MBJ_REASON_NULL},
    {take, offsetof(MBJ_JOB, auth_tag_output), MBJ_REASON_NULL},
    {encipher_by, MBJ_CIPHER_GCM, MBJ_REASON_PAIR},
    {encipher_by, MBJ_CIPHER_CCM, MBJ_REASON_PAIR},
    {hash_more, 2, MBJ_REASON_HASH_RANGE},
    {give_tag, 0, MBJ_REASON_TAG_LENGTH},
    {give_tag, 21, MBJ_REASON_TAG_LENGTH},
};

static void a_hash_is_refused(MBJ_MGR *m) {
    uint8_t packet[8] = {0}, dst[ROOM], tag[MBJ_MAX_TAG_BYTES];
    for (size_t i = 0; i < sizeof hash_faults / sizeof *hash_faults; i++) {
        MBJ_JOB *job = mbj_get_next_job(m);
        fill_hash(job, MBJ_AUTH_SHA_1, packet, sizeof packet, tag, 20);
        check_fault(m, job, &hash_faults[i], dst, tag);
    }
}

int main(void) {
    MBJ_MGR *m = mbj_alloc_mgr();
    CHECK(m != NULL);
    digests_come_out(m);
    a_hash_goes_with_a_cipher(m);
    states_answers_come_out(m);
    states_are_made();
    one_block_is_hashed();
    gmac_answers_come_out(m);
    gmac_is_refused(m);
    a_hash_is_refused(m);
    mbj_free_mgr(m);
    return 0;
}
