/* Tests the calls without a manager: vectors of the standards, and each refusal, which writes nothing. Link with refuse.c. */
#include "check.h"
#include "mbj_direct.h"
#include "refuse.h"

enum { SCHEDULE_BYTES = 176, TAG_BYTES = 16, ROOM = 256 };

static struct mbj_bytes bytes_at(const void *at, size_t len) {
    struct mbj_bytes bytes = {(const uint8_t *)at, len};
    return bytes;
}

static struct mbj_room room_at(void *at, size_t len) {
    struct mbj_room room = {(uint8_t *)at, len};
    return room;
}

/* The bytes that pairs of hexadecimal digits are. */
static size_t read_hex(uint8_t *out, const char *hex) {
    size_t len = strlen(hex) / 2;
    for (size_t i = 0; i < len; i++) {
        char pair[3] = {hex[2 * i], hex[2 * i + 1], 0};
        out[i] = (uint8_t)strtoul(pair, NULL, 16);
    }
    return len;
}

static bool is_hex(const uint8_t *bytes, const char *hex) {
    uint8_t wanted[ROOM];
    return memcmp(bytes, wanted, read_hex(wanted, hex)) == 0;
}

/* FIPS 197, appendix C.1: the round keys of the cipher, and those of the equivalent inverse cipher. */
static const char encryption_keys[] =
    "000102030405060708090a0b0c0d0e0fd6aa74fdd2af72fadaa678f1d6ab76feb692cf0b643dbdf1be9bc5006830b3feb6ff744ed2c2c9bf6c590cbf0469bf41"
    "47f7f7bc95353e03f96c32bcfd058dfd3caaa3e8a99f9deb50f3af57adf622aa5e390f7df7a69296a7553dc10aa31f6b14f9701ae35fe28c440adf4d4ea9c026"
    "47438735a41c65b9e016baf4aebf7ad2549932d1f08557681093ed9cbe2c974e13111d7fe3944a17f307a78b4d2b30c5";
static const char decryption_keys[] =
    "13111d7fe3944a17f307a78b4d2b30c513aa29be9c8faff6f770f58000f7bf031362a4638f2586486bff5a76f7874a838d82fc749c47222be4dadc3e9c7810f5"
    "72e3098d11c5de5f789dfe1578a2cccb2ec410276326d7d26958204a003f32dea8a2f5044de2c7f50a7ef79869671294c7c6e391e54032f1479c306d6319e50c"
    "a0db02992286d160a2dc029c2485d5618c56dff0825dd3f9805ad3fc8659d7fd000102030405060708090a0b0c0d0e0f";

static void schedules_are_written(void) {
    uint8_t enc[ROOM], dec[ROOM];
    struct mbj_bytes key = bytes_at(cbc_iv, 16);
    memset(enc, 0xee, ROOM);
    memset(dec, 0xee, ROOM);
    CHECK(mbj_aes_keys(key, room_at(enc, SCHEDULE_BYTES - 1), room_at(dec, ROOM)) == MBJ_ERR_NO_ROOM);
    CHECK(mbj_aes_keys(key, room_at(enc, ROOM), room_at(dec, SCHEDULE_BYTES - 1)) == MBJ_ERR_NO_ROOM);
    CHECK(mbj_aes_keys(bytes_at(cbc_iv, 15), room_at(enc, ROOM), room_at(dec, ROOM)) == MBJ_ERR_KEY_LENGTH);
    CHECK(is_all(enc, ROOM, 0xee) && is_all(dec, ROOM, 0xee));
    CHECK(mbj_aes_keys(key, room_at(enc, ROOM), room_at(dec, ROOM)) == MBJ_ERR_NONE);
    CHECK(is_hex(enc, encryption_keys) && is_all(enc + SCHEDULE_BYTES, ROOM - SCHEDULE_BYTES, 0xee));
    CHECK(is_hex(dec, decryption_keys) && is_all(dec + SCHEDULE_BYTES, ROOM - SCHEDULE_BYTES, 0xee));
}

/* RFC 4493, 4, and SP 800-38B, D.3. */
static void subkeys_are_written(void) {
    uint8_t key[32], first[17], second[17];
    memset(first, 0xee, sizeof first);
    memset(second, 0xee, sizeof second);
    CHECK(mbj_cmac_subkeys(bytes_at(cbc_key, 16), room_at(first, 15), room_at(second, 17)) == MBJ_ERR_NO_ROOM);
    CHECK(mbj_cmac_subkeys(bytes_at(cbc_key, 15), room_at(first, 17), room_at(second, 17)) == MBJ_ERR_KEY_LENGTH);
    CHECK(is_all(first, sizeof first, 0xee) && is_all(second, sizeof second, 0xee));
    CHECK(mbj_cmac_subkeys(bytes_at(cbc_key, 16), room_at(first, 17), room_at(second, 17)) == MBJ_ERR_NONE);
    CHECK(is_hex(first, "fbeed618357133667c85e08f7236a8deee") && is_hex(second, "f7ddac306ae266ccf90bc11ee46d513bee"));
    read_hex(key, "603deb1015ca71be2b73aef0857d77811f352c073b6108d72d9810a30914dff4");
    CHECK(mbj_cmac_subkeys(bytes_at(key, 32), room_at(first, 16), room_at(second, 16)) == MBJ_ERR_NONE);
    CHECK(is_hex(first, "cad1ed03299eedac2e9a99808621502f") && is_hex(second, "95a3da06533ddb585d3533010c42a0d9"));
}

/* FIPS 180-4's examples: the digests of "abc". */
static void digests_are_written(void) {
    static const char *const wanted[] = {
        "a9993e364706816aba3e25717850c26c9cd0d89d",
        "23097d223405d8228642a477bda255b32aadbce4bda0b3f7e36c9da7",
        "ba7816bf8f01cfea414140de5dae2223b00361a396177a9cb410ff61f20015ad",
        "cb00753f45a35e8bb5a03d699ac65007272c32ab0eded1631a8b605a43ff5bed8086072ba1e7cc2358baeca134c825a7",
        "ddaf35a193617abacc417349ae20413112e6fa4e89a97ea20a9eeee64b55d39a2192992a274fc1a836ba3c23a3feebbd454d4423643ce80e2a9ac94fa54ca49f",
    };
    uint8_t out[ROOM];
    memset(out, 0xee, ROOM);
    CHECK(mbj_digest(MBJ_HASH_SHA_512 + 1, bytes_at("abc", 3), room_at(out, ROOM)) == MBJ_ERR_WORD && is_all(out, ROOM, 0xee));
    for (uint32_t hash = MBJ_HASH_SHA_1; hash <= MBJ_HASH_SHA_512; hash++) {
        size_t len = strlen(wanted[hash]) / 2;
        memset(out, 0xee, ROOM);
        CHECK(mbj_digest(hash, bytes_at("abc", 3), room_at(out, len - 1)) == MBJ_ERR_NO_ROOM && is_all(out, ROOM, 0xee));
        CHECK(mbj_digest(hash, bytes_at("abc", 3), room_at(out, ROOM)) == MBJ_ERR_NONE && is_hex(out, wanted[hash]));
        CHECK(is_all(out + len, ROOM - len, 0xee));
    }
}

/* The GCM specification (McGrew and Viega), appendix B, test cases 4 and 6: IVs of 12 and of 60 bytes. */
struct gcm_case {
    const char *iv, *ciphertext, *tag;
};

static const char gcm_key_4[] = "feffe9928665731c6d6a8f9467308308";
static const char gcm_aad_4[] = "feedfacedeadbeeffeedfacedeadbeefabaddad2";
static const char gcm_text_4[] =
    "d9313225f88406e5a55909c5aff5269a86a7a9531534f7da2e4c303d8a318a721c3c0c95956809532fcf0e2449a6b525b16aedf5aa0de657ba637b39";
static const struct gcm_case gcm_cases[] = {
    {"cafebabefacedbaddecaf888",
     "42831ec2217774244b7221b784d0d49ce3aa212f2c02a4e035c17e2329aca12e21d514b25466931c7d8f6a5aac84aa051ba30b396a0aac973d58e091",
     "5bc94fbc3221a5db94fae95ae7121a47"},
    {"9313225df88406e555909c5aff5269aa6a7a9538534f7da1e4c303d2a318a728c3c0c95156809539fcf0e2429a6b525416aedbf5a0de6a57a637b39b",
     "8ce24998625615b603a033aca13fb894be9112a5c3a211a8ba262a3cca7e2ca701e4a9a4fba43c90ccdcb281d48c7c6fd62875d2aca417034c34aee5",
     "619cc5aefffe0bfa462af43c1699d050"},
};

static void seal_and_open(const struct gcm_case *c) {
    uint8_t key[16], iv[60], aad[20], text[60], tag[TAG_BYTES];
    struct mbj_bytes k = bytes_at(key, read_hex(key, gcm_key_4)), n = bytes_at(iv, read_hex(iv, c->iv));
    struct mbj_bytes a = bytes_at(aad, read_hex(aad, gcm_aad_4));
    size_t len = read_hex(text, gcm_text_4);
    CHECK(mbj_gcm_seal(k, n, a, room_at(text, len), room_at(tag, TAG_BYTES)) == MBJ_ERR_NONE);
    CHECK(is_hex(text, c->ciphertext) && is_hex(tag, c->tag));
    memset(tag, 0, TAG_BYTES);
    CHECK(mbj_gcm_decrypt_unverified(k, n, a, room_at(text, len), room_at(tag, TAG_BYTES)) == MBJ_ERR_NONE);
    CHECK(is_hex(text, gcm_text_4) && is_hex(tag, c->tag));
    for (size_t cut = 0; cut <= len; cut++) {
        struct mbj_gcm_state state;
        CHECK(mbj_gcm_init(&state, MBJ_DIR_ENCRYPT, k, n, a) == MBJ_ERR_NONE);
        CHECK(mbj_gcm_update(&state, room_at(text, cut)) == MBJ_ERR_NONE);
        CHECK(mbj_gcm_update(&state, room_at(text + cut, len - cut)) == MBJ_ERR_NONE);
        CHECK(mbj_gcm_finish(&state, room_at(tag, TAG_BYTES)) == MBJ_ERR_NONE && is_hex(text, c->ciphertext) && is_hex(tag, c->tag));
        CHECK(mbj_gcm_init(&state, MBJ_DIR_DECRYPT, k, n, a) == MBJ_ERR_NONE);
        CHECK(mbj_gcm_update(&state, room_at(text, cut)) == MBJ_ERR_NONE);
        CHECK(mbj_gcm_update(&state, room_at(text + cut, len - cut)) == MBJ_ERR_NONE);
        CHECK(mbj_gcm_finish(&state, room_at(tag, TAG_BYTES)) == MBJ_ERR_NONE && is_hex(text, gcm_text_4) && is_hex(tag, c->tag));
    }
}

static void gcm_refuses(void) {
    uint8_t text[3] = {1, 2, 3}, tag[17];
    struct mbj_bytes key = bytes_at(cbc_key, 16), iv = bytes_at(cbc_iv, 12), none = bytes_at(cbc_iv, 0);
    struct mbj_gcm_state state;
    memset(tag, 0xee, sizeof tag);
    memset(&state, 0xff, sizeof state);
    CHECK(mbj_gcm_seal(bytes_at(cbc_key, 15), iv, none, room_at(text, 3), room_at(tag, 16)) == MBJ_ERR_KEY_LENGTH);
    CHECK(mbj_gcm_open(key, none, none, room_at(text, 3), bytes_at(tag, 16)) == MBJ_ERR_IV_LENGTH);
    CHECK(mbj_gcm_decrypt_unverified(key, none, none, room_at(text, 3), room_at(tag, 16)) == MBJ_ERR_IV_LENGTH);
    CHECK(mbj_gcm_seal(key, iv, none, room_at(text, 3), room_at(tag, 0)) == MBJ_ERR_TAG_LENGTH);
    CHECK(mbj_gcm_open(key, iv, none, room_at(text, 3), bytes_at(tag, 17)) == MBJ_ERR_TAG_LENGTH);
    CHECK(mbj_gcm_decrypt_unverified(key, iv, none, room_at(text, 3), room_at(tag, 17)) == MBJ_ERR_TAG_LENGTH);
    CHECK(mbj_gcm_init(&state, 2, key, iv, none) == MBJ_ERR_WORD);
    CHECK(mbj_gcm_init(&state, MBJ_DIR_ENCRYPT, bytes_at(cbc_key, 15), iv, none) == MBJ_ERR_KEY_LENGTH);
    CHECK(mbj_gcm_init(&state, MBJ_DIR_ENCRYPT, key, none, none) == MBJ_ERR_IV_LENGTH);
    CHECK(mbj_gcm_update(&state, room_at(text, 3)) == MBJ_ERR_NO_STATE);
    CHECK(mbj_gcm_finish(&state, room_at(tag, 16)) == MBJ_ERR_NO_STATE);
    CHECK(is_all((const uint8_t *)&state, sizeof state, 0xff) && is_all(tag, sizeof tag, 0xee));
    CHECK(text[0] == 1 && text[1] == 2 && text[2] == 3);
    CHECK(mbj_gcm_init(&state, MBJ_DIR_ENCRYPT, key, iv, none) == MBJ_ERR_NONE);
    CHECK(mbj_gcm_finish(&state, room_at(tag, 0)) == MBJ_ERR_TAG_LENGTH && mbj_gcm_finish(&state, room_at(tag, 17)) == MBJ_ERR_TAG_LENGTH);
    CHECK(mbj_gcm_finish(&state, room_at(tag, 16)) == MBJ_ERR_NONE && is_all((const uint8_t *)&state, sizeof state, 0));
}

/* SP 800-38C, appendix C, example 1, and each length that is refused. */
static void ccm_seals_and_opens(void) {
    uint8_t key[16], nonce[7], aad[8], text[4] = {0x20, 0x21, 0x22, 0x23}, tag[17];
    struct mbj_bytes k = bytes_at(key, read_hex(key, "404142434445464748494a4b4c4d4e4f"));
    struct mbj_bytes n = bytes_at(nonce, read_hex(nonce, "10111213141516")), a = bytes_at(aad, read_hex(aad, "0001020304050607"));
    CHECK(mbj_ccm_seal(k, n, a, room_at(text, 4), room_at(tag, 4)) == MBJ_ERR_NONE && is_hex(text, "7162015b") && is_hex(tag, "4dac255d"));
    memset(tag, 0xee, sizeof tag);
    CHECK(mbj_ccm_decrypt_unverified(k, n, a, room_at(text, 4), room_at(tag, 4)) == MBJ_ERR_NONE);
    CHECK(is_hex(text, "20212223") && is_hex(tag, "4dac255dee"));
    CHECK(mbj_ccm_seal(bytes_at(key, 8), n, a, room_at(text, 4), room_at(tag, 4)) == MBJ_ERR_KEY_LENGTH);
    CHECK(mbj_ccm_seal(k, bytes_at(nonce, 6), a, room_at(text, 4), room_at(tag, 4)) == MBJ_ERR_IV_LENGTH);
    CHECK(mbj_ccm_open(k, n, a, room_at(text, 4), bytes_at(tag, 5)) == MBJ_ERR_TAG_LENGTH);
    CHECK(mbj_ccm_decrypt_unverified(k, n, a, room_at(text, 4), room_at(tag, 5)) == MBJ_ERR_TAG_LENGTH);
    CHECK(is_hex(text, "20212223") && is_hex(tag, "4dac255d"));
}

/* A text and additional data that are too long. */
static void ccm_refuses_long_ones(void) {
    static uint8_t bytes[65536];
    uint8_t tag[4] = {0};
    struct mbj_bytes k = bytes_at(cbc_key, 16), n = bytes_at(cbc_iv, 13);
    CHECK(mbj_ccm_seal(k, n, bytes_at(bytes, 65280), room_at(bytes, 0), room_at(tag, 4)) == MBJ_ERR_AAD_LENGTH);
    CHECK(mbj_ccm_open(k, n, bytes_at(tag, 0), room_at(bytes, 65536), bytes_at(tag, 4)) == MBJ_ERR_TEXT_LENGTH);
    CHECK(is_all(bytes, sizeof bytes, 0));
}

/* If memory runs out, the text and the room of the tag stay as they were, and every block is freed. */
static void ccm_is_refused_memory(mbj_err (*ccm)(struct mbj_bytes, struct mbj_bytes, struct mbj_bytes, struct mbj_room, struct mbj_room)) {
    uint8_t text[40], tag[8];
    struct mbj_bytes k = bytes_at(cbc_key, 16), n = bytes_at(cbc_iv, 13), a = bytes_at(cbc_iv, 16);
    uint32_t code = MBJ_ERR_MEMORY;
    long before = blocks, at = 0;
    while (code == MBJ_ERR_MEMORY) {
        memset(text, 0x11, sizeof text);
        memset(tag, 0xee, sizeof tag);
        allocations = 0;
        refuse_at = ++at;
        code = ccm(k, n, a, room_at(text, sizeof text), room_at(tag, sizeof tag));
        refuse_at = 0;
        CHECK(blocks == before && (code == MBJ_ERR_NONE || (is_all(text, sizeof text, 0x11) && is_all(tag, sizeof tag, 0xee))));
    }
    CHECK(code == MBJ_ERR_NONE && at > 1);
}

int main(void) {
    schedules_are_written();
    subkeys_are_written();
    digests_are_written();
    for (size_t i = 0; i < sizeof gcm_cases / sizeof gcm_cases[0]; i++)
        seal_and_open(&gcm_cases[i]);
    gcm_refuses();
    CHECK(allocations == 0);
    ccm_seals_and_opens();
    ccm_refuses_long_ones();
    ccm_is_refused_memory(mbj_ccm_seal);
    ccm_is_refused_memory(mbj_ccm_decrypt_unverified);
    return 0;
}
