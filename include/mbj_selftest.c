/* The known answers of mbj_selftest.h, to be compiled into a program beside the library. */
#include "mbj_selftest.h"

enum { ROOM = 64 };

/* What a job comes to: its text, all of which is ciphered or authenticated, and the results, in hexadecimal digits. The key is that of the
 * authentication if there is no cipher. */
struct answer {
    const char *name;
    uint32_t cipher, auth;
    const char *key, *iv, *aad, *text, *ciphertext, *tag;
};

/* SP 800-38A, appendix F: the keys, the IV of CBC, the first counter of CTR, and the first block. */
#define KEY_128 "2b7e151628aed2a6abf7158809cf4f3c"
#define KEY_192 "8e73b0f7da0e6452c810f32b809079e562f8ead2522c6b7b"
#define KEY_256 "603deb1015ca71be2b73aef0857d77811f352c073b6108d72d9810a30914dff4"
#define CBC_IV "000102030405060708090a0b0c0d0e0f"
#define COUNTER "f0f1f2f3f4f5f6f7f8f9fafbfcfdfeff"
#define BLOCK "6bc1bee22e409f96e93d7e117393172a"

/* The Galois/counter mode of operation (McGrew and Viega), appendix B: the block and the IV of the test cases 2, 8 and 14. */
#define ZERO_BLOCK "00000000000000000000000000000000"
#define ZERO_IV "000000000000000000000000"

/* SP 800-38C, example 1: the key, nonce, additional data and text. */
#define CCM_KEY "404142434445464748494a4b4c4d4e4f"
#define CCM_NONCE "10111213141516"
#define CCM_AAD "0001020304050607"
#define CCM_TEXT "20212223"

/* RFC 2202 and RFC 4231, test cases 1: the key and "Hi There". */
#define HMAC_KEY "0b0b0b0b0b0b0b0b0b0b0b0b0b0b0b0b0b0b0b0b"
#define HI_THERE "4869205468657265"

/* FIPS 180-4, its examples: "abc". */
#define ABC "616263"

static const struct answer answers[] = {
    /* SP 800-38A, F.2.1, F.2.3 and F.2.5 */
    {"AES-CBC-128", MBJ_CIPHER_CBC, MBJ_AUTH_NULL, KEY_128, CBC_IV, "", BLOCK, "7649abac8119b246cee98e9b12e9197d", ""},
    {"AES-CBC-192", MBJ_CIPHER_CBC, MBJ_AUTH_NULL, KEY_192, CBC_IV, "", BLOCK, "4f021db243bc633d7178183a9fa071e8", ""},
    {"AES-CBC-256", MBJ_CIPHER_CBC, MBJ_AUTH_NULL, KEY_256, CBC_IV, "", BLOCK, "f58c4c04d6e5f1ba779eabfb5f7bfbd6", ""},
    /* SP 800-38A, F.5.1, F.5.3 and F.5.5 */
    {"AES-CTR-128", MBJ_CIPHER_CNTR, MBJ_AUTH_NULL, KEY_128, COUNTER, "", BLOCK, "874d6191b620e3261bef6864990db6ce", ""},
    {"AES-CTR-192", MBJ_CIPHER_CNTR, MBJ_AUTH_NULL, KEY_192, COUNTER, "", BLOCK, "1abc932417521ca24f2b0459fe7e6e0b", ""},
    {"AES-CTR-256", MBJ_CIPHER_CNTR, MBJ_AUTH_NULL, KEY_256, COUNTER, "", BLOCK, "601ec313775789a5b7a7f504bbf3d228", ""},
    /* McGrew and Viega, test cases 2, 8 and 14 */
    {"AES-GCM-128", MBJ_CIPHER_GCM, MBJ_AUTH_GCM, ZERO_BLOCK, ZERO_IV, "", ZERO_BLOCK, "0388dace60b6a392f328c2b971b2fe78",
     "ab6e47d42cec13bdf53a67b21257bddf"},
    {"AES-GCM-192", MBJ_CIPHER_GCM, MBJ_AUTH_GCM, ZERO_BLOCK "0000000000000000", ZERO_IV, "", ZERO_BLOCK,
     "98e7247c07f0fe411c267e4384b0f600", "2ff58d80033927ab8ef4d4587514f0fb"},
    {"AES-GCM-256", MBJ_CIPHER_GCM, MBJ_AUTH_GCM, ZERO_BLOCK ZERO_BLOCK, ZERO_IV, "", ZERO_BLOCK,
     "cea7403d4d606b6e074ec5d3baf39d18", "d0d1c8a799996bf0265b98b5d48ab919"},
    /* SP 800-38C, example 1; the longer keys, which it doesn't have, by OpenSSL 3.0 */
    {"AES-CCM-128", MBJ_CIPHER_CCM, MBJ_AUTH_AES_CCM, CCM_KEY, CCM_NONCE, CCM_AAD, CCM_TEXT, "7162015b", "4dac255d"},
    {"AES-CCM-192", MBJ_CIPHER_CCM, MBJ_AUTH_AES_CCM, CCM_KEY "5051525354555657", CCM_NONCE, CCM_AAD, CCM_TEXT, "18ee1730", "c8c326d5"},
    {"AES-CCM-256", MBJ_CIPHER_CCM, MBJ_AUTH_AES_CCM, CCM_KEY "505152535455565758595a5b5c5d5e5f", CCM_NONCE, CCM_AAD, CCM_TEXT,
     "8ab1a874", "95fc0820"},
    /* RFC 2202, section 3, and RFC 4231, section 4.2 */
    {"HMAC-SHA-1", MBJ_CIPHER_NULL, MBJ_AUTH_HMAC_SHA_1, HMAC_KEY, "", "", HI_THERE, "", "b617318655057264e28bc0b6fb378c8ef146be00"},
    {"HMAC-SHA-224", MBJ_CIPHER_NULL, MBJ_AUTH_HMAC_SHA_224, HMAC_KEY, "", "", HI_THERE, "",
     "896fb1128abbdf196832107cd49df33f47b4b1169912ba4f53684b22"},
    {"HMAC-SHA-256", MBJ_CIPHER_NULL, MBJ_AUTH_HMAC_SHA_256, HMAC_KEY, "", "", HI_THERE, "",
     "b0344c61d8db38535ca8afceaf0bf12b881dc200c9833da726e9376c2e32cff7"},
    {"HMAC-SHA-384", MBJ_CIPHER_NULL, MBJ_AUTH_HMAC_SHA_384, HMAC_KEY, "", "", HI_THERE, "",
     "afd03944d84895626b0825f4ab46907f15f9dadbe4101ec682aa034c7cebc59cfaea9ea9076ede7f4af152e8b2fa9cb6"},
    {"HMAC-SHA-512", MBJ_CIPHER_NULL, MBJ_AUTH_HMAC_SHA_512, HMAC_KEY, "", "", HI_THERE, "",
     "87aa7cdea5ef619d4ff0b4241a1d6cb02379f4e2ce4ec2787ad0b30545e17cdedaa833b7d6b8a702038b274eaea3f4e4be9d914eeb61f1702e696c203a126854"},
    /* SP 800-38B, D.1 and D.3, over one block */
    {"AES-CMAC-128", MBJ_CIPHER_NULL, MBJ_AUTH_AES_CMAC, KEY_128, "", "", BLOCK, "", "070a16b46b4d4144f79bdd9dd04a287c"},
    {"AES-CMAC-256", MBJ_CIPHER_NULL, MBJ_AUTH_AES_CMAC_256, KEY_256, "", "", BLOCK, "", "28a7023f452e8f82bd4bf28d8c37c35c"},
    /* OpenSSL 3.0: GMAC of the first block of SP 800-38A */
    {"AES-GMAC-128", MBJ_CIPHER_NULL, MBJ_AUTH_AES_GMAC, KEY_128, "000102030405060708090a0b", "", BLOCK, "",
     "1f8672178fb5d61cc42b0802f958d913"},
    {"AES-GMAC-192", MBJ_CIPHER_NULL, MBJ_AUTH_AES_GMAC, KEY_192, "000102030405060708090a0b", "", BLOCK, "",
     "b6e1c02bd428d60db05a0bd37bd903de"},
    {"AES-GMAC-256", MBJ_CIPHER_NULL, MBJ_AUTH_AES_GMAC, KEY_256, "000102030405060708090a0b", "", BLOCK, "",
     "92e86bbcbacb8e09ac4fab1b5493a2ec"},
    /* FIPS 180-4 */
    {"SHA-1", MBJ_CIPHER_NULL, MBJ_AUTH_SHA_1, "", "", "", ABC, "", "a9993e364706816aba3e25717850c26c9cd0d89d"},
    {"SHA-224", MBJ_CIPHER_NULL, MBJ_AUTH_SHA_224, "", "", "", ABC, "", "23097d223405d8228642a477bda255b32aadbce4bda0b3f7e36c9da7"},
    {"SHA-256", MBJ_CIPHER_NULL, MBJ_AUTH_SHA_256, "", "", "", ABC, "", "ba7816bf8f01cfea414140de5dae2223b00361a396177a9cb410ff61f20015ad"},
    {"SHA-384", MBJ_CIPHER_NULL, MBJ_AUTH_SHA_384, "", "", "", ABC, "",
     "cb00753f45a35e8bb5a03d699ac65007272c32ab0eded1631a8b605a43ff5bed8086072ba1e7cc2358baeca134c825a7"},
    {"SHA-512", MBJ_CIPHER_NULL, MBJ_AUTH_SHA_512, "", "", "", ABC, "",
     "ddaf35a193617abacc417349ae20413112e6fa4e89a97ea20a9eeee64b55d39a2192992a274fc1a836ba3c23a3feebbd454d4423643ce80e2a9ac94fa54ca49f"},
};

/* ---- bytes ---- */

struct bytes {
    uint8_t at[ROOM];
    size_t len;
};

static uint8_t digit_value(char digit) {
    return (uint8_t)(digit <= '9' ? digit - '0' : digit - 'a' + 10);
}

/* The bytes of these digits, which are pairs in lower case and at most ROOM of them. */
static struct bytes bytes_of(const char *digits) {
    struct bytes bytes = {{0}, strlen(digits) / 2};
    for (size_t i = 0; i < bytes.len; i++)
        bytes.at[i] = (uint8_t)(digit_value(digits[2 * i]) * 16 + digit_value(digits[2 * i + 1]));
    return bytes;
}

static bool is_same(const struct bytes *one, const struct bytes *other) {
    return memcmp(one->at, other->at, one->len) == 0;
}

/* ---- jobs ---- */

/* What a job reads and writes, and what it should write. */
struct trial {
    struct bytes key, iv, aad, text, dst, tag, want_dst, want_tag;
};

static struct trial trial_of(const struct answer *answer, uint32_t direction) {
    bool is_enc = direction == MBJ_DIR_ENCRYPT, has_cipher = answer->cipher != MBJ_CIPHER_NULL;
    struct trial trial;
    trial.key = bytes_of(answer->key);
    trial.iv = bytes_of(answer->iv);
    trial.aad = bytes_of(answer->aad);
    trial.text = bytes_of(is_enc ? answer->text : answer->ciphertext);
    trial.want_dst = bytes_of(!has_cipher ? "" : is_enc ? answer->ciphertext : answer->text);
    trial.want_tag = bytes_of(answer->tag);
    trial.dst = trial.tag = bytes_of("");
    return trial;
}

static void fill(MBJ_JOB *job, const struct answer *answer, struct trial *trial, uint32_t direction) {
    job->cipher_mode = answer->cipher;
    job->cipher_direction = direction;
    job->hash_alg = answer->auth;
    job->key = job->auth_key = trial->key.at;
    job->key_len_in_bytes = job->auth_key_len_in_bytes = trial->key.len;
    job->iv = trial->iv.at;
    job->iv_len_in_bytes = trial->iv.len;
    job->aad = trial->aad.at;
    job->aad_len_in_bytes = trial->aad.len;
    job->packet = trial->text.at;
    job->packet_len_in_bytes = job->msg_len_to_cipher_in_bytes = job->msg_len_to_hash_in_bytes = trial->text.len;
    job->dst = trial->dst.at;
    job->auth_tag_output = trial->tag.at;
    job->auth_tag_output_len_in_bytes = trial->want_tag.len;
}

/* NULL if the job comes to what is known, or else its name or the refusal's text. */
static const char *fault_of(MBJ_MGR *m, const struct answer *answer, uint32_t direction) {
    struct trial trial = trial_of(answer, direction);
    fill(mbj_get_next_job(m), answer, &trial, direction);
    const MBJ_JOB *done = mbj_submit_job(m);
    if (done == NULL && mbj_get_errno(m) == MBJ_ERR_NONE)
        done = mbj_flush_job(m);
    if (mbj_get_errno(m) != MBJ_ERR_NONE)
        return mbj_err_text(mbj_get_errno(m));
    bool is_right = done != NULL && done->status == MBJ_STATUS_COMPLETED && is_same(&trial.want_dst, &trial.dst) &&
                    is_same(&trial.want_tag, &trial.tag);
    return is_right ? NULL : answer->name;
}

/* Both directions of a cipher; an authentication has none. */
static const char *fault_in(MBJ_MGR *m, const struct answer *answer) {
    const char *fault = fault_of(m, answer, MBJ_DIR_ENCRYPT);
    return fault == NULL && answer->cipher != MBJ_CIPHER_NULL ? fault_of(m, answer, MBJ_DIR_DECRYPT) : fault;
}

const char *mbj_selftest(MBJ_MGR *m) {
    mbj_err refusal = mbj_init_mgr(m);
    const char *fault = refusal != MBJ_ERR_NONE ? mbj_err_text(refusal) : NULL;
    for (size_t i = 0; i < sizeof answers / sizeof *answers && fault == NULL; i++)
        fault = fault_in(m, &answers[i]);
    mbj_end_mgr(m);
    return fault;
}
