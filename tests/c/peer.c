/* The results of an accepted job, computed by OpenSSL. */
#include "peer.h"

#include <openssl/evp.h>
#include <openssl/params.h>

enum { BLOCK = 16 };

static const char *const key_names[3] = {"128", "192", "256"};

/* The cipher of OpenSSL with this name and keys of this many bytes. */
static EVP_CIPHER *cipher_of(const char *mode, size_t key_len) {
    char name[16] = "AES-";
    strcat(name, key_names[key_len / 8 - 2]);
    strcat(name, mode);
    return EVP_CIPHER_fetch(NULL, name, NULL);
}

/* CBC and CTR of a range. CTR with an IV of 12 bytes counts from 1 on (RFC 3686, section 4). */
static bool cipher_range(const MBJ_JOB *job, const uint8_t *from, uint8_t *to) {
    bool is_cbc = job->cipher_mode == MBJ_CIPHER_CBC;
    uint8_t iv[BLOCK] = {0};
    memcpy(iv, job->iv, job->iv_len_in_bytes);
    if (job->iv_len_in_bytes == 12)
        iv[BLOCK - 1] = 1;
    EVP_CIPHER *cipher = cipher_of(is_cbc ? "-CBC" : "-CTR", job->key_len_in_bytes);
    EVP_CIPHER_CTX *c = EVP_CIPHER_CTX_new();
    int len = 0;
    bool is_done = EVP_CipherInit_ex2(c, cipher, job->key, iv, job->cipher_direction == MBJ_DIR_ENCRYPT, NULL) == 1 &&
                   EVP_CIPHER_CTX_set_padding(c, 0) == 1 &&
                   EVP_CipherUpdate(c, to, &len, from, (int)job->msg_len_to_cipher_in_bytes) == 1;
    EVP_CIPHER_CTX_free(c);
    EVP_CIPHER_free(cipher);
    return is_done && (uint64_t)len == job->msg_len_to_cipher_in_bytes;
}

/* Tells the cipher the length of the IV and, if it is CCM, those of the tag and of the text too, and then the key and the IV. */
static bool start_combined(const MBJ_JOB *job, EVP_CIPHER_CTX *c, const EVP_CIPHER *cipher) {
    int tag_len = (int)job->auth_tag_output_len_in_bytes, text_len = (int)job->msg_len_to_cipher_in_bytes, len = 0;
    size_t iv_len = job->iv_len_in_bytes;
    OSSL_PARAM params[2] = {OSSL_PARAM_construct_size_t("ivlen", &iv_len), OSSL_PARAM_construct_end()};
    bool is_ccm = job->cipher_mode == MBJ_CIPHER_CCM;
    return EVP_EncryptInit_ex2(c, cipher, NULL, NULL, params) == 1 &&
           (!is_ccm || EVP_CIPHER_CTX_ctrl(c, EVP_CTRL_AEAD_SET_TAG, tag_len, NULL) == 1) &&
           EVP_EncryptInit_ex2(c, NULL, job->key, job->iv, NULL) == 1 &&
           (!is_ccm || EVP_EncryptUpdate(c, NULL, &len, NULL, text_len) == 1);
}

/* Enciphers the range by GCM or CCM, from the plain text that the job has or gives. */
static bool combined_agrees(const MBJ_JOB *job, const uint8_t *packet, const uint8_t *dst, const uint8_t *tag) {
    bool is_enc = job->cipher_direction == MBJ_DIR_ENCRYPT;
    size_t text_len = (size_t)job->msg_len_to_cipher_in_bytes, tag_len = job->auth_tag_output_len_in_bytes;
    const uint8_t *range = packet + job->cipher_start_src_offset_in_bytes;
    uint8_t *ciphertext = (uint8_t *)malloc(text_len + BLOCK), own_tag[BLOCK] = {0};
    EVP_CIPHER *cipher = cipher_of(job->cipher_mode == MBJ_CIPHER_GCM ? "-GCM" : "-CCM", job->key_len_in_bytes);
    EVP_CIPHER_CTX *c = EVP_CIPHER_CTX_new();
    int len = 0, rest = 0;
    bool is_done = ciphertext != NULL && start_combined(job, c, cipher) &&
                   (job->aad_len_in_bytes == 0 || EVP_EncryptUpdate(c, NULL, &len, job->aad, (int)job->aad_len_in_bytes) == 1) &&
                   EVP_EncryptUpdate(c, ciphertext, &len, is_enc ? range : dst, (int)text_len) == 1 &&
                   EVP_EncryptFinal_ex(c, ciphertext + text_len, &rest) == 1 &&
                   EVP_CIPHER_CTX_ctrl(c, EVP_CTRL_AEAD_GET_TAG, (int)tag_len, own_tag) == 1 &&
                   (text_len == 0 || memcmp(ciphertext, is_enc ? dst : range, text_len) == 0) && memcmp(own_tag, tag, tag_len) == 0;
    EVP_CIPHER_CTX_free(c);
    EVP_CIPHER_free(cipher);
    free(ciphertext);
    return is_done;
}

static const char *const hashes[] = {"SHA1", "SHA224", "SHA256", "SHA384", "SHA512"};

/* Writes a digest of the range; returns how many bytes it has, or 0. */
static size_t hash_range(const MBJ_JOB *job, const uint8_t *range, uint8_t *tag) {
    EVP_MD *md = EVP_MD_fetch(NULL, hashes[job->hash_alg - MBJ_AUTH_SHA_1], NULL);
    unsigned len = 0;
    bool is_done = EVP_Digest(range, (size_t)job->msg_len_to_hash_in_bytes, tag, &len, md, NULL) == 1;
    EVP_MD_free(md);
    return is_done ? len : 0;
}

/* How OpenSSL names a code that it makes by a key: the algorithm, and its parameter, a hash or a cipher. */
struct mac_name {
    const char *algorithm, *parameter;
    char value[16];
};

static struct mac_name name_mac(const MBJ_JOB *job) {
    struct mac_name name = {"CMAC", "cipher", "AES-"};
    if (job->hash_alg <= MBJ_AUTH_HMAC_SHA_512) {
        name.algorithm = "HMAC";
        name.parameter = "digest";
        strcpy(name.value, hashes[job->hash_alg - MBJ_AUTH_HMAC_SHA_1]);
        return name;
    }
    bool is_gmac = job->hash_alg == MBJ_AUTH_AES_GMAC;
    name.algorithm = is_gmac ? "GMAC" : "CMAC";
    strcat(name.value, key_names[job->auth_key_len_in_bytes / 8 - 2]);
    strcat(name.value, is_gmac ? "-GCM" : "-CBC");
    return name;
}

/* Writes HMAC, CMAC or GMAC of the range; returns how many bytes it has, or 0. */
static size_t mac_range(const MBJ_JOB *job, const uint8_t *range, uint8_t *tag) {
    static const uint8_t no_key[1] = {0};
    struct mac_name name = name_mac(job);
    EVP_MAC *mac = EVP_MAC_fetch(NULL, name.algorithm, NULL);
    EVP_MAC_CTX *c = EVP_MAC_CTX_new(mac);
    OSSL_PARAM params[3] = {OSSL_PARAM_construct_utf8_string(name.parameter, name.value, 0), OSSL_PARAM_construct_end(),
                            OSSL_PARAM_construct_end()};
    if (job->hash_alg == MBJ_AUTH_AES_GMAC)
        params[1] = OSSL_PARAM_construct_octet_string("iv", (void *)(uintptr_t)job->iv, job->iv_len_in_bytes);
    size_t len = 0;
    bool is_done = EVP_MAC_init(c, job->auth_key_len_in_bytes != 0 ? job->auth_key : no_key, job->auth_key_len_in_bytes, params) == 1 &&
                   EVP_MAC_update(c, range, (size_t)job->msg_len_to_hash_in_bytes) == 1 &&
                   EVP_MAC_final(c, tag, &len, MBJ_MAX_TAG_BYTES) == 1;
    EVP_MAC_CTX_free(c);
    EVP_MAC_free(mac);
    return is_done ? len : 0;
}

/* A tag over the hash range: its leftmost bytes. */
static bool tag_agrees(const MBJ_JOB *job, const uint8_t *packet, const uint8_t *tag) {
    const uint8_t *range = packet + job->hash_start_src_offset_in_bytes;
    uint8_t own_tag[MBJ_MAX_TAG_BYTES];
    size_t len = job->hash_alg >= MBJ_AUTH_SHA_1 ? hash_range(job, range, own_tag) : mac_range(job, range, own_tag);
    return len >= job->auth_tag_output_len_in_bytes && memcmp(own_tag, tag, job->auth_tag_output_len_in_bytes) == 0;
}

/* Ciphers the copy of the packet, and authenticates it before or afterwards. */
static bool both_agree(const MBJ_JOB *job, uint8_t *packet, const uint8_t *dst, const uint8_t *tag) {
    bool is_hash_first = job->chain_order == MBJ_ORDER_HASH_CIPHER, has_tag = job->hash_alg != MBJ_AUTH_NULL;
    uint8_t *range = packet + job->cipher_start_src_offset_in_bytes;
    if (has_tag && is_hash_first && !tag_agrees(job, packet, tag))
        return false;
    if (job->cipher_mode != MBJ_CIPHER_NULL &&
        (!cipher_range(job, range, range) || memcmp(range, dst, (size_t)job->msg_len_to_cipher_in_bytes) != 0))
        return false;
    return !has_tag || is_hash_first || tag_agrees(job, packet, tag);
}

/* The packet is copied, also since one of no byte may be at NULL. */
bool peer_agrees(const MBJ_JOB *job, const uint8_t *dst, const uint8_t *tag) {
    uint8_t *packet = (uint8_t *)malloc(job->packet_len_in_bytes + BLOCK);
    if (packet == NULL)
        return false;
    if (job->packet_len_in_bytes != 0)
        memcpy(packet, job->packet, job->packet_len_in_bytes);
    bool is_combined = job->cipher_mode == MBJ_CIPHER_GCM || job->cipher_mode == MBJ_CIPHER_CCM;
    bool is_same = is_combined ? combined_agrees(job, packet, dst, tag) : both_agree(job, packet, dst, tag);
    free(packet);
    return is_same;
}
