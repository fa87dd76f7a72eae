/* Prints the size of each struct of the header, the offset and the size of each field, and the number of each name, to be compared with
 * layout.txt: a program that was compiled with an earlier header relies on them. */
#include "mbj.h"
#include "mbj_direct.h"
#include "mbj_seat.h"
#include "mbj_heap.h"

#include <stdio.h>

#define STRUCT(type) printf("%s: %zu bytes\n", #type, sizeof(type))
#define FIELD(type, field) printf("    %s at %zu, %zu bytes\n", #field, offsetof(type, field), sizeof(((type *)NULL)->field))
#define NUMBER(name) printf("%s %ld\n", #name, (long)(name))

static void print_raw_job(void) {
    STRUCT(struct mbj_raw_job);
    FIELD(struct mbj_raw_job, cipher);
    FIELD(struct mbj_raw_job, dir);
    FIELD(struct mbj_raw_job, order);
    FIELD(struct mbj_raw_job, auth);
    FIELD(struct mbj_raw_job, key);
    FIELD(struct mbj_raw_job, iv);
    FIELD(struct mbj_raw_job, auth_key);
    FIELD(struct mbj_raw_job, aad);
    FIELD(struct mbj_raw_job, packet);
    FIELD(struct mbj_raw_job, cipher_off);
    FIELD(struct mbj_raw_job, cipher_len);
    FIELD(struct mbj_raw_job, hash_off);
    FIELD(struct mbj_raw_job, hash_len);
    FIELD(struct mbj_raw_job, tag_len);
    FIELD(struct mbj_raw_job, session);
}

static void print_exported_structs(void) {
    STRUCT(struct mbj_handle);
    FIELD(struct mbj_handle, at);
    STRUCT(struct mbj_keys);
    FIELD(struct mbj_keys, at);
    STRUCT(struct mbj_bytes);
    FIELD(struct mbj_bytes, at);
    FIELD(struct mbj_bytes, len);
    STRUCT(struct mbj_room);
    FIELD(struct mbj_room, at);
    FIELD(struct mbj_room, len);
    print_raw_job();
    STRUCT(struct mbj_raw_done);
    FIELD(struct mbj_raw_done, dst);
    FIELD(struct mbj_raw_done, tag);
    FIELD(struct mbj_raw_done, dst_len);
    FIELD(struct mbj_raw_done, tag_len);
    FIELD(struct mbj_raw_done, status);
    FIELD(struct mbj_raw_done, reason);
    STRUCT(struct mbj_counts);
    FIELD(struct mbj_counts, rounds);
    FIELD(struct mbj_counts, blocks);
    FIELD(struct mbj_counts, flush_runs);
    FIELD(struct mbj_counts, waiting);
    STRUCT(struct mbj_raw_burst);
    FIELD(struct mbj_raw_burst, made);
    FIELD(struct mbj_raw_burst, given);
    FIELD(struct mbj_raw_burst, refusal);
    STRUCT(struct mbj_gcm_state);
    FIELD(struct mbj_gcm_state, words);
    STRUCT(struct mbj_gmac_state);
    FIELD(struct mbj_gmac_state, words);
    STRUCT(struct mbj_heap);
    FIELD(struct mbj_heap, alloc);
    FIELD(struct mbj_heap, realloc);
    FIELD(struct mbj_heap, free);
    FIELD(struct mbj_heap, opaque);
}

static void print_job(void) {
    STRUCT(MBJ_JOB);
    FIELD(MBJ_JOB, cipher_mode);
    FIELD(MBJ_JOB, cipher_direction);
    FIELD(MBJ_JOB, chain_order);
    FIELD(MBJ_JOB, hash_alg);
    FIELD(MBJ_JOB, key);
    FIELD(MBJ_JOB, key_len_in_bytes);
    FIELD(MBJ_JOB, iv);
    FIELD(MBJ_JOB, iv_len_in_bytes);
    FIELD(MBJ_JOB, auth_key);
    FIELD(MBJ_JOB, auth_key_len_in_bytes);
    FIELD(MBJ_JOB, aad);
    FIELD(MBJ_JOB, aad_len_in_bytes);
    FIELD(MBJ_JOB, packet);
    FIELD(MBJ_JOB, packet_len_in_bytes);
    FIELD(MBJ_JOB, dst);
    FIELD(MBJ_JOB, cipher_start_src_offset_in_bytes);
    FIELD(MBJ_JOB, msg_len_to_cipher_in_bytes);
    FIELD(MBJ_JOB, hash_start_src_offset_in_bytes);
    FIELD(MBJ_JOB, msg_len_to_hash_in_bytes);
    FIELD(MBJ_JOB, auth_tag_output);
    FIELD(MBJ_JOB, auth_tag_output_len_in_bytes);
    FIELD(MBJ_JOB, user_data);
    FIELD(MBJ_JOB, user_data2);
    FIELD(MBJ_JOB, status);
    FIELD(MBJ_JOB, reason);
    FIELD(MBJ_JOB, session);
    FIELD(MBJ_JOB, expected_tag);
}

static void print_manager(void) {
    STRUCT(struct mbj_slot);
    FIELD(struct mbj_slot, dst);
    FIELD(struct mbj_slot, tag);
    FIELD(struct mbj_slot, dst_len);
    FIELD(struct mbj_slot, tag_len);
    FIELD(struct mbj_slot, reason);
    FIELD(struct mbj_slot, is_expected);
    FIELD(struct mbj_slot, expected);
    STRUCT(struct mbj_options);
    FIELD(struct mbj_options, heap);
    FIELD(struct mbj_options, keeping);
    STRUCT(MBJ_MGR);
    FIELD(MBJ_MGR, handle);
    FIELD(MBJ_MGR, heap);
    FIELD(MBJ_MGR, first);
    FIELD(MBJ_MGR, next);
    FIELD(MBJ_MGR, error);
    FIELD(MBJ_MGR, lent);
    FIELD(MBJ_MGR, slots);
    FIELD(MBJ_MGR, jobs);
}

static void print_ciphers(void) {
    NUMBER(MBJ_CIPHER_NULL);
    NUMBER(MBJ_CIPHER_CBC);
    NUMBER(MBJ_CIPHER_CNTR);
    NUMBER(MBJ_CIPHER_GCM);
    NUMBER(MBJ_CIPHER_CCM);
    NUMBER(MBJ_CIPHER_UNSET);
    NUMBER(MBJ_DIR_ENCRYPT);
    NUMBER(MBJ_DIR_DECRYPT);
    NUMBER(MBJ_ORDER_CIPHER_HASH);
    NUMBER(MBJ_ORDER_HASH_CIPHER);
}

static void print_auths(void) {
    NUMBER(MBJ_AUTH_NULL);
    NUMBER(MBJ_AUTH_HMAC_SHA_1);
    NUMBER(MBJ_AUTH_HMAC_SHA_224);
    NUMBER(MBJ_AUTH_HMAC_SHA_256);
    NUMBER(MBJ_AUTH_HMAC_SHA_384);
    NUMBER(MBJ_AUTH_HMAC_SHA_512);
    NUMBER(MBJ_AUTH_AES_CMAC);
    NUMBER(MBJ_AUTH_AES_CMAC_256);
    NUMBER(MBJ_AUTH_GCM);
    NUMBER(MBJ_AUTH_AES_GMAC);
    NUMBER(MBJ_AUTH_AES_CCM);
    NUMBER(MBJ_AUTH_SHA_1);
    NUMBER(MBJ_AUTH_SHA_224);
    NUMBER(MBJ_AUTH_SHA_256);
    NUMBER(MBJ_AUTH_SHA_384);
    NUMBER(MBJ_AUTH_SHA_512);
    NUMBER(MBJ_AUTH_HMAC_SHA_1_STATES);
    NUMBER(MBJ_AUTH_HMAC_SHA_224_STATES);
    NUMBER(MBJ_AUTH_HMAC_SHA_256_STATES);
    NUMBER(MBJ_AUTH_HMAC_SHA_384_STATES);
    NUMBER(MBJ_AUTH_HMAC_SHA_512_STATES);
    NUMBER(MBJ_AUTH_UNSET);
}

static void print_hashes(void) {
    NUMBER(MBJ_HASH_SHA_1);
    NUMBER(MBJ_HASH_SHA_224);
    NUMBER(MBJ_HASH_SHA_256);
    NUMBER(MBJ_HASH_SHA_384);
    NUMBER(MBJ_HASH_SHA_512);
}

static void print_kinds(void) {
    NUMBER(MBJ_KIND_CBC_128);
    NUMBER(MBJ_KIND_CBC_192);
    NUMBER(MBJ_KIND_CBC_256);
    NUMBER(MBJ_KIND_CMAC_128);
    NUMBER(MBJ_KIND_CMAC_256);
    NUMBER(MBJ_KIND_HMAC_SHA_1);
    NUMBER(MBJ_KIND_HMAC_SHA_256);
    NUMBER(MBJ_KIND_HMAC_SHA_512);
    NUMBER(MBJ_KIND_CCM_128);
    NUMBER(MBJ_KIND_CCM_192);
    NUMBER(MBJ_KIND_CCM_256);
}

static void print_keeping(void) {
    NUMBER(MBJ_KEEPS_SHORT);
    NUMBER(MBJ_KEEPS_LONG);
    NUMBER(MBJ_KEEPS_NONE);
}

static void print_answers(void) {
    NUMBER(MBJ_STATUS_BEING_PROCESSED);
    NUMBER(MBJ_STATUS_COMPLETED);
    NUMBER(MBJ_STATUS_INVALID_ARGS);
    NUMBER(MBJ_STATUS_ERROR);
    NUMBER(MBJ_STATUS_WRONG_TAG);
    NUMBER(MBJ_ERR_NONE);
    NUMBER(MBJ_REASON_NONE);
    NUMBER(MBJ_REASON_PACKET_LONG);
    NUMBER(MBJ_REASON_PAIR);
    NUMBER(MBJ_REASON_CIPHER_KEY);
    NUMBER(MBJ_REASON_IV_LENGTH);
    NUMBER(MBJ_REASON_CIPHER_RANGE);
    NUMBER(MBJ_REASON_CIPHER_LENGTH);
    NUMBER(MBJ_REASON_AUTH_KEY);
    NUMBER(MBJ_REASON_HASH_RANGE);
    NUMBER(MBJ_REASON_AAD_LONG);
    NUMBER(MBJ_REASON_TAG_LENGTH);
}

static void print_errors(void) {
    NUMBER(MBJ_ERR_TEXT_LENGTH);
    NUMBER(MBJ_ERR_KEY_LENGTH);
    NUMBER(MBJ_ERR_IV_LENGTH);
    NUMBER(MBJ_ERR_TAG_LENGTH);
    NUMBER(MBJ_ERR_AAD_LENGTH);
    NUMBER(MBJ_ERR_NO_STATE);
    NUMBER(MBJ_ERR_HAS_KEYS);
    NUMBER(MBJ_ERR_NO_KEYS);
    NUMBER(MBJ_ERR_MANY_KEYS);
    NUMBER(MBJ_ERR_TAG);
    NUMBER(MBJ_ERR_FULL);
    NUMBER(MBJ_ERR_WORD);
    NUMBER(MBJ_ERR_MEMORY);
    NUMBER(MBJ_ERR_NO_MANAGER);
    NUMBER(MBJ_ERR_NO_JOB);
    NUMBER(MBJ_ERR_NO_ROOM);
    NUMBER(MBJ_ERR_HAS_MANAGER);
    NUMBER(MBJ_ERR_NULL);
    NUMBER(MBJ_ERR_VERSION);
    NUMBER(MBJ_ERR_PROCESSOR);
    NUMBER(MBJ_ERR_HEAP);
    NUMBER(MBJ_ERR_NO_SEAT);
    NUMBER(MBJ_ERR_HAS_SEAT);
    NUMBER(MBJ_ERR_SEAT_COUNT);
    NUMBER(MBJ_ERR_NOT_SUBMITTER);
    NUMBER(MBJ_REASON_CODE);
    NUMBER(MBJ_REASON_NULL);
    NUMBER(MBJ_REASON_NO_TAG);
}

static void print_limits(void) {
    NUMBER(MBJ_MAX_JOBS);
    NUMBER(MBJ_MAX_PACKET_BYTES);
    NUMBER(MBJ_MAX_IV_BYTES);
    NUMBER(MBJ_MAX_GCM_AAD_BYTES);
    NUMBER(MBJ_MAX_CCM_AAD_BYTES);
    NUMBER(MBJ_MAX_HMAC_KEY_BYTES);
    NUMBER(MBJ_MAX_TAG_BYTES);
    NUMBER(MBJ_MAX_SESSIONS);
    NUMBER(MBJ_NO_SESSION);
    NUMBER(MBJ_VERSION_NUM);
}

int main(void) {
    print_exported_structs();
    print_job();
    print_manager();
    print_ciphers();
    print_auths();
    print_hashes();
    print_kinds();
    print_keeping();
    print_answers();
    print_errors();
    print_limits();
    return 0;
}
