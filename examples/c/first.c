/* One job: RFC 2202's first test case of HMAC-SHA-1. It prints the job's packet and tag as `mbjobs run` does. */
#include "mbj.h"

#include <stdio.h>

static void print_hex(const uint8_t *bytes, size_t len) {
    for (size_t i = 0; i < len; i++)
        printf("%02x", bytes[i]);
}

int main(void) {
    MBJ_MGR *manager = mbj_alloc_mgr();
    if (manager == NULL)
        return 7;

    static const uint8_t packet[8] = {'H', 'i', ' ', 'T', 'h', 'e', 'r', 'e'};
    uint8_t key[20], tag[20];
    memset(key, 0x0b, sizeof key);

    MBJ_JOB *job = mbj_get_next_job(manager);
    job->cipher_mode = MBJ_CIPHER_NULL;
    job->hash_alg = MBJ_AUTH_HMAC_SHA_1;
    job->auth_key = key;
    job->auth_key_len_in_bytes = sizeof key;
    job->packet = packet;
    job->packet_len_in_bytes = sizeof packet;
    job->msg_len_to_hash_in_bytes = sizeof packet;
    job->auth_tag_output = tag;
    job->auth_tag_output_len_in_bytes = sizeof tag;

    MBJ_JOB *done = mbj_submit_job(manager);
    if (done == NULL && mbj_get_errno(manager) == MBJ_ERR_NONE)
        done = mbj_flush_job(manager);
    int status = 0;
    if (done == NULL) {
        fprintf(stderr, "first: %s\n", mbj_err_text(mbj_get_errno(manager)));
        status = 7;
    } else if (done->status == MBJ_STATUS_COMPLETED) {
        printf("0 ok ");
        print_hex(done->packet, done->packet_len_in_bytes);
        printf(" ");
        print_hex(done->auth_tag_output, done->auth_tag_output_len_in_bytes);
        printf("\n");
    } else {
        printf("0 invalid-args %u\n", (unsigned)done->reason);
    }
    mbj_free_mgr(manager);
    return status;
}
