/* Prints the jobs that `mbjobs gen` makes as a job file: jobs SEED COUNT. crates/mbj_gen/specs has the draws. */
#include <inttypes.h>
#include <stdint.h>
#include <stdio.h>
#include <stdlib.h>

static uint64_t state;

static unsigned draw(void) {
    state = state * UINT64_C(6364136223846793005) + UINT64_C(1442695040888963407);
    return (unsigned)(state >> 56);
}

static void print_draws(unsigned count) {
    if (count == 0)
        printf("-");
    for (unsigned i = 0; i < count; i++)
        printf("%02x", draw());
}

/* A cipher with an authentication, which has a tag of tag_len bytes, and a key of key_len, if its key isn't that of an HMAC. */
struct pair {
    const char *cipher, *auth;
    unsigned tag_len, key_len;
};

static const struct pair pairs[16] = {
    {"null", "hmac-sha1", 20, 0},   {"null", "hmac-sha224", 28, 0}, {"null", "hmac-sha256", 32, 0}, {"null", "hmac-sha384", 48, 0},
    {"null", "hmac-sha512", 64, 0}, {"null", "cmac128", 16, 16},    {"null", "cmac256", 16, 32},    {"cbc", "null", 0, 0},
    {"ctr", "null", 0, 0},          {"gcm", "gcm", 16, 0},          {"cbc", "hmac-sha1", 20, 0},    {"cbc", "hmac-sha256", 32, 0},
    {"cbc", "cmac128", 16, 16},     {"ctr", "hmac-sha512", 64, 0},  {"ctr", "hmac-sha384", 48, 0},  {"null", "null", 1, 0},
};

static void print_job(void) {
    const struct pair *pair = &pairs[draw() % 16];
    const char *dir = draw() % 2 == 0 ? "enc" : "dec";
    const char *order = draw() % 2 == 0 ? "ch" : "hc";
    unsigned len = 16 * (1 + draw() % 32), cipher_len = 0, hash_len = 0;
    char cipher = pair->cipher[0] == 'c' ? pair->cipher[1] : pair->cipher[0];
    printf("%s %s %s ", pair->cipher, dir, order);
    if (cipher == 'n') {
        printf("- -");
    } else {
        print_draws(16 + 8 * (draw() % 3));
        printf(" ");
        print_draws(cipher == 'b' ? 16 : cipher == 'g' ? 12 : draw() % 2 == 0 ? 16 : 12);
        cipher_len = cipher == 'b' ? len : len - draw() % 16;
    }
    printf(" 0 %u %s ", cipher_len, pair->auth);
    if (pair->auth[0] == 'h') {
        print_draws(draw());
        hash_len = len - draw() % 16;
    } else if (pair->key_len != 0) {
        print_draws(pair->key_len);
        hash_len = len - draw() % 16;
    } else {
        printf("-");
    }
    printf(" ");
    if (cipher == 'g')
        print_draws(draw() % 64);
    else
        printf("-");
    printf(" 0 %u %u ", hash_len, pair->tag_len);
    print_draws(len);
    printf("\n");
}

int main(int argc, char **argv) {
    if (argc != 3)
        return 2;
    state = strtoull(argv[1], NULL, 10);
    for (long i = strtol(argv[2], NULL, 10); i > 0; i--)
        print_job();
    return 0;
}
