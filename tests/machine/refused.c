/* Functions whose machine code `secrets` must refuse: by a table in memory, by a branch, by a division, and by a sum where lookups in
 * registers are wanted. */
#include <stdint.h>
#include <string.h>

extern const uint8_t sbox[256];

void by_table(uint8_t *schedule, const uint8_t *key, size_t len) {
    memcpy(schedule, key, len);
    for (size_t i = len; i < 4 * (len + 28); i += 4)
        for (size_t j = 0; j < 4; j++)
            schedule[i + j] = schedule[i + j - len] ^ sbox[schedule[i - 4 + (j + 1) % 4]];
}

void by_branch(uint8_t *schedule, const uint8_t *key, size_t len) {
    for (size_t i = 0; i < len; i++) {
        if (key[i] >= 0x80)
            schedule[2 * i] ^= schedule[0];
        schedule[i] = key[i];
    }
}

void by_division(uint8_t *schedule, const uint8_t *key, size_t len) {
    for (size_t i = 1; i < len; i++)
        schedule[i] = (uint8_t)(key[i] / (key[i - 1] | 1));
}

void by_sum(uint8_t *schedule, const uint8_t *key, size_t len) {
    for (size_t i = 0; i < len; i++)
        schedule[i] = key[i] ^ 0x63;
}
