/* The schedule of decryption has the round keys from the last one down to the first, and those between went through INVMIXCOLUMNS (FIPS
 * 197, 5.3.5). The key is the first round key, and with 24 or 32 bytes half or all of the second one: so INVMIXCOLUMNS has to be undone for
 * that. Applied four times it gives what it was given, since the fourth power of its polynomial is 1 modulo x^4 + 1; and no part of AES
 * stands in C. So the round key is put three times more through the export that expands keys, as the second half of a key of 32 bytes. A
 * key that was found is kept in the manager's memory as long as a job uses it. */
#include "raw_key.h"

#include <string.h>

enum { ROUND_KEY = 16 };

/* INVMIXCOLUMNS of a round key, in place: that of the second round key in a schedule of decryption of 15 round keys. A key of that length
 * isn't refused. */
static void mix_inversely(uint8_t *round_key) {
    uint8_t key[LONGEST_KEY] = {0}, encryption[LONGEST_SCHEDULE], decryption[LONGEST_SCHEDULE];
    memcpy(key + ROUND_KEY, round_key, ROUND_KEY);
    if (proved.mbj_aes_keys(bytes_at(key, sizeof key), room_at(encryption, sizeof encryption), room_at(decryption, sizeof decryption)) ==
        MBJ_ERR_NONE)
        memcpy(round_key, decryption + LONGEST_SCHEDULE - 2 * ROUND_KEY, ROUND_KEY);
    wipe(key, sizeof key);
    wipe(encryption, sizeof encryption);
    wipe(decryption, sizeof decryption);
}

static void find(const uint8_t *second_round_key, size_t len, uint8_t *rest_of_key) {
    uint8_t round_key[ROUND_KEY];
    memcpy(round_key, second_round_key, ROUND_KEY);
    for (int i = 0; i < 3; i++)
        mix_inversely(round_key);
    memcpy(rest_of_key, round_key, len - ROUND_KEY);
    wipe(round_key, sizeof round_key);
}

/* Whether they are the same, in a time that doesn't tell where they differ. */
static bool are_same(const uint8_t *a, const uint8_t *b, size_t len) {
    uint8_t differing = 0;
    for (size_t i = 0; i < len; i++)
        differing |= a[i] ^ b[i];
    return differing == 0;
}

/* The first place depends on where the schedule is, and not on the key: on all bits of its address, by the golden ratio of 2^64 (Knuth, The
 * Art of Computer Programming, 6.4), since sessions often lie a power of two apart. */
static size_t first_place(const void *schedule) {
    return (size_t)(((uintptr_t)schedule * UINT64_C(0x9e3779b97f4a7c15)) >> (64 - FOUND_KEY_BITS));
}

/* The place of these round keys, or a free one, from the first one on. */
static struct found_key *place_of(struct dropin *d, const void *schedule, const uint8_t *round_keys, size_t len) {
    struct found_key *found = &d->found[first_place(schedule)];
    while (found->users != 0 && !(found->len == len && are_same(found->round_keys, round_keys, sizeof found->round_keys)))
        found = found == &d->found[FOUND_KEYS - 1] ? d->found : found + 1;
    return found;
}

uint16_t use_key_of_decryption(struct dropin *d, const void *schedule, size_t len, uint8_t *key) {
    const uint8_t *last = (const uint8_t *)schedule + ROUND_KEY * (len / 4 + 6), *round_keys = last - ROUND_KEY;
    if (len == ROUND_KEY) {
        memcpy(key, last, ROUND_KEY);
        return 0;
    }
    struct found_key *found = place_of(d, schedule, round_keys, len);
    if (found->users++ == 0) {
        memcpy(found->round_keys, round_keys, sizeof found->round_keys);
        memcpy(found->key, last, ROUND_KEY);
        find(round_keys, len, found->key + ROUND_KEY);
        found->len = (uint32_t)len;
    }
    memcpy(key, found->key, len);
    return (uint16_t)(found - d->found + 1);
}

void leave_key(struct dropin *d, uint16_t number) {
    if (number != 0 && --d->found[number - 1].users == 0)
        wipe(&d->found[number - 1], sizeof d->found[number - 1]);
}
