/* Calls without a manager: key schedules, subkeys, states and digests, texts by GCM and CCM, and GMAC. They are exports of the library, and
 * proved. */
#ifndef MBJ_DIRECT_H
#define MBJ_DIRECT_H

#include "mbj.h"

#ifdef __cplusplus
extern "C" {
#endif

/* The calls need no manager, and any threads may make them at once. But for those on CCM they take no memory. Each returns MBJ_ERR_NONE or
 * a refusal; a refused call writes nothing, but that MBJ_ERR_TAG clears the text. MBJ_ERR_WORD: a number is no hash or no direction.
 * MBJ_ERR_NO_ROOM: a room is shorter than what is written. In a longer room the rest stays as it was; but a tag fills its room. No pointer
 * is NULL, also with a length of 0. */

/* Writes the states of a key for the authentications from MBJ_AUTH_HMAC_SHA_1_STATES on (RFC 2104, 4): the inner state and the outer state
 * behind it, whole and big-endian, together 40, 64, 64, 128 or 128 bytes. The key may have any length. They are as secret as the key. */
MBJ_CHECKED
mbj_err mbj_hmac_states(uint32_t hash, struct mbj_bytes key, struct mbj_room out);

/* Writes the state of a hash behind one block, whole and big-endian: 20, 32, 32, 64 or 64 bytes. MBJ_ERR_TEXT_LENGTH if the block hasn't
 * 64 bytes, or 128 for SHA-384 and SHA-512. */
MBJ_CHECKED
mbj_err mbj_one_block(uint32_t hash, struct mbj_bytes block, struct mbj_room out);

/* Writes the schedules of an AES key of 16, 24 or 32 bytes: 176, 208 or 240 bytes each. encryption is that of FIPS 197, 5.2, and
 * decryption that of the equivalent inverse cipher (5.3.5), in the order in which it takes the round keys, from the last round down: as
 * intel-ipsec-mb has both. MBJ_ERR_KEY_LENGTH if the key has another length. */
MBJ_CHECKED
mbj_err mbj_aes_keys(struct mbj_bytes key, struct mbj_room encryption, struct mbj_room decryption);

/* Writes the subkeys of a key of CMAC of 16 or 32 bytes, K1 and K2 (SP 800-38B, 6.1): 16 bytes each. MBJ_ERR_KEY_LENGTH if the key has
 * another length. */
MBJ_CHECKED
mbj_err mbj_cmac_subkeys(struct mbj_bytes key, struct mbj_room first, struct mbj_room second);

/* Writes the digest of a text: 20, 28, 32, 48 or 64 bytes by the hash. */
MBJ_CHECKED
mbj_err mbj_digest(uint32_t hash, struct mbj_bytes text, struct mbj_room out);

/* Seals a text in place by GCM (SP 800-38D, 7.1), and fills tag with the first bytes of its tag: MBJ_ERR_KEY_LENGTH if the key hasn't
 * 16, 24 or 32 bytes, MBJ_ERR_IV_LENGTH if the IV hasn't 1 to 65,535, MBJ_ERR_TAG_LENGTH if tag hasn't 1 to 16. */
MBJ_CHECKED
mbj_err mbj_gcm_seal(struct mbj_bytes key, struct mbj_bytes iv, struct mbj_bytes aad, struct mbj_room text, struct mbj_room tag);

/* Opens a text in place by GCM (SP 800-38D, 7.2) that came with a tag. If that is the tag of the text, returns MBJ_ERR_NONE: the text is
 * the plaintext then. If it isn't, returns MBJ_ERR_TAG: the text is all zeros then. They are compared in constant time. Other refusals
 * are those of mbj_gcm_seal. */
MBJ_CHECKED
mbj_err mbj_gcm_open(struct mbj_bytes key, struct mbj_bytes iv, struct mbj_bytes aad, struct mbj_room text, struct mbj_bytes tag);

/* Decrypts a text in place by GCM whatever tag it came with, and fills tag with the first bytes of the one that it should have come with.
 * The caller compares them, by mbj_is_same_tag, before anything looks at the text. Refusals are those of mbj_gcm_seal. */
MBJ_CHECKED
mbj_err mbj_gcm_decrypt_unverified(struct mbj_bytes key, struct mbj_bytes iv, struct mbj_bytes aad, struct mbj_room text,
                                   struct mbj_room tag);

/* The state of a text by GCM that comes in parts. It holds the key, and is as secret. Only the next three calls write it. If other code
 * did, they refuse it, or compute a wrong text and a wrong tag. In front are 32 bytes for the key, its length and the direction, both
 * uint32_t. A program that stores a state may leave the key out and put it back, and may set the direction before the first part. */
struct mbj_gcm_state {
    uint64_t words[15];
};

/* mbj_gcm_init begins a text that is sealed (MBJ_DIR_ENCRYPT) or decrypted; mbj_gcm_update does its next part in place, of any length; and
 * mbj_gcm_finish fills tag with the first bytes of its tag, and clears the state. They compare nothing: of a text that was decrypted no
 * part may be used before the caller has compared the tag that came with it, by mbj_is_same_tag. However a text is cut into parts, they
 * become what the whole text becomes, and the tag is the same. Refusals are those of mbj_gcm_seal, and MBJ_ERR_NO_STATE if the state is
 * none, as after mbj_gcm_finish. Each update expands the key anew, so few long parts take less time than many short ones. */
MBJ_CHECKED MBJ_NONNULL
mbj_err mbj_gcm_init(struct mbj_gcm_state *state, uint32_t dir, struct mbj_bytes key, struct mbj_bytes iv, struct mbj_bytes aad);
MBJ_CHECKED MBJ_NONNULL
mbj_err mbj_gcm_update(struct mbj_gcm_state *state, struct mbj_room part);
MBJ_CHECKED MBJ_NONNULL
mbj_err mbj_gcm_finish(struct mbj_gcm_state *state, struct mbj_room tag);

/* The state of GMAC of data that comes in parts: plain bytes. A copy goes on by itself, and one that isn't finished leaves nothing behind.
 * Tags can be forged by what it holds, so it is as secret as the key, which it doesn't hold. */
struct mbj_gmac_state {
    uint64_t words[10];
};

/* GMAC (SP 800-38D, 3.1): mbj_gmac_init begins, mbj_gmac_update takes the next part of the data, of any length, and mbj_gmac_finish fills
 * tag with the first bytes of its tag, and clears the state. However data is cut into parts, its tag is the same. Refusals are those of
 * mbj_gcm_seal, and MBJ_ERR_NO_STATE if the state is none, as after mbj_gmac_finish. */
MBJ_CHECKED MBJ_NONNULL
mbj_err mbj_gmac_init(struct mbj_gmac_state *state, struct mbj_bytes key, struct mbj_bytes iv);
MBJ_CHECKED MBJ_NONNULL
mbj_err mbj_gmac_update(struct mbj_gmac_state *state, struct mbj_bytes part);
MBJ_CHECKED MBJ_NONNULL
mbj_err mbj_gmac_finish(struct mbj_gmac_state *state, struct mbj_room tag);

/* Seals a text of at most 65,535 bytes in place by CCM (SP 800-38C, 6.1), and fills tag with its tag, which is as long as tag. It copies
 * the nonce, the additional data and the text, and returns MBJ_ERR_MEMORY if memory runs out. MBJ_ERR_KEY_LENGTH if the key hasn't
 * 16, 24 or 32 bytes, MBJ_ERR_IV_LENGTH if the nonce hasn't 7 to 13, MBJ_ERR_AAD_LENGTH if aad has more than 65,279,
 * MBJ_ERR_TEXT_LENGTH if the text is longer, MBJ_ERR_TAG_LENGTH if tag hasn't 4, 6, 8, 10, 12, 14 or 16. */
MBJ_CHECKED
mbj_err mbj_ccm_seal(struct mbj_bytes key, struct mbj_bytes nonce, struct mbj_bytes aad, struct mbj_room text, struct mbj_room tag);

/* Opens a text in place by CCM (SP 800-38C, 6.2) that came with a tag, as mbj_gcm_open does. Other refusals are those of mbj_ccm_seal. */
MBJ_CHECKED
mbj_err mbj_ccm_open(struct mbj_bytes key, struct mbj_bytes nonce, struct mbj_bytes aad, struct mbj_room text, struct mbj_bytes tag);

/* Decrypts a text in place by CCM whatever tag it came with, as mbj_gcm_decrypt_unverified does. Refusals are those of mbj_ccm_seal. */
MBJ_CHECKED
mbj_err mbj_ccm_decrypt_unverified(struct mbj_bytes key, struct mbj_bytes nonce, struct mbj_bytes aad, struct mbj_room text,
                                   struct mbj_room tag);

MBJ_ASSERT_(sizeof(struct mbj_gcm_state) == 120);
MBJ_ASSERT_(sizeof(struct mbj_gmac_state) == 80);

#ifdef __cplusplus
}
#endif
#endif
