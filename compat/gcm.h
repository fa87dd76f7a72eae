/* GCM and GMAC without a manager's jobs. */
#ifndef COMPAT_GCM_H
#define COMPAT_GCM_H

#include "builds.h"
#include "imb.h"
#include "keys.h"

/* The bytes of a whole tag (SP 800-38D, 5.2.1.2). */
enum { GCM_TAG_BYTES = 16 };

/* A text that is sealed or opened from one place to another, and its tag. */
struct gcm_text {
    uint32_t dir; /* enum mbj_dir */
    struct mbj_bytes key, iv, aad;
    uint8_t *out;
    const uint8_t *in;
    uint64_t len;
    uint8_t *tag;
    size_t tag_len;
};

/* Seals or opens a text of any length. Returns the refusal. */
uint32_t gcm_whole(const struct gcm_text *text);

/* A job of GCM that is longer than a packet, and one that does a part of a text. Each returns the refusal. */
uint32_t gcm_long_job(const struct gcm_key_data *key, const IMB_JOB *job);
uint32_t gcm_job_in_parts(const struct gcm_key_data *key, const IMB_JOB *job);

/* The parts of a text under a key of so many bytes. A context holds what the exports need between the parts, but for the key, which each
 * call is given again. Each returns the refusal. */
uint32_t gcm_begin(struct gcm_context_data *context, const struct gcm_key_data *key, size_t key_len, struct mbj_bytes iv,
                   struct mbj_bytes aad);
uint32_t gcm_part(struct gcm_context_data *context, const struct gcm_key_data *key, size_t key_len, uint32_t dir, uint8_t *out,
                  const uint8_t *in, uint64_t len);
uint32_t gcm_end(struct gcm_context_data *context, const struct gcm_key_data *key, size_t key_len, uint8_t *tag, size_t tag_len);

/* Sets the functions of gcm_calls.c and of gmac.c in the manager's table. */
void set_gcm_functions(IMB_MGR *m);
void set_gmac_functions(IMB_MGR *m);

#endif
