/* A job as the proved code takes it. */
#ifndef COMPAT_RAW_FORM_H
#define COMPAT_RAW_FORM_H

#include "manager.h"

/* A job's description, and the bytes that it points to, if they aren't the application's own. */
struct raw_form {
    struct mbj_raw_job *raw;
    uint16_t found;  /* the number of a key that was found, which is left once the job is back */
    size_t gathered; /* where its packet begins among those that are gathered, if it is one */
    uint8_t key[LONGEST_KEY], states[LONGEST_STATES];
};

/* A job that does nothing, with its description there. */
void fill_nothing(struct raw_form *form, struct mbj_raw_job *raw);

/* Fill in the cipher, the authentication or an AEAD of a job, and not yet the packet. */
void fill_cipher(struct dropin *d, struct raw_form *form, const IMB_JOB *job);
void fill_hash(struct raw_form *form, const IMB_JOB *job);
void fill_aead(struct raw_form *form, const IMB_JOB *job);

/* Fills in the packet of a job that isn't one of an AEAD. False if its ranges don't fit into one. */
bool fill_ranges(struct dropin *d, struct raw_form *form, const IMB_JOB *job);

/* Fills in a whole job that isn't one of those that are done at once, with its description there. Its packet, if it is gathered, begins
 * behind so many bytes of others. False if its ranges don't fit into one: then nothing is left of it. */
bool fill_job(struct dropin *d, struct raw_form *form, struct mbj_raw_job *raw, const IMB_JOB *job, size_t gathered);

/* The most bytes that such a job may gather. */
size_t most_gathered(const IMB_JOB *job);

/* The proved code has copied the job, or refused it: of keys, states and a packet nothing stays here. */
void forget_form(struct dropin *d, struct raw_form *form);

/* Whether two ranges have a byte in common. */
bool overlap(const void *a, uint64_t a_len, const void *b, uint64_t b_len);

#endif
