/* A sample whose results differ is done once more by both libraries, so that a fault that passes is told from one that stays. */
#ifndef SHADOW_AGAIN_H
#define SHADOW_AGAIN_H

#include "verdict.h"

/* What a library answered when it was asked once more. */
enum answer { ANSWER_NONE, ANSWER_SAME, ANSWER_OTHERS, ANSWER_NEW };

struct again {
    enum answer intel, proved; /* SAME: its own first answer; OTHERS: the first one of the other library; NEW: neither */
};

struct again do_again(const struct sample *sample, const struct made *made);

/* A proved manager that has no job, or NULL if there is no memory. */
IMB_MGR *empty_proved_manager(void);

/* In a child of a fork. */
void again_forget(void);

#endif
