/* Comparing a program's answers with the model's, and making a disagreement small. */
#ifndef COMPARE_H
#define COMPARE_H
#include "run.h"

/* What a program is to print for a recording; MOST_TEXT is enough room. Gives the exit status, for a
   program that has one. */
enum { MOST_TEXT = 4096 };
typedef int recording_model(const void *with, const uint8_t *bytes, size_t len, char *text);

/* Where and how a program's output differs from the model's: the unit (call or record) at which
   it is told, or -1 for none. */
struct subject_program {
    const char *command;
    size_t unit;     /* 64 for calls, 16 for records */
    struct feed feed;
    int seconds;
    int statuses;    /* the exit status is to be 0, 1, 2 by verdict */
    recording_model *model; /* of another program than the judge, else NULL */
    const void *with;
};
long disagree(const struct subject_program *p, const struct buffer *in, FILE *say);
/* Drops units and clears bytes while the disagreement stays. */
void shrink(const struct subject_program *p, struct buffer *in);

/* What the answers met so far covered. */
enum { OPERATIONS = 26 };
struct coverage {
    unsigned long calls, skipped, by_op[256], refusals[256], rules[14], notes[4];
    unsigned long kinds[KINDS], far; /* of rule 8; breaches at a span of 2^32 or more */
    unsigned long op_refusal[OPERATIONS][9];
    unsigned long lanes[1 << LANES]; /* of the decoder's answers (02, wish 4), refused ones too */
    /* Of cycles in which the watchdog's timer is due, by event and whether a word beside the last is owed;
       and strobes taken one cycle before it (02, wish 5). */
    unsigned long due[3][2], before_due;
};
extern struct coverage covered;
#endif
