/* A list of calls in the making, with the model's driver that has followed it so far. */
#ifndef CALLER_H
#define CALLER_H

#include "make.h"

struct caller {
    struct buffer *out;
    struct rng *g;
    struct driver d;
    uint32_t accounts; /* the chance in a hundred that a judging has an account */
    uint8_t call[CALL], answer[CALL];
};
void caller_start(struct caller *c, struct buffer *out, struct rng *g);
void caller_clear(struct caller *c, int op); /* unnamed bytes hold anything: they are ignored */
void caller_number(struct caller *c, int at, int bytes, uint64_t v);
void caller_issue(struct caller *c);
int caller_full(const struct caller *c, size_t calls);

/* Calls on the judge. */
void call_piece(struct caller *c, const uint8_t *bytes, size_t len); /* 20 or 23 */
void call_set_tally(struct caller *c, const struct tally *t);
void call_set_judge(struct caller *c, const struct judge *j);
void call_fresh(struct caller *c, unsigned limit);

/* Calls on its account (document 02, wish 3). */
uint8_t account_lent(struct rng *g);        /* how many entries: sixteen, seldom another number */
void account_between(struct caller *c);     /* questions and raw entries between judgings */
void account_again(struct caller *c);       /* what was refused for its account, once more */
void account_scene(struct caller *c);       /* a few calls on a fresh judge */

#endif
