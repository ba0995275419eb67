/* The model's accounts against their second form. */
#ifndef SELFACCOUNTS_H
#define SELFACCOUNTS_H
#include "make.h"
/* A recording of which so many records conform; gives 1 if all is right with its accounts. */
int selfaccounts_check(struct rng *g, const struct buffer *in, unsigned limit, size_t records);
/* Recordings made for the accounts; gives how many were compared, and adds those that differ. */
unsigned long selfaccounts(int count, struct rng *g, unsigned long *differ);
#endif
