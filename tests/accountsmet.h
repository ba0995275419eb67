/* What the recordings so far had for the accounts to count. */
#ifndef ACCOUNTSMET_H
#define ACCOUNTSMET_H
#include "make.h"
void account_meet(const struct buffer *in, unsigned limit);
/* Prints the counts; gives 0 where something was never met. */
int account_met(void);
#endif
