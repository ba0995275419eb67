/* What the recordings so far had for the watchdog of document 02's wish 5. */
#ifndef WATCHDOGMET_H
#define WATCHDOGMET_H
#include "make.h"
void watchdog_meet(const struct buffer *in, unsigned limit);
/* Prints the counts; gives 0 where something was never met. */
int watchdog_met(void);
#endif
