/* The stepper's watchdog against the same said of a whole run. */
#ifndef SELFWATCHDOG_H
#define SELFWATCHDOG_H
#include "make.h"
/* Gives the runs compared, and adds those that differ. */
unsigned long selfwatchdog(int count, struct rng *g, unsigned long *differ);
#endif
