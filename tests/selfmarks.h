/* The model's boot report against its second way. */
#ifndef SELFMARKS_H
#define SELFMARKS_H
#include "make.h"
/* Gives how many were compared, and adds those that differ. */
unsigned long selfmarks(int count, struct rng *g, unsigned long *differ);
#endif
