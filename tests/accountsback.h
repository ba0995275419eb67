/* Who used the bus, worked out over the whole recording. */
#ifndef ACCOUNTSBACK_H
#define ACCOUNTSBACK_H
#include "spur.h"
/* The slot's count over the first so many records, which conform. */
struct entry account_back(const struct record *at, size_t records, unsigned slot);
#endif
