/* The parts of the test of the boot report's program. */
#ifndef PHASES_H
#define PHASES_H
#include "run.h"
struct options {
    const char *program;
    int count, seconds, first, unshrunk;
};
extern struct options options;
void phases_outcome(int good);
/* What the program makes of its words. */
void phases_words(void);
#endif
