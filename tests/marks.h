/* The boot report (document 02, wish 1): marks found in a recording, in order. */
#ifndef MARKS_H
#define MARKS_H
#include "spur.h"

enum { MOST_MARKS = 32, REPORT_TEXT = 4096 };
struct mark {
    unsigned slot, number;
};
struct report {
    struct judge j;
    struct tally t;
    struct mark marks[MOST_MARKS];
    size_t count, reached;
    uint64_t spans[MOST_MARKS]; /* at the START of each mark reached */
    uint32_t ends[MOST_MARKS];  /* records up to its ACK, that one counted */
    int pending;                /* the next mark's write is open */
    uint64_t begun;             /* the span at its START */
};
/* Gives the refusal, 0 for none. */
int report_fresh(struct report *p, unsigned limit, const struct mark *marks, size_t count);
int report_complete(const struct report *p);
/* Takes one record of 16 bytes while the report isn't complete, and gives what it breaks. */
struct verdict report_one(struct report *p, const uint8_t *bytes);
/* The lines for what has been taken: a breach or a refusal stopped it, or the end came. */
void report_text(const struct report *p, struct verdict v, int refusal, char *text);
/* What the program prints for a whole input; REPORT_TEXT is enough room. */
void report_program(unsigned limit, const struct mark *marks, size_t count, const uint8_t *bytes,
                    size_t len, char *text);
/* The same a second way, over the whole recording. */
void report_back(unsigned limit, const struct mark *marks, size_t count, const uint8_t *bytes,
                 size_t len, char *text);
#endif
