/* Recordings with marks among writes that are nearly marks. */
#ifndef MARKED_H
#define MARKED_H
#include "make.h"
#include "marks.h"

/* What stands near a mark; only the first and the second are the mark itself. */
enum near {
    THE_MARK, FOLDED, /* AD19 to AD6 zero, and any */
    ENDS_IN_ERROR, TIMES_OUT, TRY_AGAIN,
    RESET_BETWEEN, RESET_WITH_ACK, RESET_WITH_START, ATTENTION, NO_START,
    A_READ, A_BYTE, A_HALFWORD, A_BLOCK,
    NOT_F, NOT_LOW, NUMBER_HIGHER, OTHER_SLOT, OTHER_NUMBER, EXCHANGED, ANYTHING,
    NEARS
};
extern const char *const near_names[NEARS];
extern unsigned long near_made[NEARS];

/* Adds a transfer, or whatever is near it, that conforms. */
void marked_near(struct maker *m, struct mark k, enum near kind);
/* Some marks, of few slots and numbers, so that they are alike. */
size_t marked_choose(struct rng *g, struct mark *marks);
/* A boot with all marks in order, but for the one at the place left out (count for none), and up to
   so many near ones before each. */
void marked_boot(struct maker *m, const struct mark *marks, size_t count, size_t left_out,
                 unsigned crowd);
/* So many records without lines, each as far from the one before as rule 2 allows. */
void marked_far(struct maker *m, unsigned records);
/* A mark's START at the end, its ACK not there yet. */
void marked_open(struct maker *m, struct mark k);
/* A next record that breaks a rule. */
void marked_break(struct maker *m);
#endif
