/* Makers of recordings and of calls: random numbers, growing buffers, traffic, damage. */
#ifndef MAKE_H
#define MAKE_H

#include "spur.h"

struct rng {
    uint64_t state;
};
uint64_t rng_next(struct rng *g);
uint32_t rng_below(struct rng *g, uint32_t n); /* 0 to n - 1 */
int rng_chance(struct rng *g, uint32_t percent);
uint32_t rng_word(struct rng *g); /* any word, the odd ones often */

struct buffer {
    uint8_t *bytes;
    size_t len, room;
};
void buffer_add(struct buffer *b, const uint8_t *bytes, size_t len);
void buffer_free(struct buffer *b);

/* A recording in the making, with the judge that has followed it so far. */
struct maker {
    struct buffer out;
    struct judge j;
    struct tally t;
    struct rng *g;
    struct entry stepped[SLOTS]; /* who used the simulated bus, by the stepper's answers */
};
void maker_start(struct maker *m, struct rng *g, unsigned limit);
/* Adds the record if it breaks no rule, and gives the rules that it breaks. */
uint32_t maker_try(struct maker *m, const struct record *r, unsigned spare);
void maker_add_raw(struct maker *m, const struct record *r, unsigned spare);
void record_spare_write(const struct record *r, unsigned spare, uint8_t *bytes);

/* Sound traffic: from a simulated bus, and from whatever the rules allow. */
void traffic_bus(struct maker *m, size_t records);
void traffic_boot(struct maker *m, size_t records);
void traffic_wild(struct maker *m, size_t records);
/* Made for the accounts; with late aborts, so that a slot may be busy for 2^32 cycles or more, or with late
   words, so that a transfer may be for 4,097 (document 02, wish 5). */
enum owners { PLAIN_OWNERS, LATE_ABORTS, LATE_WORDS };
void traffic_owners(struct maker *m, size_t records, enum owners how);
/* Made for the watchdog, with one of so many endings; some break a rule in their last record. */
enum { SLOW_ENDINGS = 24 };
void traffic_slow(struct maker *m, unsigned ending);
void wild_propose(struct maker *m, struct record *r, unsigned *spare, unsigned chaos);
int wild_setup(struct maker *m, int rule); /* brings the judge near the rule; 1 if it could */
int wild_early(struct maker *m, int kind); /* near the kind of rule 8 */
int wild_open(struct maker *m, int unit, int rqst); /* opens a transfer in a wave; 1 if it could */
void wild_far(struct maker *m, uint32_t records); /* each as far from the last as rule 2 allows */
void noise(struct rng *g, struct record *r);

/* A recording whose first breach is of the rule, of rule 8 of the kind (0 for any); gives all rules
   broken there. */
uint32_t damage(struct maker *m, int rule, int kind);
/* No record up to the first breach breaks 8b and 8c at once, nor would a START in the cycle after
   any of them (document 02, wish 2). */
int never_both(const struct buffer *in, unsigned limit);

/* Calls for the driver program, by subject. */
enum subject { CODES, RECORDS, BUS, CACHE, JUDGE, ACCOUNTS, ANY, EVERY_CODE, SUBJECTS };
extern const char *const subject_names[SUBJECTS];
void make_calls(struct buffer *out, struct rng *g, enum subject s, size_t calls);
void calls_bus(struct buffer *out, struct rng *g, size_t calls);
void calls_cache(struct buffer *out, struct rng *g, size_t calls);
/* So many in a hundred of the judgings have an account. */
void calls_judge(struct buffer *out, struct rng *g, size_t calls, uint32_t accounts);

#endif
