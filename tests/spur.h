/* An independent model of document 01 and of document 02's wishes so far, used to test the programs
   from outside. It is written from the documents alone and shares nothing with the library. */
#ifndef SPUR_H
#define SPUR_H

#include <stddef.h>
#include <stdint.h>

enum { SLOTS = 16, WATCHDOG = 256, MOST_WORDS = 16, RECORD = 16, NOBODY = 255, NONE = 255 };
/* The watchdog restarts with each word (document 02, wish 5), so a transfer may last its 256 cycles for
   each of sixteen words: START to START that is 4,097 cycles, and so is START to ACK, both ends counted. */
enum { LONGEST = WATCHDOG * MOST_WORDS + 1 };
#define MOST_RECORDS ((uint64_t)1 << 30)

/* --- records (01, "The line record") --- */
struct record {
    uint32_t stamp;
    uint8_t reset, rqst, arb, start, ack, tm1, tm0, sp, spv;
    uint32_t ad;
    uint8_t vtm1, vtm0, vack, vsack;
    uint64_t vad;
};
int record_pack(const struct record *r, uint8_t *buf, size_t len, size_t at);
int record_unpack(struct record *r, const uint8_t *buf, size_t len, size_t at);
unsigned record_read(struct record *r, const uint8_t *bytes); /* gives the spare bits */
void record_write(const struct record *r, uint8_t *bytes);
int record_inactive(const struct record *r);

/* --- codes (01, "START codes") --- */
enum unit { BYTE, HALF, WORD, BLOCK2, BLOCK4, BLOCK8, BLOCK16, UNITS };
struct operation {
    uint8_t write, unit;
    uint32_t address;
};
/* A START decoded: its operation and, beside it, the byte lanes of the enclosing word that carry the
   unit, bit k for lane k (document 02, wish 4). An operation has its code without them, so the encoder
   takes none. */
enum { LANES = 4 };
struct decoded {
    struct operation op;
    uint8_t lanes; /* 0 for a code with no meaning */
};
int code_decode(struct decoded *d, int tm1, int tm0, uint32_t ad);
int code_encode(const struct operation *op, uint8_t *tm1, uint8_t *tm0, uint32_t *ad);
int code_words(int unit);
uint32_t code_size(int unit); /* bytes */
int code_status(int tm1, int tm0);
int code_parity(uint32_t ad);
enum { AGAIN, TIMEOUT, ERROR, SUCCESS };

/* --- the contest (01, "The contest") --- */
unsigned contest_lines(unsigned set);
int contest_winner(unsigned set); /* -1 for none */

/* --- one bus cycle (01, "One bus cycle") --- */
struct bus {
    uint16_t wave;
    uint8_t settling, turn, owner, limit; /* owner NOBODY for none */
    uint8_t open, owed, age;
};
struct node {
    uint8_t wants, holds, words;
};
enum { NOTHING, STROBE, FINISH };
enum { NOTE_NONE, NOTE_SHORT, NOTE_EXTRA, NOTE_STRAY };
struct answer {
    uint8_t rqst, start, ack, starter, status, note;
};
int bus_fresh(struct bus *b, unsigned limit);
int bus_bounds(const struct bus *b); /* 1 if within */
int bus_cycle(struct bus *b, int reset, int event, int status, const struct node *nodes,
              size_t count, struct answer *a);

/* --- cache blocks (01, "Cache blocks") --- */
struct cache {
    uint8_t *states;
    uint32_t *copies, *memory;
    size_t nstates, ncopies, nmemory;
};
int cache_read(struct cache *c, unsigned slot, unsigned block, uint32_t *value);
int cache_write(struct cache *c, unsigned slot, unsigned block, uint32_t value);
int cache_evict(struct cache *c, unsigned slot, unsigned block);
int cache_coherent(const struct cache *c, unsigned block);

/* --- the judge (01, "The judge") --- */
struct judge {
    uint8_t limit;
    uint8_t has_stamp, rqst1, rqst2; /* RQST in the last record's cycle, and one before that */
    uint32_t stamp;
    uint8_t started;         /* a wave's START since the last reset */
    uint8_t owner;           /* the slot that the last such START's ARB shows */
    uint8_t turn, arb, since; /* the wave's STARTs at its last ARB, 0 for none; cycles since */
    uint8_t open, words, strobes;
    uint16_t age;  /* cycles since its START or its last strobe */
    uint32_t busy; /* cycles of the open transfer so far, its START's counted */
};
struct tally {
    uint32_t records;
    uint64_t span;
    uint32_t starts, acks, aborted;
};
/* What rule 8 says at once (document 02, wish 2): 8a parking with no owner since the reset, 8b RQST
   active for too few cycles, 8c too soon after the wave's last START. */
enum { NO_OWNER = 1, TOO_FEW, TOO_SOON, KINDS };
struct verdict {
    int rule; /* 0 for none */
    int kind; /* of rule 8, 0 for another */
    uint32_t record;
    uint64_t span; /* at the breach's record */
};
#define NO_BREACH ((struct verdict){0})
int judge_fresh(struct judge *j, unsigned limit);
int tally_bounds(const struct tally *t);
int judge_bounds(const struct judge *j, const struct tally *t);
uint32_t judge_broken(const struct judge *j, const struct record *r, unsigned spare);
/* The kinds of rule 8 that the record breaks, bit k for kind k. */
uint32_t judge_early(const struct judge *j, const struct record *r);
int judge_lowest(uint32_t broken); /* 0 for none */
void judge_take(struct judge *j, struct tally *t, const struct record *r);
struct verdict judge_one(struct judge *j, struct tally *t, const uint8_t *bytes);
int judge_recording(struct judge *j, struct tally *t, const uint8_t *bytes, size_t len,
                    struct verdict *v);
/* What the judging program prints for a whole input; TEXT is enough room. The limit is 16 where the
   program is given none. */
enum { TEXT = 256, NO_LIMIT_GIVEN = 16 };
/* Gives the exit status. */
int judge_program(unsigned limit, const uint8_t *bytes, size_t len, char *text);
void judge_text(const struct tally *t, int open, struct verdict v, int refusal, char *text);
void judge_breach_line(struct verdict v, char *text, size_t room);

/* --- who used the bus (document 02, wish 3) --- */
struct entry {
    uint32_t starts;
    uint64_t busy; /* START to ACK or abort, both ends counted */
};
/* What the record adds to its slot's entry, seen from the judge before it; it breaks no rule. */
void account_take(struct entry *account, const struct judge *before, const struct record *r);
/* As the judge's functions, with an account of so many entries beside the tally. */
int account_bounds(const struct entry *e, const struct tally *t);
struct verdict account_one(struct judge *j, struct tally *t, struct entry *account,
                           const uint8_t *bytes);
int account_recording(struct judge *j, struct tally *t, struct entry *account, size_t entries,
                      const uint8_t *bytes, size_t len, struct verdict *v);
int account_slot(const struct tally *t, const struct entry *account, size_t entries, unsigned slot,
                 struct entry *e);
/* The sixteen lines, and all that the program prints; ACCOUNT_TEXT is enough room for that. */
enum { ACCOUNT_TEXT = TEXT + SLOTS * 64 };
void account_lines(const struct entry *account, char *text, size_t room);
int account_program(unsigned limit, const uint8_t *bytes, size_t len, char *text);

/* --- the driver program's calls --- */
enum { CALL = 64, ENTRIES = 17 };
struct driver {
    struct bus bus;
    struct judge judge;
    struct tally tally;
    uint8_t states[65 * SLOTS];
    uint32_t copies[65 * SLOTS], memory[65];
    size_t nstates, ncopies, nmemory;
    struct entry account[ENTRIES];
    /* Raw settings of the judge whose meaning the paper leaves to the build. */
    int loose_turn, loose_age, loose_owner, unknown;
};
void driver_start(struct driver *d);
/* Gives 1 if the answer is settled by the paper, 0 if it isn't to be compared. */
int driver_call(struct driver *d, const uint8_t *call, uint8_t *answer);

#endif
