/* Faults in the world around the judging program, the boot report's and the accounts'. */
#ifndef FAULTS_H
#define FAULTS_H
#include "run.h"
struct settings {
    const char *command; /* of the program under test, with its words */
    const char *phases;  /* the boot report's program, without words, or NULL */
    const char *accounts; /* the accounts' program, or NULL */
    int counting;        /* the program under test is that one */
    unsigned long megabytes; /* of random bytes, and of the long recording whose memory is measured */
    int boundary, bound, seconds; /* all runs at 2^30 records; one of them, 0 for none */
    int quick; /* without torn ends and small pieces */
    unsigned long seed;
};
extern struct settings set;
void outcome(int good, const char *what, const char *detail);
/* Whether the program printed exactly this text, in time. */
int printed(const struct result *r, const char *text);
/* Runs the program over the bytes, which is to print what the model does. */
void compare_bytes(const char *what, const uint8_t *bytes, size_t len, struct feed feed);
/* Puts the account's lines behind the judge's text, where the program under test has them. */
void add_lines(const struct entry *account, char *text);
/* Inputs that can't be read, and outputs that can't be written. */
void failing_input(struct rng *g);
void failing_output(struct rng *g);

/* A block of sound traffic that starts and ends at a reset, so that it can be repeated: only the
   stamps move on. */
enum { BLOCK = 4096 }; /* records written at once */
struct block {
    uint8_t bytes[BLOCK * RECORD];
    struct tally t;    /* of one block, the step from the block before included in the span */
    struct entry account[SLOTS];
    uint32_t stamps[BLOCK];
};
struct block *make_block(unsigned long seed);
struct tally blocks_tally(const struct block *b, uint64_t blocks); /* of so many blocks */
void blocks_account(const struct block *b, uint64_t blocks, struct entry *account);
void set_stamps(struct block *b, uint32_t base);
/* A writer of so many blocks. */
struct stream {
    struct block *block;
    uint64_t blocks;
};
void write_stream(int to, void *with);
/* Runs a writer, compares the text, and gives the memory used in KiB, or -1. */
long run_stream(const char *what, writer *write, void *with, uint64_t records, const char *text);

void big_random(int small); /* so many small inputs and three big ones */
void big_memory(void);
/* The same memory at 1 MiB and at the size asked for; the text is told of so many blocks. */
typedef void blocks_text(const struct block *b, uint64_t blocks, char *text);
void steady_memory(blocks_text *text);

/* The runs at 2^30 records, the judging program's first; all, or the one that is asked for. */
enum { JUDGE_BOUNDS = 7, PHASE_BOUNDS = 5, ACCOUNT_BOUNDS = 3 };
int bound_wanted(int number);
void big_boundary(void);
void phase_boundary(void);
void account_boundary(void);
void phase_faults(struct rng *g);
void account_faults(struct rng *g);
#endif
