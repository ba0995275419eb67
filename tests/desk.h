/* The analyst's desk: what its five programs print, and the parts of the test of them. */
#ifndef DESK_H
#define DESK_H
#include "run.h"

/* What a program says: its standard output, and what its one line on standard error begins with, NULL
   where there is none. */
struct said {
    struct buffer out;
    const char *complaint;
};
void buffer_say(struct buffer *b, const char *format, ...) __attribute__((format(printf, 2, 3)));

/* --- the model in place of the programs --- */
/* A figure among a program's words has at most so many digits. */
enum { DIGITS = 19 };
/* Digits alone, at most so many; 0 if the word is no such number. A number over 64 bits is the greatest. */
int desk_number(const char *word, size_t most, uint64_t *n);
struct said quote_program(char **words, size_t count);
struct said seconds_program(char **words, size_t count);
struct said fleet_program(char **words, size_t count);

/* Records shown one by one: rows, or a dump. */
struct shower {
    int dump;
    uint64_t from, to, places; /* places: the records met so far */
    uint64_t cycle, shown;
    uint32_t stamp;
    struct record last; /* the last one shown */
};
extern const char no_record[], torn_end[], too_many[];
int shower_fresh(struct shower *s, char **words, size_t count); /* 0 where the words are wrong */
int shower_done(const struct shower *s); /* no record behind is asked for */
void shower_one(struct shower *s, const uint8_t *bytes, struct buffer *out);
/* The end of the dump, and the complaint, NULL for none. */
const char *shower_end(struct shower *s, int torn, struct buffer *out);
struct said show_program(char **words, size_t count, const uint8_t *bytes, size_t len);

/* Why a record breaks its rule, from the judge's state before it. */
struct cause {
    uint64_t found, bound;
};
struct cause cause_of(const struct judge *j, const uint8_t *bytes, struct verdict v);
/* The same by looking back over the recording's records, for the breach that the verdict tells. */
struct cause cause_back(const uint8_t *bytes, unsigned limit, struct verdict v);

/* --- the runner --- */
struct desk {
    const char *quote, *seconds, *fleet, *show, *why; /* commands, NULL where not tested */
    int count, time, first, boundary, unshrunk;
    unsigned long seed;
};
extern struct desk desk;
/* Counts a test, and says what failed; 1 where there is still to be said more of it. */
int desk_outcome(int good, const char *what);
/* Fails where the share is fair and something was never met. */
void desk_met(const char *what, unsigned long times);
/* Runs the command with the words behind it and compares. */
void desk_compare(const char *command, const char *words, const uint8_t *in, size_t len,
                  struct feed feed, const struct said *right, const char *what);
/* The words quoted for the shell, each behind a space. */
char *desk_quoted(char **words, size_t count);
struct feed desk_feed(struct rng *g, size_t len);
void desk_quotes(void);
void desk_quotes_searched(struct rng *g);
void desk_words(void);
void desk_seconds(struct rng *g);
void desk_fleets(struct rng *g);
void desk_show_words(void);
void desk_shows(struct rng *g);
void desk_shows_met(void);
void desk_why_words(void);
void desk_whys(struct rng *g);
void desk_whys_met(void);
void desk_boundary(void);
#endif
