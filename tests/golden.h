/* Golden recordings for the judging program and the boot report's, and golden calls. */
#ifndef GOLDEN_H
#define GOLDEN_H
#include "run.h"
void golden_recording(const char *command, const char *name, const uint8_t *bytes, size_t len,
                      const char *text);
/* A recording told in words, a record up to each semicolon: the stamp in hexadecimal, then
   R RESET, Q RQST, S START, K ACK, T TM1, t TM0, P SP, V SPV, aN ARB, dN AD (hexadecimal), sN
   spare bits. Gives its bytes. */
size_t golden_tell(const char *words, uint8_t *bytes);
/* A recording in those words with the six numbers of the first line and the whole second line. */
struct judged {
    const char *name, *records, *totals, *verdict;
};
/* The two lines of the judging program. */
void golden_text(const char *totals, const char *verdict, char *text);
void golden_judged(const char *command, const struct judged *cases, size_t count);

/* A call and the bytes of its answer that the paper settles. */
struct step {
    const char *name;
    uint8_t call[CALL], answer[CALL], care[CALL];
};
struct step *call(const char *name, int op, int refusal);
void put(uint8_t *b, int at, int bytes, uint64_t v);
void expect(struct step *s, int at, int bytes, uint64_t v);
/* Puts numbers, in decimal, one behind the other in fields of so many bytes. */
void golden_fields(const char *numbers, uint8_t *bytes, int at, const int *widths, int count);
/* The answer of a judging: its refusal, rule, kind, record and span at the breach, and the totals. */
void golden_expect_judging(struct step *s, const char *answer);
/* The words of a call that sets something: 19, 21, 22 or 25. */
void golden_setting(struct step *s, const char *words);

/* Calls on one judge with its tally and account, in order (goldenentries.c says how they are told). */
struct account_call {
    const char *name;
    int op;
    const char *words, *answer;
    int lent, less; /* less: bytes of the last record that are missing */
};
void golden_put_calls(const struct account_call *list, size_t count);
/* A recording for the accounts' program; the slots are told as 'slot STARTs busy', the others have 0 and 0. */
void golden_accounted(const char *program, const char *name, const uint8_t *bytes, size_t len,
                      const char *totals, const char *verdict, const char *slots);

void golden_rules(const char *command);
void golden_breaches(const char *command);
void golden_breach_calls(void);
void golden_phases(const char *program);
void golden_accounts(const char *program);
void golden_account_calls(void);
void golden_lane_calls(void);
void golden_watchdog(const char *command);
void golden_watchdog_accounts(const char *program);
void golden_watchdog_calls(void);
#endif
