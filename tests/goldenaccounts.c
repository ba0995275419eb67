/* Who used the bus (document 02, wish 3), worked out by hand for the accounts' program, most with a
   near twin.

   A transfer from cycle m to cycle n is n - m + 1 busy cycles, an attention cycle is one. A START with
   RQST in the cycle before it is of the slot that its ARB shows, any other of the last such START's.
   The first two lines are the judging program's. */
#include <stdio.h>
#include <string.h>
#include "golden.h"

enum { MOST = 200 * RECORD, LINES = 6000 };
/* Records 0 and 1 are RQST in cycles 0 and 1, so a START in cycle 2 is record 2, the wave's. */
#define WAVE "0 Q; 1 Q; "
/* An attention cycle, and a successful ACK. */
#define ATT "S K T t"
#define ACK "K T t"

/* The slots are told as 'slot STARTs busy', the others have 0 and 0. */
static const struct {
    const char *name, *records, *totals, *verdict, *slots;
    int more; /* bytes of 0 behind the records, or less at their end */
} cases[] = {
    {"no record", "", "0 0 0 0 0 0", "conforming", "", 0},
    {"RQST alone", "0 Q a7; 1 Q a7", "2 1 0 0 0 0", "conforming", "", 0},
    {"a transfer", WAVE "2 S a3; 4 " ACK, "4 4 1 1 0 0", "conforming", "3 1 3", 0},
    {"ACK in the next cycle", WAVE "2 S a3; 3 " ACK, "4 3 1 1 0 0", "conforming", "3 1 2", 0},
    {"an attention cycle", WAVE "2 " ATT " a3", "3 2 1 1 0 0", "conforming", "3 1 1", 0},
    {"slot 0", WAVE "2 S a0; 4 " ACK, "4 4 1 1 0 0", "conforming", "0 1 3", 0},
    {"slot 0, an attention cycle", WAVE "2 " ATT, "3 2 1 1 0 0", "conforming", "0 1 1", 0},
    {"slot 0 behind another", WAVE "2 " ATT " a3; 3 Q; 4 Q; 5 S a0; 7 " ACK "; 8 " ATT " a3",
     "8 8 3 3 0 0", "conforming", "3 1 1; 0 2 4", 0},
    {"slot 15", WAVE "2 S a15; 4 " ACK, "4 4 1 1 0 0", "conforming", "15 1 3", 0},
    {"an error", WAVE "2 S a3; 4 K T", "4 4 1 1 0 0", "conforming", "3 1 3", 0},
    {"a timeout", WAVE "2 S a3; 4 K t", "4 4 1 1 0 0", "conforming", "3 1 3", 0},
    {"try again", WAVE "2 S a3; 4 K", "4 4 1 1 0 0", "conforming", "3 1 3", 0},
    {"a block", WAVE "2 S a4 d2; 3 t; 4 " ACK, "5 4 1 1 0 0", "conforming", "4 1 3", 0},
    {"a block, cycles missing", WAVE "2 S a4 d2; 5 t; 9 " ACK, "5 9 1 1 0 0", "conforming",
     "4 1 8", 0},
    {"ARB before the START", "0 Q a15; 1 Q a14; 2 S a3; 3 " ACK, "4 3 1 1 0 0", "conforming",
     "3 1 2", 0},
    {"ARB behind the START", WAVE "2 S a3; 3 a8; 4 " ACK " a12", "5 4 1 1 0 0", "conforming",
     "3 1 3", 0},
    /* 102h is 258, 258 - 2 + 1 is 257. */
    {"the watchdog's last cycle", WAVE "2 S a3; 102 " ACK, "4 258 1 1 0 0", "conforming",
     "3 1 257", 0},
    {"past the watchdog", WAVE "2 S a3; 103 " ACK, "3 2 1 0 0 1", "breach rule 12 record 3 span 259",
     "3 1 0", 0},

    /* A transfer still open adds nothing. */
    {"a START", WAVE "2 S a3", "3 2 1 0 0 1", "conforming", "3 1 0", 0},
    {"open for some cycles", WAVE "2 S a3; 3; 10", "5 16 1 0 0 1", "conforming", "3 1 0", 0},
    {"open behind another", WAVE "2 S a3; 4 " ACK "; 5 S; 9", "6 9 2 1 0 1", "conforming",
     "3 2 3", 0},

    /* A parked START is the owner's, whatever ARB shows. */
    {"parked", WAVE "2 S a3; 3 " ACK "; 5 S a9; 7 " ACK, "6 7 2 2 0 0", "conforming", "3 2 5", 0},
    {"parked, ARB 0", WAVE "2 S a3; 3 " ACK "; 5 S; 7 " ACK, "6 7 2 2 0 0", "conforming", "3 2 5", 0},
    {"parked, its own ARB", WAVE "2 S a3; 3 " ACK "; 5 S a3; 7 " ACK, "6 7 2 2 0 0", "conforming",
     "3 2 5", 0},
    {"parked by slot 0", WAVE "2 S a0; 3 " ACK "; 5 S a9; 7 " ACK, "6 7 2 2 0 0", "conforming",
     "0 2 5", 0},
    {"parked, right behind the ACK", WAVE "2 S a3; 3 " ACK "; 4 S a9; 5 " ACK, "6 5 2 2 0 0",
     "conforming", "3 2 4", 0},
    {"a parked attention cycle", WAVE "2 S a3; 3 " ACK "; 4 " ATT " a9", "5 4 2 2 0 0", "conforming",
     "3 2 3", 0},
    {"parked behind an attention cycle", WAVE "2 " ATT " a3; 3 S a9; 4 " ACK, "5 4 2 2 0 0",
     "conforming", "3 2 3", 0},
    /* 1003h is 4099. */
    {"parked long after", WAVE "2 " ATT " a3; 1002 S a9; 1003 " ACK, "5 4099 2 2 0 0", "conforming",
     "3 2 3", 0},
    {"parked three times", WAVE "2 " ATT " a3; 3 " ATT " a4; 4 " ATT " a5; 5 " ATT " a6",
     "6 5 4 4 0 0", "conforming", "3 4 4", 0},
    /* RQST in its own cycle begins a wave, of which it is none. */
    {"parked in a wave's first cycle", WAVE "2 " ATT " a3; 3 Q " ATT " a9; 4 Q; 5 S a7; 6 " ACK,
     "7 6 3 3 0 0", "conforming", "3 2 2; 7 1 2", 0},
    {"in a wave's third cycle", WAVE "2 " ATT " a3; 3 Q; 4 Q; 5 " ATT " a9", "6 5 2 2 0 0",
     "conforming", "3 1 1; 9 1 1", 0},
    {"parked in a wave's first cycle, ending in its third",
     WAVE "2 " ATT " a3; 4 Q S a9; 5 Q; 6 Q " ACK "; 7 S a5; 8 " ACK, "8 8 3 3 0 0", "conforming",
     "3 2 4; 5 1 2", 0},
    {"parked, the owner having asked again", WAVE "2 " ATT " a3; 3 Q; 4 Q; 5 " ATT " a3; 6 " ATT " a8",
     "7 6 3 3 0 0", "conforming", "3 3 3", 0},

    /* The owner is the last wave's starter. */
    {"two masters of a wave", WAVE "2 Q S a9; 3 Q " ACK "; 4 Q; 5 S a4; 6 " ACK "; 8 S a9; 9 " ACK,
     "9 9 3 3 0 0", "conforming", "9 1 2; 4 2 4", 0},
    {"one master twice", WAVE "2 Q S a9; 3 Q " ACK "; 4 Q; 5 S a9; 6 " ACK, "7 6 2 2 0 0",
     "conforming", "9 2 4", 0},
    {"two waves", WAVE "2 S a4; 3 " ACK "; 4 Q; 5 Q; 6 S a9; 9 " ACK "; A " ATT " a4", "9 10 3 3 0 0",
     "conforming", "4 1 2; 9 2 5", 0},

    /* An abort: RESET's own cycle is its end, and missing cycles count. */
    {"RESET in the next cycle", WAVE "2 S a3; 3 R", "4 3 1 0 1 0", "conforming", "3 1 2", 0},
    {"RESET behind a record", WAVE "2 S a3; 3; 4 R", "5 4 1 0 1 0", "conforming", "3 1 3", 0},
    /* 12h is 18, 1002h 4098, 80000002h 2147483650. */
    {"RESET behind missing cycles", WAVE "2 S a3; 12 R", "4 18 1 0 1 0", "conforming", "3 1 17", 0},
    {"RESET long after", WAVE "2 S a3; 1002 R", "4 4098 1 0 1 0", "conforming", "3 1 4097", 0},
    {"RESET as late as can be", WAVE "2 S a3; 80000002 R", "4 2147483650 1 0 1 0", "conforming",
     "3 1 2147483649", 0},
    {"RESET with ACK", WAVE "2 S a3; 4 R " ACK, "4 4 1 0 1 0", "conforming", "3 1 3", 0},
    {"RESET with START", WAVE "2 S a3; 4 R S a7", "4 4 1 0 1 0", "conforming", "3 1 3", 0},
    {"RESET with an attention cycle's lines", WAVE "2 S a3; 4 R " ATT " a7", "4 4 1 0 1 0",
     "conforming", "3 1 3", 0},
    {"RESET of a parked transfer", WAVE "2 " ATT " a3; 4 S a9; 7 R a9", "5 7 2 1 1 0", "conforming",
     "3 2 5", 0},
    {"RESET, nothing open", WAVE "2 " ATT " a3; 8 R", "4 8 1 1 0 0", "conforming", "3 1 1", 0},
    {"RESET behind an ACK", WAVE "2 S a3; 3 " ACK "; 8 R", "5 8 1 1 0 0", "conforming", "3 1 2", 0},
    {"RESET twice", WAVE "2 S a3; 4 R; 5 R", "5 5 1 0 1 0", "conforming", "3 1 3", 0},
    {"RESET within a wave, cycles missing", WAVE "2 Q S a3; 9 R", "4 9 1 0 1 0", "conforming",
     "3 1 8", 0},
    {"ACK within a wave, cycles missing", WAVE "2 Q S a3; 9 " ACK, "3 2 1 0 0 1",
     "breach rule 9 record 3 span 9", "3 1 0", 0},
    {"the owner forgotten", WAVE "2 " ATT " a3; 3 R; 4 S a3", "4 3 1 1 0 0",
     "breach rule 8a record 4 span 4", "3 1 1", 0},
    {"another owner behind the RESET", WAVE "2 " ATT " a3; 3 R; 4 Q; 5 Q; 6 " ATT " a8; 7 " ATT " a3",
     "8 7 3 3 0 0", "conforming", "3 1 1; 8 2 2", 0},
    {"the same slot behind the RESET", WAVE "2 S a3; 3 R; 4 Q; 5 Q; 6 S a3; 8 " ACK, "8 8 2 1 1 0",
     "conforming", "3 2 5", 0},
    {"RQST in a RESET", "0 R Q a2; 1 Q; 2 Q; 3 S a6; 4 " ACK, "5 4 1 1 0 0", "conforming", "6 1 2", 0},

    /* A breach changes no entry. */
    {"START while open", WAVE "2 S a3; 3 S a9", "3 2 1 0 0 1", "breach rule 4 record 3 span 3",
     "3 1 0", 0},
    {"wrong parity at the ACK", WAVE "2 S a3; 4 " ACK " V P", "3 2 1 0 0 1",
     "breach rule 3 record 3 span 4", "3 1 0", 0},
    {"right parity at the ACK", WAVE "2 S a3; 4 " ACK " V", "4 4 1 1 0 0", "conforming", "3 1 3", 0},
    {"an ACK too many", WAVE "2 S a3; 4 " ACK "; 5 " ACK, "4 4 1 1 0 0",
     "breach rule 5 record 4 span 5", "3 1 3", 0},
    {"an early START", WAVE "2 " ATT " a3; 3 Q; 4 S a9", "4 3 1 1 0 0",
     "breach rule 8b record 4 span 4", "3 1 1", 0},
    {"a spare bit in the RESET", WAVE "2 S a3; 4 R s1", "3 2 1 0 0 1",
     "breach rule 1 record 3 span 2", "3 1 0", 0},
    {"parked by nobody", "0 S a3", "0 0 0 0 0 0", "breach rule 8a record 0 span 0", "", 0},
    {"an attention cycle's TM0", WAVE "2 S K T a3", "2 1 0 0 0 0", "breach rule 6 record 2 span 2",
     "", 0},
    {"behind a breach", WAVE "2 S a3; 3 " ACK "; 3; 5 " ATT " a3; 6 " ATT, "4 3 1 1 0 0",
     "breach rule 2 record 4 span 3", "3 1 2", 0},
    {"a START above the wave's", WAVE "2 Q " ATT " a4; 3 Q; 4 Q; 5 " ATT " a5", "5 4 1 1 0 0",
     "breach rule 10 record 5 span 5", "4 1 1", 0},

    /* FFFFFFFF, 0, 1, 2 and 3 are five cycles; to 10h they are eighteen. */
    {"a wrap", "FFFFFFFD Q; FFFFFFFE Q; FFFFFFFF S a3; 3 " ACK, "4 6 1 1 0 0", "conforming",
     "3 1 5", 0},
    {"a wrap to the ACK's cycle", "FFFFFFFD Q; FFFFFFFE Q; FFFFFFFF S a3; 0 " ACK, "4 3 1 1 0 0",
     "conforming", "3 1 2", 0},
    {"a wrap to the START's cycle", "FFFFFFFE Q; FFFFFFFF Q; 0 S a3; 1 " ACK, "4 3 1 1 0 0",
     "conforming", "3 1 2", 0},
    {"a wrap with records", "FFFFFFFD Q; FFFFFFFE Q; FFFFFFFF S a3 d2; 0 t; 3 " ACK, "5 6 1 1 0 0",
     "conforming", "3 1 5", 0},
    {"a wrap before a RESET", "FFFFFFFD Q; FFFFFFFE Q; FFFFFFFF S a3; 10 R", "4 19 1 0 1 0",
     "conforming", "3 1 18", 0},
    /* FFFFFFF2 to 7FFFFFF2 are 2^31 cycles and one. */
    {"a wrap before the latest RESET", "FFFFFFF0 Q; FFFFFFF1 Q; FFFFFFF2 S a3; 7FFFFFF2 R",
     "4 2147483650 1 0 1 0", "conforming", "3 1 2147483649", 0},
    /* Twice 2147483649; the span is two of 2^31, and five cycles. */
    {"busy beyond 2^32",
     WAVE "2 S a3; 80000002 R; 80000003 Q; 80000004 Q; 80000005 S a3; 5 R", "8 4294967301 2 0 2 0",
     "conforming", "3 2 4294967298", 0},

    /* The records counted are all the whole ones. */
    {"a torn piece behind", WAVE "2 S a3; 4 " ACK, "4 4 1 1 0 0", "refused 1", "3 1 3", 5},
    {"the ACK torn", WAVE "2 S a3; 4 " ACK, "3 2 1 0 0 1", "refused 1", "3 1 0", -1},
    {"the START torn", WAVE "2 S a3", "2 1 0 0 0 0", "refused 1", "", -15},
    {"a torn piece alone", "0", "0 0 0 0 0 0", "refused 1", "", -1},
    {"a breach, and a torn piece", WAVE "2 S a3; 3 S", "3 2 1 0 0 1", "breach rule 4 record 3 span 3",
     "3 1 0", 7},
};

/* Sixteen lines of the slots that are told. */
static void slot_lines(const char *slots, char *text, size_t room)
{
    unsigned long long starts[SLOTS] = {0}, busy[SLOTS] = {0};
    size_t at = 0;
    unsigned slot;
    unsigned long long a, b;
    int n;
    while (sscanf(slots, "%u %llu %llu%n", &slot, &a, &b, &n) == 3) {
        starts[slot] = a;
        busy[slot] = b;
        slots += n + (slots[n] == ';');
    }
    for (int k = 0; k < SLOTS; k++)
        at += (size_t)snprintf(text + at, room - at, "slot %d starts %llu busy %llu\n", k, starts[k],
                               busy[k]);
}

void golden_accounted(const char *program, const char *name, const uint8_t *bytes, size_t len,
                      const char *totals, const char *verdict, const char *slots)
{
    char text[LINES], told[200];
    golden_text(totals, verdict, text);
    slot_lines(slots, text + strlen(text), sizeof text - strlen(text));
    snprintf(told, sizeof told, "accounts: %s", name);
    golden_recording(program, told, bytes, len, text);
}

/* Slot k in turn, from 0 on: RQST in two cycles, a transfer of k + 2 cycles, and k parked attention
   cycles under another ARB, so that it has k + 1 STARTs and 2 k + 2 busy cycles. Those are 4 + 2 k
   cycles each, 4 + k records (both RQST, START, ACK and the parked ones), with which all sixteen are
   304 cycles, 184 records and 136 STARTs and ACKs. */
static void all_slots(const char *program)
{
    static uint8_t bytes[MOST];
    char words[LINES] = "", slots[400] = "";
    int at = 0;
    for (int k = 0; k < SLOTS; k++) {
        size_t n = strlen(words);
        n += (size_t)snprintf(words + n, sizeof words - n, "%X Q; %X Q; %X S a%d; %X " ACK "; ", at,
                              at + 1, at + 2, k, at + 3 + k);
        for (int i = 0; i < k; i++)
            n += (size_t)snprintf(words + n, sizeof words - n, "%X " ATT " a%d; ", at + 4 + k + i,
                                  15 - k);
        snprintf(slots + strlen(slots), sizeof slots - strlen(slots), "%d %d %d; ", k, k + 1,
                 2 * k + 2);
        at += 4 + 2 * k;
    }
    size_t len = golden_tell(words, bytes);
    golden_accounted(program, "all sixteen slots", bytes, len, "184 303 136 136 0 0", "conforming", slots);
}

void golden_accounts(const char *program)
{
    static uint8_t bytes[MOST];
    for (size_t i = 0; i < sizeof cases / sizeof cases[0]; i++) {
        memset(bytes, 0, sizeof bytes);
        long len = (long)golden_tell(cases[i].records, bytes) + cases[i].more;
        golden_accounted(program, cases[i].name, bytes, (size_t)len, cases[i].totals, cases[i].verdict,
                         cases[i].slots);
    }
    all_slots(program);
}
