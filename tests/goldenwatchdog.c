/* The watchdog that restarts with each word (document 02, wish 5), worked out by hand: recordings for the
   judging program and for the accounts' program, most with a near twin, and the driver's calls on the judge
   and on the bus.

   A recording's START is in cycle 2 mostly, so that age 255 is in cycle 257 (101h), 256 in 258 (102h) and 257
   in 259 (103h); 100h more are the same ages behind a strobe. AD 2 begins a block of 2 words, 6 of 4, 1E of 16;
   a block has one strobe less than words. */
#include <stdio.h>
#include <string.h>
#include "golden.h"

/* Records 0 and 1 are RQST in cycles 0 and 1, so a START in cycle 2 is record 2, the wave's. */
#define WAVE "0 Q; 1 Q; "
#define ATT "S K T t"
#define ACK "K T t"
/* The fifteen strobes of sixteen words behind a START in cycle 2, each at age 256; the last is in cycle
   F02h, 3842. */
#define FIFTEEN "102 t; 202 t; 302 t; 402 t; 502 t; 602 t; 702 t; 802 t; 902 t; A02 t; B02 t; C02 t; D02 t; E02 t; F02 t; "

static const struct judged cases[] = {
    /* The strobe's own age counts from the START. */
    {"a strobe at 255", WAVE "2 S d2; 101 t", "4 257 1 0 0 1", "conforming"},
    {"a strobe at 256", WAVE "2 S d2; 102 t", "4 258 1 0 0 1", "conforming"},
    {"a strobe at 257", WAVE "2 S d2; 103 t", "3 2 1 0 0 1", "breach rule 12 record 3 span 259"},
    {"a strobe long after", WAVE "2 S d1E; 80000002 t", "3 2 1 0 0 1",
     "breach rule 12 record 3 span 2147483650"},

    /* Behind it the age counts from the strobe: 201h less 101h and 202h less 102h are 256. */
    {"ACK at 256 behind a strobe at 255", WAVE "2 S d2; 101 t; 201 " ACK, "5 513 1 1 0 0", "conforming"},
    {"ACK at 257 behind a strobe at 255", WAVE "2 S d2; 101 t; 202 " ACK, "4 257 1 0 0 1",
     "breach rule 12 record 4 span 514"},
    {"ACK at 256 behind a strobe at 256", WAVE "2 S d2; 102 t; 202 " ACK, "5 514 1 1 0 0", "conforming"},
    {"ACK at 257 behind a strobe at 256", WAVE "2 S d2; 102 t; 203 " ACK, "4 258 1 0 0 1",
     "breach rule 12 record 4 span 515"},
    /* The strobe is in cycle 3; 103h is 259, 257 cycles behind the START and 256 behind the strobe. */
    {"ACK at 256 behind a strobe at 1", WAVE "2 S d2; 3 t; 103 " ACK, "5 259 1 1 0 0", "conforming"},
    {"ACK at 257 behind a strobe at 1", WAVE "2 S d2; 3 t; 104 " ACK, "4 3 1 0 0 1",
     "breach rule 12 record 4 span 260"},
    {"no line at 256 behind a strobe", WAVE "2 S d2; 3 t; 103", "5 259 1 0 0 1", "conforming"},
    {"no line at 257 behind a strobe", WAVE "2 S d2; 3 t; 104", "4 3 1 0 0 1",
     "breach rule 12 record 4 span 260"},
    {"a write's strobe", WAVE "2 S T d2; 102 T t; 202 " ACK, "5 514 1 1 0 0", "conforming"},
    {"records between", WAVE "2 S d2; 50; 102 t; 152; 202 " ACK, "7 514 1 1 0 0", "conforming"},
    {"records between, a cycle more", WAVE "2 S d2; 50; 102 t; 152; 203 " ACK, "6 338 1 0 0 1",
     "breach rule 12 record 6 span 515"},
    /* TM1 alone, and AD, are no strobe: 103h is 257 behind the START. */
    {"TM1 is no strobe", WAVE "2 S d2; 50 T d7; 103 t", "4 80 1 0 0 1", "breach rule 12 record 4 span 259"},
    {"a timeout's ACK", WAVE "2 S d6; 102 t; 202 K t", "5 514 1 1 0 0", "conforming"},

    /* Each strobe restarts it, not only the first. */
    {"the second strobe at 256", WAVE "2 S d6; 102 t; 202 t", "5 514 1 0 0 1", "conforming"},
    {"the second strobe at 257", WAVE "2 S d6; 102 t; 203 t", "4 258 1 0 0 1",
     "breach rule 12 record 4 span 515"},
    {"the second strobe at 257 from the START", WAVE "2 S d6; 3 t; 103 t", "5 259 1 0 0 1", "conforming"},
    {"ACK at 256 behind the third", WAVE "2 S d6; 102 t; 202 t; 302 t; 402 " ACK, "7 1026 1 1 0 0",
     "conforming"},
    {"ACK at 257 behind the third", WAVE "2 S d6; 102 t; 202 t; 302 t; 403 " ACK, "6 770 1 0 0 1",
     "breach rule 12 record 6 span 1027"},

    /* Sixteen words: 16 x 256 cycles behind the START are in cycle 4098, 1002h. */
    {"sixteen words as late as can be", WAVE "2 S d1E; " FIFTEEN "1002 " ACK, "19 4098 1 1 0 0", "conforming"},
    {"sixteen words, a cycle more", WAVE "2 S d1E; " FIFTEEN "1003 " ACK, "18 3842 1 0 0 1",
     "breach rule 12 record 18 span 4099"},
    {"sixteen words, still open", WAVE "2 S d1E; " FIFTEEN "1002", "19 4098 1 0 0 1", "conforming"},
    {"a sixteenth strobe at 256", WAVE "2 S d1E; " FIFTEEN "1002 t", "18 3842 1 0 0 1",
     "breach rule 13 record 18 span 4098"},
    {"a sixteenth strobe at 257", WAVE "2 S d1E; " FIFTEEN "1003 t", "18 3842 1 0 0 1",
     "breach rule 12 record 18 span 4099"},
    /* 402h is 1026 and 503h 1283. */
    {"the fifth of sixteen at 257", WAVE "2 S d1E; 102 t; 202 t; 302 t; 402 t; 503 t", "7 1026 1 0 0 1",
     "breach rule 12 record 7 span 1283"},

    /* TM0 in a single transfer is no strobe: a word, a halfword, a byte. */
    {"TM0 in a word, ACK at 256", WAVE "2 S; 3 t; 102 " ACK, "5 258 1 1 0 0", "conforming"},
    {"TM0 in a word, ACK at 257", WAVE "2 S; 3 t; 103 " ACK, "4 3 1 0 0 1",
     "breach rule 12 record 4 span 259"},
    {"TM0 in a word at 256", WAVE "2 S; 102 t", "4 258 1 0 0 1", "conforming"},
    {"TM0 in a word at 257", WAVE "2 S; 103 t", "3 2 1 0 0 1", "breach rule 12 record 3 span 259"},
    {"TM0 in a halfword", WAVE "2 S d3; 80 t; 103", "4 128 1 0 0 1", "breach rule 12 record 4 span 259"},
    {"TM0 in a byte", WAVE "2 S t d2; 80 t; 103", "4 128 1 0 0 1", "breach rule 12 record 4 span 259"},
    {"TM0 in a byte, twin", WAVE "2 S t d2; 80 t; 102", "5 258 1 0 0 1", "conforming"},

    /* With other rules in the same record the lowest number is told. */
    {"3 and 12", WAVE "2 S d2; 103 t V P", "3 2 1 0 0 1", "breach rule 3 record 3 span 259"},
    {"4 and 12", WAVE "2 S d6; 3 t; 104 S", "4 3 1 0 0 1", "breach rule 4 record 4 span 260"},
    {"9 and 12", WAVE "2 S Q d6; 3 Q t; 104 Q t", "4 3 1 0 0 1", "breach rule 9 record 4 span 260"},
    {"1 and 12", WAVE "2 S d6; 3 t; 104 t s1", "4 3 1 0 0 1", "breach rule 1 record 4 span 3"},
    {"2 and 12", WAVE "2 S d6; 3 t; 80000004 t", "4 3 1 0 0 1", "breach rule 2 record 4 span 3"},
    {"12 and 13, a strobe too many", WAVE "2 S d2; 3 t; 104 t", "4 3 1 0 0 1",
     "breach rule 12 record 4 span 260"},
    {"13 alone, a strobe too many", WAVE "2 S d2; 3 t; 103 t", "4 3 1 0 0 1",
     "breach rule 13 record 4 span 259"},
    {"12 and 13, words missing", WAVE "2 S d6; 3 t; 104 " ACK, "4 3 1 0 0 1",
     "breach rule 12 record 4 span 260"},
    {"13 alone, words missing", WAVE "2 S d6; 3 t; 103 " ACK, "4 3 1 0 0 1",
     "breach rule 13 record 4 span 259"},
    {"an error with words missing", WAVE "2 S d6; 3 t; 103 K T", "5 259 1 1 0 0", "conforming"},

    /* FFFFFF02 to 2 are 256 cycles, and so are 2 to 102h; from FFFFFF00 that is 202h. */
    {"a wrap before the strobe", "FFFFFF00 Q; FFFFFF01 Q; FFFFFF02 S d2; 2 t; 102 " ACK, "5 514 1 1 0 0",
     "conforming"},
    {"a wrap before the strobe, a cycle more", "FFFFFF00 Q; FFFFFF01 Q; FFFFFF02 S d2; 3 t", "3 2 1 0 0 1",
     "breach rule 12 record 3 span 259"},
    {"a wrap behind the strobe", "FFFFFE00 Q; FFFFFE01 Q; FFFFFE02 S d2; FFFFFF02 t; 2 " ACK, "5 514 1 1 0 0",
     "conforming"},
    {"a wrap behind the strobe, a cycle more", "FFFFFE00 Q; FFFFFE01 Q; FFFFFE02 S d2; FFFFFF02 t; 3 " ACK,
     "4 258 1 0 0 1", "breach rule 12 record 4 span 515"},

    /* A RESET ends it, and a later transfer's age is its own: 106h to 206h, 206h to 306h, and 106h to 207h. */
    {"a RESET long behind a strobe", WAVE "2 S d6; 102 t; 1002 R", "5 4098 1 0 1 0", "conforming"},
    {"behind a RESET", WAVE "2 S d2; 102 t; 103 R; 104 Q; 105 Q; 106 S d2; 206 t; 306 " ACK,
     "10 774 2 1 1 0", "conforming"},
    {"behind a RESET, a cycle more", WAVE "2 S d2; 102 t; 103 R; 104 Q; 105 Q; 106 S d2; 207 t",
     "8 262 2 0 1 1", "breach rule 12 record 8 span 519"},
    {"the next transfer", WAVE "2 S d2; 102 t; 202 " ACK "; 203 S d2; 303 t", "7 771 2 1 0 1", "conforming"},
    {"the next transfer, a cycle more", WAVE "2 S d2; 102 t; 202 " ACK "; 203 S d2; 304 t", "6 515 2 1 0 1",
     "breach rule 12 record 6 span 772"},
};

/* Within a wave no cycle may be missing: RQST in every one, START in 2, TM0 in the given one and ACK in the
   last. */
static void in_wave(const char *command, const char *name, uint32_t strobe, uint32_t ack, const char *totals,
                    const char *verdict)
{
    static uint8_t bytes[600 * RECORD];
    char text[TEXT];
    for (uint32_t n = 0; n <= ack; n++) {
        struct record r = {.stamp = n, .rqst = 1, .start = n == 2, .ad = n == 2 ? 2 : 0, .ack = n == ack};
        r.tm1 = r.ack;
        r.tm0 = r.ack || n == strobe;
        record_write(&r, bytes + n * RECORD);
    }
    golden_text(totals, verdict, text);
    golden_recording(command, name, bytes, (ack + 1) * (size_t)RECORD, text);
}

void golden_watchdog(const char *command)
{
    golden_judged(command, cases, sizeof cases / sizeof cases[0]);
    /* 2, 258 and 514 are 256 cycles apart; 515 records have stamps 0 to 514. Record 259 is in cycle 259, 257
       behind the START, record 515 in 515, 257 behind the strobe. */
    in_wave(command, "in a wave", 258, 514, "515 514 1 1 0 0", "conforming");
    in_wave(command, "in a wave, a late strobe", 259, 514, "259 258 1 0 0 1", "breach rule 12 record 259 span 259");
    in_wave(command, "in a wave, a late ACK", 258, 515, "515 514 1 0 0 1", "breach rule 12 record 515 span 515");
}

/* The busy cycles are START to ACK or abort, both ends counted, whatever the age is. */
static const struct {
    const char *name, *records, *totals, *verdict, *slots;
} accounts[] = {
    /* 4098 - 2 + 1 are 4097. */
    {"sixteen words as late as can be", WAVE "2 S a3 d1E; " FIFTEEN "1002 " ACK, "19 4098 1 1 0 0", "conforming",
     "3 1 4097"},
    {"sixteen words, a cycle more", WAVE "2 S a3 d1E; " FIFTEEN "1003 " ACK, "18 3842 1 0 0 1",
     "breach rule 12 record 18 span 4099", "3 1 0"},
    /* 514 - 2 + 1, and 259 - 2 + 1. */
    {"two words as late as can be", WAVE "2 S a3 d2; 102 t; 202 " ACK, "5 514 1 1 0 0", "conforming", "3 1 513"},
    {"a strobe at 1", WAVE "2 S a4 d2; 3 t; 103 " ACK, "5 259 1 1 0 0", "conforming", "4 1 258"},
    {"an error behind a strobe", WAVE "2 S a4 d6; 3 t; 13 K T", "5 19 1 1 0 0", "conforming", "4 1 18"},
    {"a strobe, still open", WAVE "2 S a3 d2; 102 t", "4 258 1 0 0 1", "conforming", "3 1 0"},
    {"TM0 in a single transfer", WAVE "2 S a3; 3 t; 102 " ACK, "5 258 1 1 0 0", "conforming", "3 1 257"},
    /* 4098 - 2 + 1, and 2002h is 8194, 8194 - 2 + 1. */
    {"RESET long behind a strobe", WAVE "2 S a3 d6; 102 t; 1002 R", "5 4098 1 0 1 0", "conforming", "3 1 4097"},
    {"RESET behind fifteen strobes", WAVE "2 S a3 d1E; " FIFTEEN "2002 R", "19 8194 1 0 1 0", "conforming",
     "3 1 8193"},
    {"RESET right behind a strobe", WAVE "2 S a3 d6; 102 t; 103 R", "5 259 1 0 1 0", "conforming", "3 1 258"},
    /* 513 each; 203h is 515 and 403h 1027. */
    {"a parked one behind it", WAVE "2 S a3 d2; 102 t; 202 " ACK "; 203 S a9 d2; 303 t; 403 " ACK,
     "8 1027 2 2 0 0", "conforming", "3 2 1026"},
    /* FFFFFF02 to 102h are 512 cycles and one. */
    {"a wrap", "FFFFFF00 Q; FFFFFF01 Q; FFFFFF02 S a5 d2; 2 t; 102 " ACK, "5 514 1 1 0 0", "conforming",
     "5 1 513"},
};

void golden_watchdog_accounts(const char *program)
{
    static uint8_t bytes[40 * RECORD];
    for (size_t i = 0; i < sizeof accounts / sizeof accounts[0]; i++)
        golden_accounted(program, accounts[i].name, bytes, golden_tell(accounts[i].records, bytes),
                         accounts[i].totals, accounts[i].verdict, accounts[i].slots);
}

/* Calls on one judge with its tally and account, in order; words and answers as in goldenentries.c. */
static const struct account_call calls[] = {
    {"in parts", 19, "16", "0", 0, 0},
    {"in parts", 20, WAVE "2 S d6", "0 0 0 0 0  3 2 1 0 0 1", 0, 0},
    {"in parts, 256", 20, "102 t", "0 0 0 0 0  4 258 1 0 0 1", 0, 0},
    {"in parts, 257", 20, "203 t", "0 12 0 4 515  4 258 1 0 0 1", 0, 0},
    {"nothing", 20, "", "0 0 0 0 0  4 258 1 0 0 1", 0, 0},
    {"a breach restarts nothing", 20, "203 " ACK, "0 12 0 4 515  4 258 1 0 0 1", 0, 0},
    {"256 again", 20, "202 t", "0 0 0 0 0  5 514 1 0 0 1", 0, 0},
    {"13 restarts nothing", 20, "302 t; 303 t", "0 13 0 6 771  6 770 1 0 0 1", 0, 0},
    {"the ACK", 20, "402 " ACK, "0 0 0 0 0  7 1026 1 1 0 0", 0, 0},

    /* An age set raw: 255 and one are 256, and the strobe restarts it; 102h is 257 behind cycle 1. */
    {"a raw age", 19, "16", "0", 0, 0},
    {"a raw age", 20, "0", "0 0 0 0 0  1 0 0 0 0 0", 0, 0},
    {"a raw age of 255", 22, "16 1 255 4 0 0 0", "0", 0, 0},
    {"a strobe at 256", 20, "1 t", "0 0 0 0 0  2 1 0 0 0 1", 0, 0},
    {"the next at 257", 20, "102 t", "0 12 0 2 258  2 1 0 0 0 1", 0, 0},
    {"the next at 256", 20, "101 t", "0 0 0 0 0  3 257 0 0 0 1", 0, 0},
    {"a raw age of 256", 22, "16 1 256 4 0 0 0", "0", 0, 0},
    {"a strobe at 257", 20, "102 t", "0 12 0 3 258  3 257 0 0 0 1", 0, 0},
    {"a raw age of 257", 22, "16 1 257 4 0 0 0", "0", 0, 0},
    {"out of bounds", 20, "102 t", "5 0 0 0 0  3 257 0 0 0 1", 0, 0},
    /* All strobes are there: one too many is 13 at 256 and 12 at 257. */
    {"all strobes, age 255", 22, "16 1 255 4 3 0 0", "0", 0, 0},
    {"too many at 256", 20, "102 t", "0 13 0 3 258  3 257 0 0 0 1", 0, 0},
    {"all strobes, age 256", 22, "16 1 256 4 3 0 0", "0", 0, 0},
    {"too many at 257", 20, "102 t", "0 12 0 3 258  3 257 0 0 0 1", 0, 0},
    /* One word is no block. */
    {"a single transfer, age 255", 22, "16 1 255 1 0 0 0", "0", 0, 0},
    {"TM0 at 256", 20, "102 t", "0 0 0 0 0  4 258 0 0 0 1", 0, 0},
    {"257", 20, "103", "0 12 0 4 259  4 258 0 0 0 1", 0, 0},
    /* Three words, which no START has, are a block all the same. */
    {"three words, age 255", 22, "16 1 255 3 1 0 0", "0", 0, 0},
    {"the second strobe at 256", 20, "103 t", "0 0 0 0 0  5 259 0 0 0 1", 0, 0},
    {"the ACK at 256", 20, "203 " ACK, "0 0 0 0 0  6 515 0 1 0 0", 0, 0},

    /* Accounts in parts: 2 to 514 are 513 cycles, whichever call saw the strobe. */
    {"an account", 19, "16", "0", 0, 0},
    {"an account", 23, WAVE "2 S a3 d2", "0 0 0 0 0  3 2 1 0 0 1", 16, 0},
    {"its strobe", 23, "102 t", "0 0 0 0 0  4 258 1 0 0 1", 16, 0},
    {"nothing yet", 24, "3 16", "0 1 0", 0, 0},
    {"its ACK too late", 23, "203 " ACK, "0 12 0 4 515  4 258 1 0 0 1", 16, 0},
    {"nothing yet", 24, "3 16", "0 1 0", 0, 0},
    {"its ACK", 23, "202 " ACK, "0 0 0 0 0  5 514 1 1 0 0", 16, 0},
    {"513 cycles", 24, "3 16", "0 1 513", 0, 0},
    {"without an account", 20, "203 S d2; 303 t", "0 0 0 0 0  7 771 2 1 0 1", 0, 0},
    {"its ACK with one", 23, "403 " ACK, "0 0 0 0 0  8 1027 2 2 0 0", 16, 0},
    {"513 cycles more", 24, "3 16", "0 1 1026", 0, 0},

    /* A transfer set open has been busy for its age and one cycle, 101; with the strobe in the next 102, and
       with the ACK 256 later 358. The attention cycle was one more. */
    {"a raw age with an account", 19, "16", "0", 0, 0},
    {"a raw age with an account", 23, WAVE "2 " ATT " a3", "0 0 0 0 0  3 2 1 1 0 0", 16, 0},
    {"a raw age with an account", 22, "16 1 100 2 0 0 0", "0", 0, 0},
    {"a raw age with an account", 21, "10 1000 5 5 0", "0", 0, 0},
    {"its strobe", 23, "3 t", "0 0 0 0 0  11 1001 5 5 0 1", 16, 0},
    {"its ACK", 23, "103 " ACK, "0 0 0 0 0  12 1257 5 6 0 0", 16, 0},
    {"359 cycles", 24, "3 16", "0 1 359", 0, 0},
    /* Set anew behind a strobe it has its new age: 6, and 7 with the RESET's cycle. */
    {"anew", 22, "16 1 0 4 0 0 0", "0", 0, 0},
    {"anew, a strobe", 23, "153 t", "0 0 0 0 0  13 1337 5 6 0 1", 16, 0},
    {"anew, age 5", 22, "16 1 5 4 1 0 0", "0", 0, 0},
    {"anew, its end", 23, "154 R", "0 0 0 0 0  14 1338 5 6 1 0", 16, 0},
    {"366 cycles", 24, "3 16", "0 1 366", 0, 0},
};

/* The bus's state in a call or an answer: no wave, slot 7 the owner, limit 16. */
static void put_state(uint8_t *b, int open, int owed, int age)
{
    memset(b + 16, 0, 9);
    b[20] = 7;
    b[21] = 16;
    b[22] = (uint8_t)open;
    b[23] = (uint8_t)owed;
    b[24] = (uint8_t)age;
}

static void set_open(const char *name, int owed, int age)
{
    struct step *s = call(name, 10, 0);
    put_state(s->call, 1, owed, age);
    expect(s, 16, 9, 0);
    put_state(s->answer, 1, owed, age);
}

/* A cycle in which nobody wants the bus: ACK with the status, 255 for none, the note, and the state after. */
static void a_cycle(const char *name, int event, int status, int ack, int ends, int note, int owed, int age)
{
    struct step *s = call(name, 9, 0);
    s->call[2] = (uint8_t)event;
    s->call[3] = (uint8_t)status;
    s->call[4] = 16;
    expect(s, 1, 2, 0);
    expect(s, 3, 1, (uint64_t)ack);
    expect(s, 4, 1, 255);
    expect(s, 5, 1, (uint64_t)ends);
    expect(s, 6, 1, (uint64_t)note);
    expect(s, 16, 9, 0);
    put_state(s->answer, !ack, owed, age);
}

/* Words owed and age before a cycle, in which the slave has an event with a status; then ACK, its status, the
   note (1 short, 2 extra), words owed and age. The 256th cycle is that in which the age was 255. */
static const struct {
    const char *name;
    int owed, age, event, status, ack, ends, note, left, after;
} cycles[] = {
    {"a strobe in the first cycle", 4, 0, STROBE, 0, 0, 255, 0, 3, 0},
    {"a strobe in the 101st cycle", 4, 100, STROBE, 0, 0, 255, 0, 3, 0},
    {"the second of sixteen in the 101st cycle", 15, 100, STROBE, 0, 0, 255, 0, 14, 0},
    {"the last strobe in the 101st cycle", 2, 100, STROBE, 0, 0, 255, 0, 1, 0},
    {"a strobe in the 255th cycle", 4, 254, STROBE, 0, 0, 255, 0, 3, 0},
    {"a strobe in the 256th cycle", 4, 255, STROBE, 0, 0, 255, 0, 3, 0},
    {"the last strobe in the 256th cycle", 2, 255, STROBE, 0, 0, 255, 0, 1, 0},
    {"the first of sixteen in the 256th cycle", 16, 255, STROBE, 0, 0, 255, 0, 15, 0},
    {"an extra strobe in the first cycle", 1, 0, STROBE, 0, 0, 255, 2, 1, 1},
    {"an extra strobe in the 101st cycle", 1, 100, STROBE, 0, 0, 255, 2, 1, 101},
    {"an extra strobe in the 255th cycle", 1, 254, STROBE, 0, 0, 255, 2, 1, 255},
    {"an extra strobe in the 256th cycle", 1, 255, STROBE, 0, 1, 1, 0, 0, 0},
    {"nothing in the 255th cycle", 4, 254, NOTHING, 0, 0, 255, 0, 4, 255},
    {"nothing in the 256th cycle", 4, 255, NOTHING, 0, 1, 1, 0, 0, 0},
    {"nothing in the 256th cycle of a word", 1, 255, NOTHING, 0, 1, 1, 0, 0, 0},
    {"a finish in the 256th cycle", 1, 255, FINISH, 3, 1, 3, 0, 0, 0},
    {"a short finish in the 256th cycle", 4, 255, FINISH, 3, 1, 3, 1, 0, 0},
    {"an error in the 256th cycle", 4, 255, FINISH, 2, 1, 2, 0, 0, 0},
    {"a slave's timeout in the 256th cycle", 2, 255, FINISH, 1, 1, 1, 0, 0, 0},
    {"try again in the 256th cycle", 2, 255, FINISH, 0, 1, 0, 0, 0, 0},
    {"a short finish in the 255th cycle", 2, 254, FINISH, 3, 1, 3, 1, 0, 0},
};

/* Behind a strobe in the 256th cycle there are 256 more; an extra strobe among them restarts nothing. */
static void after_a_word(int event)
{
    const char *name = event == STROBE ? "extra strobes behind a word" : "nothing behind a word";
    set_open(name, 2, 255);
    a_cycle(name, STROBE, 0, 0, 255, 0, 1, 0);
    for (int age = 1; age <= 255; age++)
        a_cycle(name, event, 0, 0, 255, event == STROBE ? 2 : 0, 1, age);
    a_cycle(name, event, 0, 1, 1, 0, 0, 0);
}

/* A cycle that is refused restarts nothing, and a reset leaves no transfer. */
static void refused_and_reset(void)
{
    set_open("a refused strobe", 3, 255);
    struct step *s = call("a refused strobe", 9, 1);
    s->call[2] = STROBE;
    s->call[4] = 15;
    expect(s, 1, 6, 0);
    expect(s, 16, 9, 0);
    put_state(s->answer, 1, 3, 255);
    a_cycle("the same again", STROBE, 0, 0, 255, 0, 2, 0);
    set_open("a strobe in a reset", 3, 255);
    s = call("a strobe in a reset", 9, 0);
    s->call[1] = 1;
    s->call[2] = STROBE;
    s->call[4] = 16;
    expect(s, 1, 3, 0);
    expect(s, 4, 2, 0xFFFF);
    expect(s, 6, 1, 0);
    expect(s, 16, 9, 0);
    s->answer[20] = 255;
    s->answer[21] = 16;
}

/* Slot 7 asks alone for sixteen words, again and again: START in cycle 3, a word in the 256th cycle each, that
   is in cycles 259, 515 up to 3843, the timer in 4099, and the next START, parked, in 4100, 4,097 cycles
   after the first. In cycle n of the transfer n - 3 cycles have passed, a word for each 256 of them. */
static void sixteen_words(void)
{
    const char *name = "sixteen words as late as can be";
    struct step *s = call(name, 8, 0);
    s->call[1] = 16;
    for (int n = 1; n <= 4100; n++) {
        int start = n == 3 || n == 4100, ack = n == 4099, open = n >= 3 && !ack;
        s = call(name, 9, 0);
        s->call[2] = n > 3 && (n - 3) % 256 == 0 && !ack ? STROBE : NOTHING;
        s->call[4] = 16;
        s->call[5 + 7] = n <= 3 || n == 4100 ? 1 << 7 | 16 : 0;
        expect(s, 1, 1, n < 3);
        expect(s, 2, 1, (uint64_t)start);
        expect(s, 3, 1, (uint64_t)ack);
        expect(s, 4, 1, start ? 7 : 255);
        expect(s, 5, 1, ack ? 1 : 255);
        expect(s, 6, 1, 0);
        expect(s, 22, 1, (uint64_t)open);
        expect(s, 23, 1, n == 4100 ? 16 : open ? (uint64_t)(16 - (n - 3) / 256) : 0);
        expect(s, 24, 1, n == 4100 || !open ? 0 : (uint64_t)((n - 3) % 256));
    }
}

void golden_watchdog_calls(void)
{
    golden_put_calls(calls, sizeof calls / sizeof calls[0]);
    for (size_t i = 0; i < sizeof cycles / sizeof cycles[0]; i++) {
        set_open(cycles[i].name, cycles[i].owed, cycles[i].age);
        a_cycle(cycles[i].name, cycles[i].event, cycles[i].status, cycles[i].ack, cycles[i].ends,
                cycles[i].note, cycles[i].left, cycles[i].after);
    }
    after_a_word(NOTHING);
    after_a_word(STROBE);
    refused_and_reset();
    sixteen_words();
}
