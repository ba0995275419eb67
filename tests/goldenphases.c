/* Boot reports (document 02, wish 1) worked out by hand, most of them with a near twin.

   A mark of slot s and number n is written at AD = F s 0 0 0 0 with n in AD5 to AD2, that is 4 n in
   the last two digits: 3/4 is F3000010, 5/6 is F5000018. The span at a START is its stamp less the
   first record's; the records read are those up to the ACK of the last mark. */
#define _DEFAULT_SOURCE 1
#include <stdio.h>
#include <string.h>
#include "golden.h"

enum { MOST = 100 * RECORD, LINE = 4096, LINES = 2500 };
/* Records 0 and 1 are RQST in cycles 0 and 1, so a START in cycle 2 is record 2. */
#define WAVE "0 Q; 1 Q; "
#define START_34 "S T dF3000010"
#define START_56 "S T dF5000018"
/* Record 2 the START in cycle 2, record 3 the ACK in cycle 4. */
#define MARK_34 WAVE "2 " START_34 "; 4 K T t"
/* Four records, the START of the one asked for in cycle 2; the same with no mark in them. */
#define FOUND "mark 0 span 2\nrecords 4\ncomplete\n"
#define NONE_IN_4 "records 4\nrefused 10 place 0\n"

static const struct {
    const char *name, *words, *records, *lines;
    int more; /* bytes of 0 behind the records, or less at their end */
} cases[] = {
    {"a mark", "16 3/4", MARK_34, FOUND, 0},
    {"no record", "16 3/4", "", "records 0\nrefused 10 place 0\n", 0},
    /* The first record's stamp is where the span begins. */
    {"from another stamp", "16 3/4", "1000 Q; 1001 Q; 1002 " START_34 "; 1004 K T t", FOUND, 0},
    {"data is nothing", "16 3/4", WAVE "2 " START_34 "; 4 K T t dFFFFFFFF", FOUND, 0},

    /* Success is 11; TM1 alone is an error, TM0 alone a timeout, neither try again (001, 2.6.4). */
    {"an error", "16 3/4", WAVE "2 " START_34 "; 4 K T", NONE_IN_4, 0},
    {"a timeout", "16 3/4", WAVE "2 " START_34 "; 4 K t", NONE_IN_4, 0},
    {"try again", "16 3/4", WAVE "2 " START_34 "; 4 K", NONE_IN_4, 0},
    {"an error, then success", "16 3/4",
     WAVE "2 " START_34 "; 4 K T; 6 " START_34 "; 9 K T t", /* parked in cycle 6, its ACK record 5 */
     "mark 0 span 6\nrecords 6\ncomplete\n", 0},
    {"no ACK yet", "16 3/4", WAVE "2 " START_34, "records 3\nrefused 10 place 0\n", 0},
    {"an error, then an attention cycle", "16 3/4", WAVE "2 " START_34 "; 4 K T; 5 S K T t dF3000010",
     "records 5\nrefused 10 place 0\n", 0},
    {"an error, then another's success", "16 3/4",
     WAVE "2 " START_34 "; 4 K T; 5 S dF8000000; 6 K T t", "records 6\nrefused 10 place 0\n", 0},
    {"TM0 in a single transfer", "16 3/4", WAVE "2 " START_34 "; 3 t; 4 t; 5 K T t",
     "mark 0 span 2\nrecords 6\ncomplete\n", 0},
    /* 2 and 100h are 102h: an age of 256. */
    {"the last cycle of the watchdog", "16 3/4", WAVE "2 " START_34 "; 102 K T t", FOUND, 0},
    {"past the watchdog", "16 3/4", WAVE "2 " START_34 "; 103 K T t",
     "records 3\nbreach rule 12 record 3 span 259\n", 0},

    /* A block with late words before the mark (document 02, wish 5): the strobe in 102h and the ACK in 202h are at
       age 256, the mark's START, parked, in 203h, 515. A cycle later each breaks rule 12. TM0 restarts nothing
       in the mark's own transfer. */
    {"behind a block with late words", "16 3/4", WAVE "2 S d2; 102 t; 202 K T t; 203 " START_34 "; 204 K T t",
     "mark 0 span 515\nrecords 7\ncomplete\n", 0},
    {"behind a strobe at 257", "16 3/4", WAVE "2 S d2; 103 t; 202 K T t; 203 " START_34 "; 204 K T t",
     "records 3\nbreach rule 12 record 3 span 259\n", 0},
    {"behind an ACK at 257 from the strobe", "16 3/4",
     WAVE "2 S d2; 102 t; 203 K T t; 204 " START_34 "; 205 K T t",
     "records 4\nbreach rule 12 record 4 span 515\n", 0},
    {"TM0 in a mark past the watchdog", "16 3/4", WAVE "2 " START_34 "; 3 t; 103 K T t",
     "records 4\nbreach rule 12 record 4 span 259\n", 0},

    /* The number is in AD5 to AD2: 4 in AD9 to AD6 is F3000100, and that is number 0. */
    {"the number in AD6", "16 3/4", WAVE "2 S T dF3000100; 4 K T t", NONE_IN_4, 0},
    {"the number in AD6 is 0", "16 3/0", WAVE "2 S T dF3000100; 4 K T t", FOUND, 0},
    /* 30h is AD5 and AD4, number 12. */
    {"AD5 active", "16 3/4", WAVE "2 S T dF3000030; 4 K T t", NONE_IN_4, 0},
    {"AD5 active, asked for 12", "16 3/12", WAVE "2 S T dF3000030; 4 K T t", FOUND, 0},
    {"AD19 to AD6 active", "16 3/4", WAVE "2 S T dF30FFFD0; 4 K T t", FOUND, 0},
    {"AD20 active", "16 3/4", WAVE "2 S T dF3100010; 4 K T t", NONE_IN_4, 0},
    {"AD23 active", "16 3/4", WAVE "2 S T dF3800010; 4 K T t", NONE_IN_4, 0},
    {"E in place of F", "16 3/4", WAVE "2 S T dE3000010; 4 K T t", NONE_IN_4, 0},
    {"7 in place of F", "16 3/4", WAVE "2 S T d73000010; 4 K T t", NONE_IN_4, 0},
    {"slot E", "16 14/4", WAVE "2 S T dFE000010; 4 K T t", FOUND, 0},
    {"slot E, asked for F", "16 15/4", WAVE "2 S T dFE000010; 4 K T t", NONE_IN_4, 0},
    {"0/0", "16 0/0", WAVE "2 S T dF0000000; 4 K T t", FOUND, 0},
    {"15/15", "16 15/15", WAVE "2 S T dFF00003C; 4 K T t", FOUND, 0},
    {"another slot", "16 2/4", MARK_34, NONE_IN_4, 0},
    {"another number", "16 3/5", MARK_34, NONE_IN_4, 0},
    {"slot and number exchanged", "16 4/3", MARK_34, NONE_IN_4, 0},

    /* AD1 AD0: 01 and 11 halfwords, 10 a block (of 2, AD2 being inactive, so with one strobe). */
    {"a halfword 0", "16 3/4", WAVE "2 S T dF3000011; 4 K T t", NONE_IN_4, 0},
    {"a halfword 1", "16 3/4", WAVE "2 S T dF3000013; 4 K T t", NONE_IN_4, 0},
    {"a block", "16 3/4", WAVE "2 S T dF3000012; 3 t; 4 K T t", "records 5\nrefused 10 place 0\n", 0},
    {"a byte", "16 3/4", WAVE "2 S T t dF3000010; 4 K T t", NONE_IN_4, 0},
    {"a read", "16 3/4", WAVE "2 S dF3000010; 4 K T t", NONE_IN_4, 0},
    {"an attention cycle", "16 3/4", WAVE "2 S K T t dF3000010", "records 3\nrefused 10 place 0\n", 0},
    {"the lines without START", "16 3/4", WAVE "2 S; 3 T dF3000010; 4 K T t",
     "records 5\nrefused 10 place 0\n", 0},

    /* Mark 1 is looked for behind mark 0's ACK. */
    {"two marks", "16 3/4 5/6", MARK_34 "; 6 " START_56 "; 9 K T t",
     "mark 0 span 2\nmark 1 span 6 diff 4\nrecords 6\ncomplete\n", 0},
    {"the second before the first", "16 3/4 5/6",
     WAVE "2 " START_56 "; 4 K T t; 6 " START_34 "; 9 K T t",
     "mark 0 span 6\nrecords 6\nrefused 10 place 1\n", 0},
    {"the second before the first and behind it", "16 3/4 5/6",
     WAVE "2 " START_56 "; 4 K T t; 6 " START_34 "; 9 K T t; B " START_56 "; C K T t",
     "mark 0 span 6\nmark 1 span 11 diff 5\nrecords 8\ncomplete\n", 0},
    {"the same twice, written once", "16 3/4 3/4", MARK_34,
     "mark 0 span 2\nrecords 4\nrefused 10 place 1\n", 0},
    {"the same twice, written twice", "16 3/4 3/4", MARK_34 "; 6 " START_34 "; 7 K T t",
     "mark 0 span 2\nmark 1 span 6 diff 4\nrecords 6\ncomplete\n", 0},
    {"the same once, written twice", "16 3/4", MARK_34 "; 6 " START_34 "; 7 K T t", FOUND, 0},
    {"the same twice, the second in error", "16 3/4 3/4", MARK_34 "; 6 " START_34 "; 7 K T",
     "mark 0 span 2\nrecords 6\nrefused 10 place 1\n", 0},
    {"another mark between", "16 3/4 3/4",
     MARK_34 "; 6 " START_56 "; 7 K T t; 8 " START_34 "; A K T t",
     "mark 0 span 2\nmark 1 span 8 diff 6\nrecords 8\ncomplete\n", 0},

    /* A RESET aborts the write and forgets no mark. */
    {"a RESET between", "16 3/4",
     WAVE "2 " START_34 "; 3 R; 4 Q; 5 Q; 6 S dF8000000; 7 K T t", "records 8\nrefused 10 place 0\n", 0},
    {"a RESET with the ACK", "16 3/4", WAVE "2 " START_34 "; 4 R K T t", NONE_IN_4, 0},
    {"a RESET with the START", "16 3/4", "0 R " START_34 "; 1 Q; 2 Q; 3 S dF8000000; 4 K T t",
     "records 5\nrefused 10 place 0\n", 0},
    {"a RESET, and written again", "16 3/4",
     WAVE "2 " START_34 "; 3 R; 4 Q; 5 Q; 6 " START_34 "; 7 K T t",
     "mark 0 span 6\nrecords 8\ncomplete\n", 0},
    {"a RESET between two marks", "16 3/4 5/6", MARK_34 "; 5 R; 6 Q; 7 Q; 8 " START_56 "; A K T t",
     "mark 0 span 2\nmark 1 span 8 diff 6\nrecords 9\ncomplete\n", 0},

    /* FFFFFFFE to 3 is 5 (P6): 2 is the span at the first, 7 at the second. */
    {"a wrap between two marks", "16 3/4 5/6",
     "FFFFFFFC Q; FFFFFFFD Q; FFFFFFFE " START_34 "; FFFFFFFF K T t; 3 " START_56 "; 4 K T t",
     "mark 0 span 2\nmark 1 span 7 diff 5\nrecords 6\ncomplete\n", 0},
    {"a wrap within a mark", "16 3/4",
     "FFFFFFFD Q; FFFFFFFE Q; FFFFFFFF " START_34 "; 3 K T t", FOUND, 0},
    /* Three differences of 2^31 = 2147483648 behind cycle 3, and one cycle: 6442450944 + 4. */
    {"a span over 2^32", "16 3/4 5/6",
     WAVE "2 " START_34 "; 3 K T t; 80000003; 3; 80000003; 80000004 " START_56 "; 80000005 K T t",
     "mark 0 span 2\nmark 1 span 6442450948 diff 6442450946\nrecords 9\ncomplete\n", 0},

    /* It stops at the last mark's ACK; before it a breach is told, its record not counted. */
    {"a breach one record behind", "16 3/4", MARK_34 "; 4", FOUND, 0},
    {"a breach one record behind, a mark more", "16 3/4 3/4", MARK_34 "; 4",
     "mark 0 span 2\nrecords 4\nbreach rule 2 record 4 span 4\n", 0},
    {"a breach in the ACK's record", "16 3/4", WAVE "2 " START_34 "; 4 K T t V P",
     "records 3\nbreach rule 3 record 3 span 4\n", 0},
    {"its twin", "16 3/4", WAVE "2 " START_34 "; 4 K T t V", FOUND, 0},
    {"spare bits in the ACK's record", "16 3/4", WAVE "2 " START_34 "; 4 K T t s1",
     "records 3\nbreach rule 1 record 3 span 2\n", 0},
    {"a breach in the START's record", "16 3/4", "0 Q; 1 " START_34 "; 2 K T t",
     "records 1\nbreach rule 8b record 1 span 1\n", 0},
    {"a breach in the first record", "16 3/4", "0 K; 1 Q; 2 Q; 3 " START_34 "; 4 K T t",
     "records 0\nbreach rule 5 record 0 span 0\n", 0},
    {"a torn piece behind", "16 3/4", MARK_34, FOUND, 5},
    {"a torn piece behind, a mark more", "16 3/4 5/6", MARK_34,
     "mark 0 span 2\nrecords 4\nrefused 1\n", 5},
    {"the ACK's record torn", "16 3/4", MARK_34, "records 3\nrefused 1\n", -1},
    {"a torn piece alone", "16 3/4", "0", "records 0\nrefused 1\n", -15},
    /* 1 wins over 10, a breach over 1: the breach comes before the end. */
    {"a breach, and a torn piece", "16 3/4", WAVE "2 S; 3 K T t; 3",
     "records 4\nbreach rule 2 record 4 span 3\n", 9},

    /* Limit 1: the second START at ARB 3 in one wave breaks rule 11; with 2 it doesn't. */
    {"limit 2", "2 3/4 5/6",
     WAVE "2 Q a3 " START_34 "; 3 Q K T t; 4 Q; 5 a3 " START_56 "; 6 K T t",
     "mark 0 span 2\nmark 1 span 5 diff 3\nrecords 7\ncomplete\n", 0},
    {"limit 1", "1 3/4 5/6",
     WAVE "2 Q a3 " START_34 "; 3 Q K T t; 4 Q; 5 a3 " START_56 "; 6 K T t",
     "mark 0 span 2\nrecords 5\nbreach rule 11 record 5 span 5\n", 0},

    /* What the breach tells (wish 2), as the judge tells it in goldenbreach.c. */
    {"8c under limit 1, and 11", "1 3/4", WAVE "2 Q S K T t a7; 3 Q; 4 S a7",
     "records 4\nbreach rule 8c record 4 span 4\n", 0},
    {"11 under limit 1, a cycle later", "1 3/4", WAVE "2 Q S K T t a7; 3 Q; 4 Q; 5 S a7",
     "records 5\nbreach rule 11 record 5 span 5\n", 0},
    {"8a behind a mark and a RESET", "16 3/4 5/6", MARK_34 "; 5 R; 6 " START_56,
     "mark 0 span 2\nrecords 5\nbreach rule 8a record 5 span 6\n", 0},
    {"8b behind a mark", "16 3/4 5/6", MARK_34 "; 5 Q; 6 " START_56,
     "mark 0 span 2\nrecords 5\nbreach rule 8b record 5 span 6\n", 0},
    {"8c behind a mark", "16 3/4 5/6", WAVE "2 Q " START_34 "; 3 Q K T t; 4 " START_56,
     "mark 0 span 2\nrecords 4\nbreach rule 8c record 4 span 4\n", 0},
    {"8a over a wrap", "16 3/4", "FFFFFFFE; 3 " START_34,
     "records 1\nbreach rule 8a record 1 span 5\n", 0},
    {"5 at a span over 2^32", "16 3/4", "0; 80000000; 0; 1 K",
     "records 3\nbreach rule 5 record 3 span 4294967297\n", 0},
    {"9 in a gap behind a mark", "16 3/4 5/6", MARK_34 "; 5 Q; 15 Q",
     "mark 0 span 2\nrecords 5\nbreach rule 9 record 5 span 21\n", 0},
    {"1 behind a gap tells the span before it", "16 3/4 5/6", MARK_34 "; 5; 15 s1",
     "mark 0 span 2\nrecords 5\nbreach rule 1 record 5 span 5\n", 0},
};

static void one(const char *program, const char *name, const char *words, const uint8_t *bytes,
                size_t len, const char *lines)
{
    char line[LINE], told[200];
    snprintf(line, sizeof line, "%s %s", program, words);
    snprintf(told, sizeof told, "boot report: %s", name);
    golden_recording(line, told, bytes, len, lines);
}

/* 32 marks, all 3/4: parked STARTs in cycles 2, 4, 6 and on, each with its ACK in the next cycle, so
   mark k has span 2 + 2 k and its ACK is record 3 + 2 k. A 33rd write isn't looked at. */
static void all_32(const char *program, int written)
{
    uint8_t bytes[MOST];
    char told[LINES] = WAVE, words[400] = "16", lines[LINES] = "";
    for (int k = 0; k < written; k++)
        snprintf(told + strlen(told), sizeof told - strlen(told), "%X " START_34 "; %X K T t; ",
                 2 + 2 * k, 3 + 2 * k);
    for (int k = 0; k < 32; k++)
        strcat(words, " 3/4");
    for (int k = 0; k < 32 && k < written; k++) {
        snprintf(lines + strlen(lines), sizeof lines - strlen(lines), "mark %d span %d%s\n", k,
                 2 + 2 * k, k > 0 ? " diff 2" : "");
    }
    strcat(lines, written < 32 ? "records 64\nrefused 10 place 31\n" : "records 66\ncomplete\n");
    one(program, "32 marks", words, bytes, golden_tell(told, bytes), lines);
}

void golden_phases(const char *program)
{
    static uint8_t bytes[MOST];
    for (size_t i = 0; i < sizeof cases / sizeof cases[0]; i++) {
        memset(bytes, 0, sizeof bytes);
        long len = (long)golden_tell(cases[i].records, bytes) + cases[i].more;
        one(program, cases[i].name, cases[i].words, bytes, (size_t)len, cases[i].lines);
    }
    all_32(program, 31);
    all_32(program, 32);
    all_32(program, 33);
}
