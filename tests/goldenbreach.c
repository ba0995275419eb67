/* What a breach tells besides its rule (document 02, wish 2), worked out by hand: which kind of rule
   8 it is, most with a near twin, and the span at its record.

   RQST one cycle before a START: inactive, and no wave's START since the reset, is 8a; active, and
   inactive two cycles before, 8b; active in both, and the wave's last START one or two cycles before,
   8c. The span is the record's stamp less the first record's, and 2^32 more for each time that the
   stamps have wrapped; a breach of rule 1 or 2 tells the span of the record before it. */
#include <stdio.h>
#include <string.h>
#include "golden.h"

/* Records 0 and 1 are RQST in cycles 0 and 1, so a START in cycle 2 is record 2, the wave's. */
#define WAVE "0 Q; 1 Q; "
/* An attention cycle. */
#define ATT "S K T t"

static const struct judged cases[] = {
    /* 8a: nobody has started since the reset that a recording follows. */
    {"8a, an attention cycle", "0 " ATT, "0 0 0 0 0 0", "breach rule 8a record 0 span 0"},
    {"8a, RQST in its own cycle", "0 Q S", "0 0 0 0 0 0", "breach rule 8a record 0 span 0"},
    {"8a, cycles before it", "7; 9 S", "1 0 0 0 0 0", "breach rule 8a record 1 span 2"},
    {"8a, after a wave's START", WAVE "2 " ATT "; 3 S", "4 3 2 1 0 1", "conforming"},
    {"8a, long after a wave's START", WAVE "2 " ATT "; 1002 S", "4 4098 2 1 0 1", "conforming"},
    {"8a, after a RESET", WAVE "2 " ATT "; 3 R; 4 S", "4 3 1 1 0 0",
     "breach rule 8a record 4 span 4"},
    {"8a, a gap after the RESET", WAVE "2 " ATT "; 3 R; 5 S", "4 3 1 1 0 0",
     "breach rule 8a record 4 span 5"},
    {"8a, a wave's START after the RESET", WAVE "2 " ATT "; 3 R; 4 Q; 5 Q; 6 " ATT "; 7 S",
     "8 7 3 2 0 1", "conforming"},
    {"8a, a START in the RESET's record is none", WAVE "2 R S Q; 3 S", "3 2 0 0 0 0",
     "breach rule 8a record 3 span 3"},
    {"8a, the wave fell in a gap", WAVE "4 Q S a2", "2 1 0 0 0 0", "breach rule 8a record 2 span 4"},
    {"9, it fell in a gap, with an owner", WAVE "2 " ATT "; 3 Q; 5 S", "4 3 1 1 0 0",
     "breach rule 9 record 4 span 5"},

    /* 8b: RQST for one cycle. */
    {"8b, the first cycle of a wave", "0 Q; 1 S", "1 0 0 0 0 0", "breach rule 8b record 1 span 1"},
    {"8b, an attention cycle", "0 Q; 1 Q " ATT, "1 0 0 0 0 0", "breach rule 8b record 1 span 1"},
    {"8b, RQST for two cycles", "0 Q; 1 Q; 2 S", "3 2 1 0 0 1", "conforming"},
    {"8b, RQST a cycle before, then none", "0 Q; 2 S", "1 0 0 0 0 0",
     "breach rule 8a record 1 span 2"},
    {"8b, a gap in the wave", "0 Q; 2 Q; 3 S", "1 0 0 0 0 0", "breach rule 9 record 1 span 2"},
    /* RQST falls in the START of cycle 2, so a new wave begins in 3, and it has had no START. */
    {"8b, two cycles after another wave's START", WAVE "2 " ATT "; 3 Q; 4 S", "4 3 1 1 0 0",
     "breach rule 8b record 4 span 4"},
    {"8b, three cycles after another wave's START", WAVE "2 " ATT "; 4 Q; 5 S", "4 4 1 1 0 0",
     "breach rule 8b record 4 span 5"},
    {"8b, a new wave for two cycles", WAVE "2 " ATT "; 3 Q; 4 Q; 5 S", "6 5 2 1 0 1", "conforming"},
    /* The parked START in cycle 3, in which the wave begins, is none of the wave's. */
    {"8b, after a parked START", WAVE "2 " ATT "; 3 Q " ATT "; 4 S", "4 3 2 2 0 0",
     "breach rule 8b record 4 span 4"},
    {"8b, two cycles after a parked START", WAVE "2 " ATT "; 3 Q " ATT "; 4 Q; 5 S", "6 5 3 2 0 1",
     "conforming"},
    {"8b, RQST in a RESET before it", "0 Q; 1 R Q; 2 Q; 3 S", "3 2 0 0 0 0",
     "breach rule 8b record 3 span 3"},
    {"8b, two cycles behind the RESET", "0 Q; 1 R Q; 2 Q; 3 Q; 4 S", "5 4 1 0 0 1", "conforming"},

    /* 8c: the wave's last START one or two cycles before, RQST active ever since. */
    {"8c, one cycle after", WAVE "2 Q " ATT "; 3 S", "3 2 1 1 0 0", "breach rule 8c record 3 span 3"},
    {"8c, two cycles after", WAVE "2 Q " ATT "; 3 Q; 4 S", "4 3 1 1 0 0",
     "breach rule 8c record 4 span 4"},
    {"8c, three cycles after", WAVE "2 Q " ATT "; 3 Q; 4 Q; 5 S", "6 5 2 1 0 1", "conforming"},
    {"8c, RQST falls in the first START", WAVE "2 " ATT "; 3 S", "4 3 2 1 0 1", "conforming"},
    {"8c, attention cycles both", WAVE "2 Q " ATT "; 3 Q; 4 Q " ATT, "4 3 1 1 0 0",
     "breach rule 8c record 4 span 4"},
    {"8c, behind a transfer", WAVE "2 Q S; 3 Q K T t; 4 S", "4 3 1 1 0 0",
     "breach rule 8c record 4 span 4"},
    {"8c, a cycle later behind a transfer", WAVE "2 Q S; 3 Q K T t; 4 Q; 5 S", "6 5 2 1 0 1",
     "conforming"},
    {"8c, after the second START", WAVE "2 Q " ATT "; 3 Q; 4 Q; 5 Q " ATT "; 6 Q; 7 S",
     "7 6 2 2 0 0", "breach rule 8c record 7 span 7"},
    {"8c, three cycles after the second", WAVE "2 Q " ATT "; 3 Q; 4 Q; 5 Q " ATT "; 6 Q; 7 Q; 8 S",
     "9 8 3 2 0 1", "conforming"},
    {"8c, the second wave's", WAVE "2 " ATT "; 3 Q; 4 Q; 5 Q " ATT "; 6 Q S", "6 5 2 2 0 0",
     "breach rule 8c record 6 span 6"},
    /* A gap drops the wave: the START is parked, and RQST has fallen without one. */
    {"8c, a gap between", WAVE "2 Q " ATT "; 4 S", "3 2 1 1 0 0", "breach rule 9 record 3 span 4"},

    /* With other rules in the same record the lowest number is told, with a letter for 8 alone. */
    {"8a and 3", "0 S V P", "0 0 0 0 0 0", "breach rule 3 record 0 span 0"},
    {"8a and 7", "0; 1 S d3E", "1 0 0 0 0 0", "breach rule 7 record 1 span 1"},
    {"8b and 6", "0 Q; 1 S K T", "1 0 0 0 0 0", "breach rule 6 record 1 span 1"},
    {"8c and 4", WAVE "2 Q S; 3 S", "3 2 1 0 0 1", "breach rule 4 record 3 span 3"},
    {"8c and 7", WAVE "2 Q " ATT "; 3 S d3E", "3 2 1 1 0 0", "breach rule 7 record 3 span 3"},
    {"8c and 10", WAVE "2 Q " ATT " a4; 3 Q; 4 S a5", "4 3 1 1 0 0",
     "breach rule 8c record 4 span 4"},
    {"10, a cycle later", WAVE "2 Q " ATT " a4; 3 Q; 4 Q; 5 S a5", "5 4 1 1 0 0",
     "breach rule 10 record 5 span 5"},
    {"8a and 1", "3; 4 S s1", "1 0 0 0 0 0", "breach rule 1 record 1 span 0"},
    {"8a and 2", "3; 3 S", "1 0 0 0 0 0", "breach rule 2 record 1 span 0"},

    /* FFFFFFFE to 3 is 5 (P6). */
    {"span, a wrap, 5", "FFFFFFFE; 3 K", "1 0 0 0 0 0", "breach rule 5 record 1 span 5"},
    {"span, a wrap, 8a", "FFFFFFFE; 3 S", "1 0 0 0 0 0", "breach rule 8a record 1 span 5"},
    {"span, a wrap, 8b", "FFFFFFFF Q; 0 S", "1 0 0 0 0 0", "breach rule 8b record 1 span 1"},
    {"span, a wrap, 8b, two cycles", "FFFFFFFE Q; FFFFFFFF Q; 0 S", "3 2 1 0 0 1", "conforming"},
    {"span, a wrap, 8c", "FFFFFFFD Q; FFFFFFFE Q; FFFFFFFF Q " ATT "; 0 Q; 1 S", "4 3 1 1 0 0",
     "breach rule 8c record 4 span 4"},
    {"span, a wrap, 9", "FFFFFFFF Q; 1 Q", "1 0 0 0 0 0", "breach rule 9 record 1 span 2"},
    {"span, a wrap before 2", "FFFFFFFE; 3; 3", "2 5 0 0 0 0", "breach rule 2 record 2 span 5"},
    {"span, a wrap before 1", "FFFFFFFE; 3; 9 s1", "2 5 0 0 0 0", "breach rule 1 record 2 span 5"},
    {"span, a wrap at 1", "FFFFFFFE; 3 s1", "1 0 0 0 0 0", "breach rule 1 record 1 span 0"},

    /* Each 80000000 that the stamp moves on is 2147483648, two of them 4294967296. */
    {"span, 2^31", "0; 80000000 K", "1 0 0 0 0 0", "breach rule 5 record 1 span 2147483648"},
    {"span, 2^32", "0; 80000000; 0 K", "2 2147483648 0 0 0 0",
     "breach rule 5 record 2 span 4294967296"},
    {"span, 2^33 and 5", "0; 80000000; 0; 80000000; 0; 5 S", "5 8589934592 0 0 0 0",
     "breach rule 8a record 5 span 8589934597"},
    {"span, 2^32, rule 2", "0; 80000000; 0; 0", "3 4294967296 0 0 0 0",
     "breach rule 2 record 3 span 4294967296"},
    {"span, 2^32, rule 1", "0; 80000000; 0; 1 s1", "3 4294967296 0 0 0 0",
     "breach rule 1 record 3 span 4294967296"},
    /* Three of 2147483648, which are 6442450944, and five cycles. */
    {"span, 3 x 2^31 and 5, 8c",
     "0; 80000000; 0; 80000000; 80000001 Q; 80000002 Q; 80000003 Q " ATT "; 80000004 Q; 80000005 S",
     "8 6442450948 1 1 0 0", "breach rule 8c record 8 span 6442450949"},
    {"span, 2^32 and 1, 8b", "0; 80000000; 0 Q; 1 S", "3 4294967296 0 0 0 0",
     "breach rule 8b record 3 span 4294967297"},

    /* What missing cycles break is told with all of them counted. */
    {"span, 9 in a gap", "0 Q; 100 Q", "1 0 0 0 0 0", "breach rule 9 record 1 span 256"},
    {"span, 9 in the longest gap", "0 Q; 80000000", "1 0 0 0 0 0",
     "breach rule 9 record 1 span 2147483648"},
    {"span, 12 in a gap", "20 Q; 21 Q; 22 S; 123 K", "3 2 1 0 0 1",
     "breach rule 12 record 3 span 259"},
    {"span, 12 in the longest gap", WAVE "2 S; 80000002", "3 2 1 0 0 1",
     "breach rule 12 record 3 span 2147483650"},
    /* F3 less FFFFFFF2 is 101h, an age of 257; less FFFFFFF0 it is 103h. */
    {"span, 12 over a wrap", "FFFFFFF0 Q; FFFFFFF1 Q; FFFFFFF2 S; F3 K", "3 2 1 0 0 1",
     "breach rule 12 record 3 span 259"},
    {"span, 12 over a wrap, twin", "FFFFFFF0 Q; FFFFFFF1 Q; FFFFFFF2 S; F2 K", "4 258 1 1 0 0",
     "conforming"},
    {"span, 13 behind a gap", "100 Q; 101 Q; 102 S d2; 103 t; 10A t", "4 3 1 0 0 1",
     "breach rule 13 record 4 span 10"},
    {"span, 3 behind a gap", "A; 1A V P", "1 0 0 0 0 0", "breach rule 3 record 1 span 16"},

    /* The first record has nothing before it, whatever its stamp. */
    {"span, first record, 1", "12345678 s1", "0 0 0 0 0 0", "breach rule 1 record 0 span 0"},
    {"span, first record, 3", "FFFFFFFF V P", "0 0 0 0 0 0", "breach rule 3 record 0 span 0"},
    {"span, first record, 5", "80000000 K", "0 0 0 0 0 0", "breach rule 5 record 0 span 0"},
    {"span, first record, 8a", "FFFFFFFF S", "0 0 0 0 0 0", "breach rule 8a record 0 span 0"},

    /* A RESET moves the span on and doesn't begin it again; in its record only 1 and 2 are judged. */
    {"span, 1 in a RESET", "5; A R s1", "1 0 0 0 0 0", "breach rule 1 record 1 span 0"},
    {"span, 2 in a RESET", "5; A; A R", "2 5 0 0 0 0", "breach rule 2 record 2 span 5"},
    {"span, 1 behind a RESET", "5; A R; C s1", "2 5 0 0 0 0", "breach rule 1 record 2 span 5"},
    {"span, 5 behind a RESET", "5; A R; C K", "2 5 0 0 0 0", "breach rule 5 record 2 span 7"},
    {"span, 8a behind a RESET", "0; 10 R; 11 S", "2 16 0 0 0 0", "breach rule 8a record 2 span 17"},
    {"span, an abort before it", WAVE "2 S; 300 R; 302 S", "4 768 1 0 1 0",
     "breach rule 8a record 4 span 770"},
};

/* Calls on one judge and its tally, in order. The words of 19 are the limit, of 20 the records, of
   21 the tally's five numbers, of 22 limit, open, age, words, strobes, turn and ARB. An answer of 20
   is its refusal, rule, kind (1 for 8a, 2 for 8b, 3 for 8c), record, span at the breach and the six
   totals; every byte that isn't among these is 0. */
static const struct {
    const char *name;
    int op;
    const char *words, *answer;
    int less; /* bytes of the last record that are missing */
} calls[] = {
    {"in parts", 19, "16", "", 0},
    {"in parts", 20, WAVE "2 Q " ATT " a9", "0 0 0 0 0  3 2 1 1 0 0", 0},
    {"in parts", 20, "3 Q", "0 0 0 0 0  4 3 1 1 0 0", 0},
    {"in parts, 8c", 20, "4 S a9", "0 8 3 4 4  4 3 1 1 0 0", 0},
    {"the same again", 20, "4 S a9", "0 8 3 4 4  4 3 1 1 0 0", 0},
    {"nothing after a breach", 20, "", "0 0 0 0 0  4 3 1 1 0 0", 0},
    {"8c again", 20, "4 S a9", "0 8 3 4 4  4 3 1 1 0 0", 0},
    {"torn after a breach", 20, "4 S a9", "1 0 0 0 0  4 3 1 1 0 0", 1},
    {"8c, then torn", 20, "4 S a9; 5 S", "1 0 0 0 0  4 3 1 1 0 0", 1},
    {"a cycle later", 20, "4 Q; 5 S a9", "0 0 0 0 0  6 5 2 1 0 1", 0},
    {"4 after 8c", 20, "6 S", "0 4 0 6 6  6 5 2 1 0 1", 0},
    {"5 within a call", 20, "6 K T t; 8 K", "0 5 0 7 8  7 6 2 2 0 0", 0},
    {"8b within a call", 20, "8 " ATT "; 9 Q; A S", "0 8 2 9 10  9 9 3 3 0 0", 0},
    {"8a within a call", 20, "A R; B S", "0 8 1 10 11  10 10 3 3 0 0", 0},
    {"1 tells the tally's", 20, "B s1", "0 1 0 10 10  10 10 3 3 0 0", 0},
    {"1 before 8a", 20, "B S s1", "0 1 0 10 10  10 10 3 3 0 0", 0},
    {"2 tells the tally's", 20, "A", "0 2 0 10 10  10 10 3 3 0 0", 0},
    {"2 in a RESET", 20, "9 R", "0 2 0 10 10  10 10 3 3 0 0", 0},
    {"1 in a RESET", 20, "10 R s8", "0 1 0 10 10  10 10 3 3 0 0", 0},
    {"8a in the third record", 20, "10; 12; 14 S", "0 8 1 12 20  12 18 3 3 0 0", 0},

    {"a breach is no START of the wave's", 19, "16", "", 0},
    {"8b", 20, "0 Q; 1 S", "0 8 2 1 1  1 0 0 0 0 0", 0},
    {"8a behind it", 20, "3 S", "0 8 1 1 3  1 0 0 0 0 0", 0},
    {"8b, and more behind it", 20, "1 S; 2 S", "0 8 2 1 1  1 0 0 0 0 0", 0},
    {"9 behind it", 20, "2 Q", "0 9 0 1 2  1 0 0 0 0 0", 0},
    {"and on", 20, "1 Q; 2 S", "0 0 0 0 0  3 2 1 0 0 1", 0},

    /* A tally set raw beside a judge that has no stamp yet: the first record adds nothing. */
    {"a raw tally", 19, "16", "", 0},
    {"a raw tally", 21, "10 1000 5 4 1", "", 0},
    {"8a in the first record", 20, "77 S", "0 8 1 10 1000  10 1000 5 4 1 0", 0},
    {"5 in the first record", 20, "FFFFFFFF K", "0 5 0 10 1000  10 1000 5 4 1 0", 0},
    {"the first record", 20, "77", "0 0 0 0 0  11 1000 5 4 1 0", 0},
    {"8a in the second", 20, "79 S", "0 8 1 11 1002  11 1000 5 4 1 0", 0},
    {"1 in the second", 20, "79 S s1", "0 1 0 11 1000  11 1000 5 4 1 0", 0},
    /* 4294967301 is 2^32 + 5; the judge's stamp is still 77. */
    {"a raw tally, 2^32 and 5", 21, "3 4294967301 0 0 0", "", 0},
    {"8a, 2 more", 20, "79 S", "0 8 1 3 4294967303  3 4294967301 0 0 0 0", 0},
    {"2, none", 20, "77", "0 2 0 3 4294967301  3 4294967301 0 0 0 0", 0},
    {"5, 2^31 more", 20, "80000077 K", "0 5 0 3 6442450949  3 4294967301 0 0 0 0", 0},
    {"2, too far", 20, "80000078 K", "0 2 0 3 4294967301  3 4294967301 0 0 0 0", 0},

    /* The longest: 2^30 - 1 records, each 2^31 behind the one before: 2^61 - 2^31, and 2^31 more. */
    {"the longest span", 19, "16", "", 0},
    {"the longest span", 20, "0", "0 0 0 0 0  1 0 0 0 0 0", 0},
    {"the longest span", 21, "1073741823 2305843007066210304 0 0 0", "", 0},
    {"8a at 2^61", 20, "80000000 S",
     "0 8 1 1073741823 2305843009213693952  1073741823 2305843007066210304 0 0 0 0", 0},
    {"refused 8 after a breach", 20, "80000000 S; 80000001 S",
     "8 0 0 0 0  1073741823 2305843007066210304 0 0 0 0", 0},
    {"8a again", 20, "80000000 S",
     "0 8 1 1073741823 2305843009213693952  1073741823 2305843007066210304 0 0 0 0", 0},
    {"limit 0", 22, "0 0 0 0 0 0 0", "", 0},
    {"refused 5 after a breach", 20, "80000000 S",
     "5 0 0 0 0  1073741823 2305843007066210304 0 0 0 0", 0},

    /* In a wave's first cycle 8b is told whatever turn is set: RQST was inactive before it. */
    {"a raw turn", 19, "16", "", 0},
    {"a raw turn", 20, "0 Q", "0 0 0 0 0  1 0 0 0 0 0", 0},
    {"a raw turn", 22, "16 0 0 0 0 1 5", "", 0},
    {"8b under a raw turn", 20, "1 S a3", "0 8 2 1 1  1 0 0 0 0 0", 0},

    /* Limit 3 and a turn of 3 at ARB 5, so one more START there breaks rule 11, one above it 10. */
    {"a full turn", 19, "16", "", 0},
    {"a full turn", 20, WAVE "2 Q " ATT " a5", "0 0 0 0 0  3 2 1 1 0 0", 0},
    {"a full turn", 22, "3 0 0 0 0 3 5", "", 0},
    {"8c and 11", 20, "3 S a5", "0 8 3 3 3  3 2 1 1 0 0", 0},
    {"8c and 10", 20, "3 Q; 4 S a6", "0 8 3 4 4  4 3 1 1 0 0", 0},
    {"11 a cycle later", 20, "4 Q; 5 S a5", "0 11 0 5 5  5 4 1 1 0 0", 0},
    {"10 a cycle later", 20, "5 S a6", "0 10 0 5 5  5 4 1 1 0 0", 0},
    {"neither", 20, "5 S a4", "0 0 0 0 0  6 5 2 1 0 1", 0},

    {"a raw age", 19, "16", "", 0},
    {"a raw age", 20, "0", "0 0 0 0 0  1 0 0 0 0 0", 0},
    {"a raw age", 22, "16 1 256 1 0 0 0", "", 0},
    {"12", 20, "1", "0 12 0 1 1  1 0 0 0 0 1", 0},
    {"raw strobes", 22, "16 1 0 4 3 0 0", "", 0},
    {"13 behind a gap", 20, "2 t", "0 13 0 1 2  1 0 0 0 0 1", 0},
};

void golden_fields(const char *numbers, uint8_t *bytes, int at, const int *widths, int count)
{
    for (int i = 0, n; i < count; i++, numbers += n) {
        unsigned long long v;
        if (sscanf(numbers, "%llu%n", &v, &n) != 1)
            return;
        put(bytes, at, widths[i], v);
        at += widths[i];
    }
}

/* The numbers are told in another order than the answer's bytes have them. */
void golden_expect_judging(struct step *s, const char *answer)
{
    unsigned long long n[11] = {0};
    sscanf(answer, "%llu %llu %llu %llu %llu %llu %llu %llu %llu %llu %llu", &n[0], &n[1], &n[2],
           &n[3], &n[4], &n[5], &n[6], &n[7], &n[8], &n[9], &n[10]);
    expect(s, 0, CALL, 0);
    expect(s, 0, 1, n[0]);
    expect(s, 1, 1, n[1]);
    expect(s, 2, 4, n[3]);
    expect(s, 6, 4, n[5]);
    expect(s, 10, 8, n[6]);
    expect(s, 18, 4, n[7]);
    expect(s, 22, 4, n[8]);
    expect(s, 26, 4, n[9]);
    expect(s, 30, 1, n[10]);
    expect(s, 31, 1, n[2]);
    expect(s, 32, 8, n[4]);
}

void golden_setting(struct step *s, const char *words)
{
    static const int tally[] = {4, 8, 4, 4, 4}, judge[] = {1, 1, 2, 1, 1, 1, 1}, limit[] = {1},
                     entry[] = {1, 4, 8};
    switch (s->call[0]) {
    case 19: golden_fields(words, s->call, 1, limit, 1); break;
    case 21: golden_fields(words, s->call, 1, tally, 5); break;
    case 22: golden_fields(words, s->call, 1, judge, 7); break;
    case 25: golden_fields(words, s->call, 1, entry, 3); break;
    }
}

void golden_breach_calls(void)
{
    for (size_t i = 0; i < sizeof calls / sizeof calls[0]; i++) {
        struct step *s = call(calls[i].name, calls[i].op, 0);
        if (calls[i].op == 20) {
            s->call[1] = (uint8_t)(golden_tell(calls[i].words, s->call + 2) - (size_t)calls[i].less);
            golden_expect_judging(s, calls[i].answer);
        } else {
            golden_setting(s, calls[i].words);
        }
    }
}

void golden_breaches(const char *command)
{
    golden_judged(command, cases, sizeof cases / sizeof cases[0]);
}
