/* The driver's calls on accounts (document 02, wish 3), worked out by hand, on one judge with its tally
   and account, in order. */
#include <stdio.h>
#include <string.h>
#include "golden.h"

#define WAVE "0 Q; 1 Q; "
#define ATT "S K T t"
#define ACK "K T t"

/* The words of 19 are the limit, of 21 the tally's five numbers, of 22 limit, open, age, words,
   strobes, turn and ARB, of 25 entry, STARTs and busy cycles, of 24 slot and entries lent; of 20 and 23
   the records, and 23 has the entries lent behind. An answer of 24 is its refusal, STARTs and busy cycles;
   one of 20 or 23 its refusal, rule, kind, record, span at the breach and the six totals. Every other
   byte is 0. */
static const struct account_call counted[] = {
    {"nothing counted yet", 24, "7 16", "0 0 0", 0, 0},
    {"in parts", 19, "16", "0", 0, 0},
    {"a START", 23, WAVE "2 S a3", "0 0 0 0 0  3 2 1 0 0 1", 16, 0},
    {"still open", 24, "3 16", "0 1 0", 0, 0},
    {"another slot", 24, "0 16", "0 0 0", 0, 0},
    {"nothing", 23, "", "0 0 0 0 0  3 2 1 0 0 1", 16, 0},
    {"its ACK", 23, "4 " ACK, "0 0 0 0 0  4 4 1 1 0 0", 16, 0},
    {"three cycles", 24, "3 16", "0 1 3", 0, 0},
    {"slot 16", 24, "16 16", "2 0 0", 0, 0},
    {"slot 255", 24, "255 16", "2 0 0", 0, 0},
    {"fifteen entries", 24, "3 15", "1 0 0", 0, 0},
    {"seventeen entries", 24, "3 17", "1 0 0", 0, 0},
    {"no entries", 24, "3 0", "1 0 0", 0, 0},
    {"255 entries are seventeen", 24, "3 255", "1 0 0", 0, 0},
    {"slot 16 of fifteen", 24, "16 15", "1 0 0", 0, 0},
    {"slot 16 of seventeen", 24, "16 17", "1 0 0", 0, 0},
    {"parked, fifteen entries", 23, "5 S a9; 6 " ACK, "1 0 0 0 0  4 4 1 1 0 0", 15, 0},
    {"parked, seventeen entries", 23, "5 S a9; 6 " ACK, "1 0 0 0 0  4 4 1 1 0 0", 17, 0},
    {"parked, no entries", 23, "5 S a9; 6 " ACK, "1 0 0 0 0  4 4 1 1 0 0", 0, 0},
    {"parked, torn", 23, "5 S a9; 6 " ACK, "1 0 0 0 0  4 4 1 1 0 0", 16, 1},
    {"parked, both", 23, "5 S a9; 6 " ACK, "1 0 0 0 0  4 4 1 1 0 0", 17, 1},
    {"nothing moved", 24, "3 16", "0 1 3", 0, 0},
    {"parked", 23, "5 S a9; 6 " ACK, "0 0 0 0 0  6 6 2 2 0 0", 16, 0},
    {"the owner's", 24, "3 16", "0 2 5", 0, 0},
    {"not ARB's", 24, "9 16", "0 0 0", 0, 0},
    {"a breach in the middle", 23, "7 " ATT "; 8 K; 9 " ATT, "0 5 0 7 8  7 7 3 3 0 0", 16, 0},
    {"what came before it", 24, "3 16", "0 3 6", 0, 0},
    {"the breach again", 23, "8 K", "0 5 0 7 8  7 7 3 3 0 0", 16, 0},
    {"no entry changed", 24, "3 16", "0 3 6", 0, 0},

    /* 20 leaves the account as it is; the judge's state goes on. */
    {"20, an attention cycle", 20, "8 " ATT " a9", "0 0 0 0 0  8 8 4 4 0 0", 0, 0},
    {"not counted", 24, "3 16", "0 3 6", 0, 0},
    {"20, a START", 20, "9 S a1", "0 0 0 0 0  9 9 5 4 0 1", 0, 0},
    {"23, its ACK", 23, "B " ACK, "0 0 0 0 0  10 11 5 5 0 0", 16, 0},
    {"9 to 11 are three cycles", 24, "3 16", "0 3 9", 0, 0},
    {"23, a START", 23, "C S a1", "0 0 0 0 0  11 12 6 5 0 1", 16, 0},
    {"20, its ACK", 20, "D " ACK, "0 0 0 0 0  12 13 6 6 0 0", 0, 0},
    {"the START alone", 24, "3 16", "0 4 9", 0, 0},
    {"23, a transfer more", 23, "E S a1; 10 R", "0 0 0 0 0  14 16 7 6 1 0", 16, 0},
    {"14 to 16 are three cycles", 24, "3 16", "0 5 12", 0, 0},

    {"a limit that is none", 19, "17", "3", 0, 0},
    {"it stays", 24, "3 16", "0 5 12", 0, 0},
    {"fresh", 19, "16", "0", 0, 0},
    {"all zeros", 24, "3 16", "0 0 0", 0, 0},

    /* The owner is kept across calls, by 20 too, and forgotten at a RESET. */
    {"the owner by 20", 20, WAVE "2 " ATT " a3", "0 0 0 0 0  3 2 1 1 0 0", 0, 0},
    {"parked by 23", 23, "3 " ATT " a9", "0 0 0 0 0  4 3 2 2 0 0", 16, 0},
    {"counted for it", 24, "3 16", "0 1 1", 0, 0},
    {"a RESET", 23, "4 R", "0 0 0 0 0  5 4 2 2 0 0", 16, 0},
    {"parked by nobody", 23, "5 " ATT " a3", "0 8 1 5 5  5 4 2 2 0 0", 16, 0},
    {"as it was", 24, "3 16", "0 1 1", 0, 0},
    {"another owner", 23, "5 Q; 6 Q; 7 " ATT " a0", "0 0 0 0 0  8 7 3 3 0 0", 16, 0},
    {"parked by slot 0", 23, "8 S a3; A R", "0 0 0 0 0  10 10 4 3 1 0", 16, 0},
    {"slot 0", 24, "0 16", "0 2 4", 0, 0},
    {"slot 3", 24, "3 16", "0 1 1", 0, 0},

    {"a transfer by 20", 19, "16", "0", 0, 0},
    {"its START", 20, WAVE "2 S a3", "0 0 0 0 0  3 2 1 0 0 1", 0, 0},
    {"a cycle of it", 20, "5", "0 0 0 0 0  4 5 1 0 0 1", 0, 0},
    {"its ACK by 23", 23, "8 " ACK, "0 0 0 0 0  5 8 1 1 0 0", 16, 0},
    {"2 to 8, and no START", 24, "3 16", "0 0 7", 0, 0},

    /* Open across calls, with missing cycles, a wrap and a breach before its end. */
    {"over a wrap", 19, "4", "0", 0, 0},
    {"over a wrap", 23, "FFFFFFFD Q; FFFFFFFE Q; FFFFFFFF S a14 d2", "0 0 0 0 0  3 2 1 0 0 1", 16, 0},
    {"over a wrap", 23, "3 t", "0 0 0 0 0  4 6 1 0 0 1", 16, 0},
    {"a strobe too many", 23, "5 t", "0 13 0 4 8  4 6 1 0 0 1", 16, 0},
    {"still open", 24, "14 16", "0 1 0", 0, 0},
    {"its ACK", 23, "9 " ACK, "0 0 0 0 0  5 12 1 1 0 0", 16, 0},
    {"FFFFFFFF to 9", 24, "14 16", "0 1 11", 0, 0},
};

static const struct account_call bounds[] = {
    /* Beside a tally of zeros no entry may have anything. */
    {"zeros", 19, "16", "0", 0, 0},
    {"a START", 25, "4 1 0", "0", 0, 0},
    {"its own entry", 24, "4 16", "5 0 0", 0, 0},
    {"another's", 24, "5 16", "0 0 0", 0, 0},
    {"no slot's", 24, "16 16", "2 0 0", 0, 0},
    {"all are looked at", 23, "", "5 0 0 0 0  0 0 0 0 0 0", 16, 0},
    {"20 doesn't look", 20, "", "0 0 0 0 0  0 0 0 0 0 0", 0, 0},
    {"not lent", 23, "", "1 0 0 0 0  0 0 0 0 0 0", 4, 0},
    {"lent", 23, "", "5 0 0 0 0  0 0 0 0 0 0", 5, 0},
    {"lent, and torn", 23, "0 Q", "5 0 0 0 0  0 0 0 0 0 0", 5, 3},
    {"asked, not lent", 24, "4 4", "1 0 0", 0, 0},
    {"asked, lent", 24, "4 5", "5 0 0", 0, 0},
    {"asked, one more lent", 24, "4 17", "5 0 0", 0, 0},
    {"a busy cycle", 25, "4 0 1", "0", 0, 0},
    {"its own entry", 24, "4 16", "5 0 0", 0, 0},

    /* STARTs up to the tally's 5, busy cycles up to 100 and its STARTs. */
    {"a tally", 21, "10 100 5 5 0", "0", 0, 0},
    {"at both bounds", 25, "4 5 105", "0", 0, 0},
    {"at both bounds", 24, "4 16", "0 5 105", 0, 0},
    {"at both bounds", 23, "", "0 0 0 0 0  10 100 5 5 0 0", 16, 0},
    {"a cycle more", 25, "4 5 106", "0", 0, 0},
    {"a cycle more", 24, "4 16", "5 0 0", 0, 0},
    {"a cycle more", 23, "", "5 0 0 0 0  10 100 5 5 0 0", 16, 0},
    {"a START more", 25, "4 6 0", "0", 0, 0},
    {"a START more", 24, "4 16", "5 0 0", 0, 0},
    {"its STARTs, not the tally's", 25, "4 4 105", "0", 0, 0},
    {"its STARTs, not the tally's", 24, "4 16", "5 0 0", 0, 0},
    {"four STARTs", 25, "4 4 104", "0", 0, 0},
    {"four STARTs", 24, "4 16", "0 4 104", 0, 0},
    {"no STARTs", 25, "4 0 100", "0", 0, 0},
    {"no STARTs", 24, "4 16", "0 0 100", 0, 0},
    {"no STARTs, a cycle more", 25, "4 0 101", "0", 0, 0},
    {"no STARTs, a cycle more", 24, "4 16", "5 0 0", 0, 0},
    {"as many STARTs as can be", 25, "4 4294967295 0", "0", 0, 0},
    {"as many STARTs as can be", 24, "4 16", "5 0 0", 0, 0},
    {"as many cycles as can be", 25, "4 5 18446744073709551615", "0", 0, 0},
    {"as many cycles as can be", 24, "4 16", "5 0 0", 0, 0},
    {"slot 15 too", 25, "4 0 0", "0", 0, 0},
    {"slot 15 too", 25, "15 6 0", "0", 0, 0},
    {"slot 15 too", 23, "", "5 0 0 0 0  10 100 5 5 0 0", 16, 0},
    {"slot 15 isn't lent", 23, "", "1 0 0 0 0  10 100 5 5 0 0", 15, 0},
    {"slot 15 of seventeen", 23, "", "5 0 0 0 0  10 100 5 5 0 0", 17, 0},
    {"slot 15 of seventeen", 24, "15 17", "5 0 0", 0, 0},
    {"slot 15", 25, "15 0 0", "0", 0, 0},

    /* The seventeenth entry is no slot's, and is never looked at. */
    {"the seventeenth", 25, "16 4294967295 18446744073709551615", "0", 0, 0},
    {"the seventeenth", 23, "", "0 0 0 0 0  10 100 5 5 0 0", 16, 0},
    {"the seventeenth, lent", 23, "", "1 0 0 0 0  10 100 5 5 0 0", 17, 0},
    {"the seventeenth, asked", 24, "16 17", "1 0 0", 0, 0},
    {"the seventeenth, asked", 24, "16 16", "2 0 0", 0, 0},
    /* 21 less 17 is 4; 255 less 15 times 17 is 0. */
    {"entry 21", 25, "21 5 6", "0", 0, 0},
    {"entry 21", 24, "4 16", "0 5 6", 0, 0},
    {"entry 255", 25, "255 2 3", "0", 0, 0},
    {"entry 255", 24, "0 16", "0 2 3", 0, 0},
    /* 33 less 17 is 16. */
    {"entry 33", 25, "33 4294967295 1", "0", 0, 0},
    {"entry 33", 23, "", "0 0 0 0 0  10 100 5 5 0 0", 16, 0},

    /* A tally out of bounds is 5 for every slot, and for what is none. */
    {"too many STARTs", 21, "10 100 11 5 0", "0", 0, 0},
    {"too many STARTs", 24, "1 16", "5 0 0", 0, 0},
    {"too many STARTs, slot 16", 24, "16 16", "5 0 0", 0, 0},
    {"too many STARTs, fifteen entries", 24, "1 15", "5 0 0", 0, 0},
    {"too great a span", 21, "1 2147483649 0 0 0", "0", 0, 0},
    {"too great a span", 24, "1 16", "5 0 0", 0, 0},
    {"too many aborted", 21, "1 0 0 0 2", "0", 0, 0},
    {"too many aborted", 24, "1 16", "5 0 0", 0, 0},

    /* 8 is before 1 and behind 5, and no matter of 24. */
    {"beyond 2^30", 21, "1073741825 0 0 0 0", "0", 0, 0},
    {"beyond 2^30", 24, "1 16", "0 0 0", 0, 0},
    {"beyond 2^30, entries out of bounds", 23, "", "5 0 0 0 0  1073741825 0 0 0 0 0", 16, 0},
    {"mended", 25, "4 0 0", "0", 0, 0},
    {"mended", 25, "0 0 0", "0", 0, 0},
    {"beyond 2^30", 23, "", "8 0 0 0 0  1073741825 0 0 0 0 0", 16, 0},
    {"beyond 2^30, fifteen entries", 23, "", "8 0 0 0 0  1073741825 0 0 0 0 0", 15, 0},
    {"beyond 2^30, torn", 23, "0 Q", "8 0 0 0 0  1073741825 0 0 0 0 0", 16, 2},

    /* 2^31 times 4294967295 is the longest span; with as many STARTs 9223372039002259455. */
    {"the greatest tally", 21, "4294967295 9223372034707292160 4294967295 0 0", "0", 0, 0},
    {"the greatest entry", 25, "7 4294967295 9223372039002259455", "0", 0, 0},
    {"the greatest entry", 24, "7 16", "0 4294967295 9223372039002259455", 0, 0},
    {"the greatest entry", 23, "", "8 0 0 0 0  4294967295 9223372034707292160 4294967295 0 0 0", 16, 0},
    {"a cycle more", 25, "7 4294967295 9223372039002259456", "0", 0, 0},
    {"a cycle more", 24, "7 16", "5 0 0", 0, 0},
    {"a cycle more", 23, "", "5 0 0 0 0  4294967295 9223372034707292160 4294967295 0 0 0", 16, 0},

    /* The last record of 2^30 is counted, the next refused. */
    {"2^30", 19, "16", "0", 0, 0},
    {"2^30", 20, WAVE "2 " ATT " a3", "0 0 0 0 0  3 2 1 1 0 0", 0, 0},
    {"2^30", 21, "1073741823 5000 5 5 0", "0", 0, 0},
    {"2^30", 23, "3 " ATT, "0 0 0 0 0  1073741824 5001 6 6 0 0", 16, 0},
    {"2^30", 24, "3 16", "0 1 1", 0, 0},
    {"2^30 and one", 23, "4 " ATT, "8 0 0 0 0  1073741824 5001 6 6 0 0", 16, 0},
    {"2^30 and one", 24, "3 16", "0 1 1", 0, 0},
};

static const struct account_call raw_states[] = {
    /* A judge out of bounds is no matter of 24. */
    {"limit 0", 19, "16", "0", 0, 0},
    {"limit 0", 22, "0 0 0 0 0 0 0", "0", 0, 0},
    {"limit 0", 23, "", "5 0 0 0 0  0 0 0 0 0 0", 16, 0},
    {"limit 0, fifteen entries", 23, "", "5 0 0 0 0  0 0 0 0 0 0", 15, 0},
    {"limit 0", 24, "3 16", "0 0 0", 0, 0},

    /* A transfer set open at age 100 has been busy for 101 cycles, and 102 with its ACK's. That is more
       than a span of 3 and a START allow: it is counted, and refused from then on. */
    {"apart", 19, "16", "0", 0, 0},
    {"apart", 23, WAVE "2 " ATT " a3", "0 0 0 0 0  3 2 1 1 0 0", 16, 0},
    {"apart", 22, "16 1 100 1 0 0 0", "0", 0, 0},
    {"apart, still open", 24, "3 16", "0 1 1", 0, 0},
    {"apart, its end", 23, "3 " ACK, "0 0 0 0 0  4 3 1 2 0 0", 16, 0},
    {"apart, refused", 23, "", "5 0 0 0 0  4 3 1 2 0 0", 16, 0},
    {"apart, refused", 24, "3 16", "5 0 0", 0, 0},
    {"apart, another slot", 24, "2 16", "0 0 0", 0, 0},
    {"apart, 20", 20, "5", "0 0 0 0 0  5 5 1 2 0 0", 0, 0},
    {"apart, a tally that allows it", 21, "10 1000 5 5 0", "0", 0, 0},
    {"apart, what it was", 24, "3 16", "0 1 103", 0, 0},
    {"apart, on", 23, "6", "0 0 0 0 0  11 1001 5 5 0 0", 16, 0},

    /* At age 0 it has been busy for one cycle, with a RESET in the next for two. */
    {"age 0", 22, "16 1 0 1 0 0 0", "0", 0, 0},
    {"age 0", 23, "7 R", "0 0 0 0 0  12 1002 5 5 1 0", 16, 0},
    {"age 0", 24, "3 16", "0 1 105", 0, 0},

    /* The ARB that is set is the wave's, not the owner's: 5, 1 and the ACK's are 7 cycles, and one. */
    {"another ARB", 19, "16", "0", 0, 0},
    {"another ARB", 23, WAVE "2 " ATT " a3", "0 0 0 0 0  3 2 1 1 0 0", 16, 0},
    {"another ARB", 22, "16 1 5 1 0 1 9", "0", 0, 0},
    {"another ARB", 21, "10 1000 5 5 0", "0", 0, 0},
    {"another ARB", 23, "3 K", "0 0 0 0 0  11 1001 5 6 0 0", 16, 0},
    {"another ARB", 24, "3 16", "0 1 8", 0, 0},
    {"another ARB", 24, "9 16", "0 0 0", 0, 0},

    /* The oldest that there is, and missing cycles before a RESET: 257 and 10. */
    {"age 256", 22, "16 1 256 1 0 0 0", "0", 0, 0},
    {"age 256", 23, "D R", "0 0 0 0 0  12 1011 5 6 1 0", 16, 0},
    {"age 256", 24, "3 16", "0 1 275", 0, 0},

    /* A transfer that is closed raw adds nothing, and one that is set anew has its new age. */
    {"closed", 19, "16", "0", 0, 0},
    {"closed", 23, WAVE "2 S a3", "0 0 0 0 0  3 2 1 0 0 1", 16, 0},
    {"closed", 22, "16 0 7 7 7 0 0", "0", 0, 0},
    {"closed", 23, "3; 4 R", "0 0 0 0 0  5 4 1 0 0 0", 16, 0},
    {"closed", 24, "3 16", "0 1 0", 0, 0},
    {"anew", 19, "16", "0", 0, 0},
    {"anew", 23, WAVE "2 S a3", "0 0 0 0 0  3 2 1 0 0 1", 16, 0},
    {"anew", 23, "22", "0 0 0 0 0  4 34 1 0 0 1", 16, 0},
    {"anew", 22, "16 1 10 1 0 0 0", "0", 0, 0},
    {"anew", 23, "23 " ACK, "0 0 0 0 0  5 35 1 1 0 0", 16, 0},
    {"anew, 11 and the ACK's", 24, "3 16", "0 1 12", 0, 0},
};

void golden_put_calls(const struct account_call *list, size_t count)
{
    static const int two[] = {1, 1};
    for (size_t i = 0; i < count; i++) {
        struct step *s = call(list[i].name, list[i].op, 0);
        unsigned long long n[3] = {0};
        if (list[i].op == 20 || list[i].op == 23) {
            s->call[1] = (uint8_t)(golden_tell(list[i].words, s->call + 2) - (size_t)list[i].less);
            s->call[50] = (uint8_t)list[i].lent;
            golden_expect_judging(s, list[i].answer);
            continue;
        }
        golden_setting(s, list[i].words);
        if (list[i].op == 24)
            golden_fields(list[i].words, s->call, 1, two, 2);
        sscanf(list[i].answer, "%llu %llu %llu", &n[0], &n[1], &n[2]);
        expect(s, 0, CALL, 0);
        expect(s, 0, 1, n[0]);
        expect(s, 1, 4, n[1]);
        expect(s, 5, 8, n[2]);
    }
}

void golden_account_calls(void)
{
    golden_put_calls(counted, sizeof counted / sizeof counted[0]);
    golden_put_calls(bounds, sizeof bounds / sizeof bounds[0]);
    golden_put_calls(raw_states, sizeof raw_states / sizeof raw_states[0]);
}
