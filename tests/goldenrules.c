/* 01's program example, and for each rule of the judge a few records that break it first and a
   near twin that conforms. Written down by hand, in golden_tell's words. A breach's span is its
   stamp, the first record's being 0 here in most, and before rules 1 and 2 the totals'. */
#include <stdio.h>
#include <stdlib.h>
#include <string.h>
#include "golden.h"

/* wave: 0 Q; 1 Q; 2 S opens a word read at the wave's START. */
#define WAVE "0 Q; 1 Q; "
static const struct judged cases[] = {
    {"1", "0; 1 s1", "1 0 0 0 0 0", "breach rule 1 record 1 span 0"},
    {"1, in a RESET", "0 R s4000", "0 0 0 0 0 0", "breach rule 1 record 0 span 0"},
    {"1 and 2", "5; 5 s1", "1 0 0 0 0 0", "breach rule 1 record 1 span 0"},
    {"1, twin", "0; 1", "2 1 0 0 0 0", "conforming"},
    {"2, equal", "9; 9", "1 0 0 0 0 0", "breach rule 2 record 1 span 0"},
    {"2, too far", "0; 80000001", "1 0 0 0 0 0", "breach rule 2 record 1 span 0"},
    {"2, far", "0; 80000000", "2 2147483648 0 0 0 0", "conforming"},
    {"2, wrapped", "FFFFFFFE; 3", "2 5 0 0 0 0", "conforming"},
    {"2, in a RESET", "9; 8 R", "1 0 0 0 0 0", "breach rule 2 record 1 span 0"},
    {"3", "0 V d1", "0 0 0 0 0 0", "breach rule 3 record 0 span 0"},
    {"3, SP alone", "0 P", "1 0 0 0 0 0", "conforming"},
    {"3, twin", "0 V P d1; 1 V d3; 2 V P d80000000", "3 2 0 0 0 0", "conforming"},
    {"3, SP without cause", "0 V P dFFFFFFFF", "0 0 0 0 0 0", "breach rule 3 record 0 span 0"},
    {"3, with 9 in a gap", "0 Q; 5 V P", "1 0 0 0 0 0", "breach rule 3 record 1 span 5"},
    {"3, not in a RESET", "0 R V P", "1 0 0 0 0 0", "conforming"},
    {"4", WAVE "2 S Q a3; 5 S a2", "3 2 1 0 0 1", "breach rule 4 record 3 span 5"},
    {"4, with ACK", WAVE "2 S Q a3; 3 Q; 4 Q; 5 S K T t a3", "5 4 1 0 0 1",
     "breach rule 4 record 5 span 5"},
    {"4, over age", WAVE "2 S a3; 200 S a3", "3 2 1 0 0 1", "breach rule 4 record 3 span 512"},
    {"4, twin", WAVE "2 S Q a3; 3 Q K T t; 4 Q; 5 S a3", "6 5 2 1 0 1", "conforming"},
    {"5", "0 K", "0 0 0 0 0 0", "breach rule 5 record 0 span 0"},
    {"5, second ACK", WAVE "2 S; 3 K; 4 K", "4 3 1 1 0 0", "breach rule 5 record 4 span 4"},
    {"5, after a RESET", WAVE "2 S; 3 R; 4 K T t", "4 3 1 0 1 0", "breach rule 5 record 4 span 4"},
    {"5, twin", WAVE "2 S; 4 K", "4 4 1 1 0 0", "conforming"},
    {"6", WAVE "2 S K T", "2 1 0 0 0 0", "breach rule 6 record 2 span 2"},
    {"6, other line", WAVE "2 S K t", "2 1 0 0 0 0", "breach rule 6 record 2 span 2"},
    {"6, twin", WAVE "2 S K T t", "3 2 1 1 0 0", "conforming"},
    {"7", WAVE "2 S d3E", "2 1 0 0 0 0", "breach rule 7 record 2 span 2"},
    {"7, a write", WAVE "2 S T dFFFFFFFE", "2 1 0 0 0 0", "breach rule 7 record 2 span 2"},
    {"7, twin", WAVE "2 S d1E", "3 2 1 0 0 1", "conforming"},
    {"7, a byte", WAVE "2 S t d3E", "3 2 1 0 0 1", "conforming"},
    {"7, not in attention", WAVE "2 S K T t d3E", "3 2 1 1 0 0", "conforming"},
    {"8, nobody parked", "0 S", "0 0 0 0 0 0", "breach rule 8a record 0 span 0"},
    {"8, nobody after a RESET", WAVE "2 S; 3 K; 4 S; 5 R; 6 S", "6 5 2 1 1 0",
     "breach rule 8a record 6 span 6"},
    {"8, parked", WAVE "2 S; 3 K; 4 S", "5 4 2 1 0 1", "conforming"},
    {"8, RQST one cycle only", "0 Q; 1 S", "1 0 0 0 0 0", "breach rule 8b record 1 span 1"},
    {"8, two cycles after", WAVE "2 S Q K T t; 3 Q; 4 S", "4 3 1 1 0 0",
     "breach rule 8c record 4 span 4"},
    {"8, three cycles after", WAVE "2 S Q K T t; 3 Q; 4 Q; 5 S", "6 5 2 1 0 1", "conforming"},
    {"8, a parked START is none of the wave's",
     WAVE "2 S K T t; 3 S K T t Q; 4 Q; 5 S K T t", "6 5 3 3 0 0", "conforming"},
    {"8, after a gap", "0 Q; 1 Q; 3 S", "2 1 0 0 0 0", "breach rule 8a record 2 span 3"},
    {"8, RQST in a RESET is nothing", "0 R Q; 1 R Q; 2 Q S", "2 1 0 0 0 0",
     "breach rule 8a record 2 span 2"},
    {"9", "0 Q; 1", "1 0 0 0 0 0", "breach rule 9 record 1 span 1"},
    {"9, a gap", "0 Q; 2 Q", "1 0 0 0 0 0", "breach rule 9 record 1 span 2"},
    {"9, a gap before a START", WAVE "2 S Q K T t; 4 S", "3 2 1 1 0 0",
     "breach rule 9 record 3 span 4"},
    {"9, not told at a RESET", "0 Q; 5 R", "2 5 0 0 0 0", "conforming"},
    {"9, twin", WAVE "2 S", "3 2 1 0 0 1", "conforming"},
    {"10", WAVE "2 S Q K T t a4; 3 Q; 4 Q; 5 S a5", "5 4 1 1 0 0",
     "breach rule 10 record 5 span 5"},
    {"10, above 0", WAVE "2 S Q K T t; 3 Q; 4 Q; 5 S a1", "5 4 1 1 0 0",
     "breach rule 10 record 5 span 5"},
    {"10, twin", WAVE "2 S Q K T t a4; 3 Q; 4 Q; 5 S a3", "6 5 2 1 0 1", "conforming"},
    {"10, a new wave", WAVE "2 S K T t a4; 3 Q; 4 Q; 5 S a15", "6 5 2 1 0 1", "conforming"},
    {"10, a parked START's ARB is nothing", WAVE "2 S K T t a4; 3 S K T t Q a1; 4 Q; 5 S a9",
     "6 5 3 2 0 1", "conforming"},
    {"12", WAVE "2 S; 103 K", "3 2 1 0 0 1", "breach rule 12 record 3 span 259"},
    {"12, no ACK", WAVE "2 S; 103", "3 2 1 0 0 1", "breach rule 12 record 3 span 259"},
    {"12, twin", WAVE "2 S; 102 K", "4 258 1 1 0 0", "conforming"},
    {"12, age 256 without ACK", WAVE "2 S; 102", "4 258 1 0 0 1", "conforming"},
    {"12, ended by a RESET", WAVE "2 S; 300 R", "4 768 1 0 1 0", "conforming"},
    {"13, too many", WAVE "2 S d2; 3 t; 4 t", "4 3 1 0 0 1", "breach rule 13 record 4 span 4"},
    {"13, too few", WAVE "2 S d6; 3 t; 4 t; 5 K T t", "5 4 1 0 0 1",
     "breach rule 13 record 5 span 5"},
    {"13, few with an error", WAVE "2 S d6; 3 t; 4 t; 5 K T", "6 5 1 1 0 0", "conforming"},
    {"13, twin", WAVE "2 S d6; 3 t; 4 t T; 5 t; 6 K T t", "7 6 1 1 0 0", "conforming"},
    {"13, no strobe in a single transfer", WAVE "2 S; 3 t; 4 t; 5 K T t", "6 5 1 1 0 0",
     "conforming"},
    {"a transfer open at the end, RQST active", WAVE "2 S Q", "3 2 1 0 0 1", "conforming"},
    {"nothing", "", "0 0 0 0 0 0", "conforming"},
};

size_t golden_tell(const char *words, uint8_t *bytes)
{
    size_t len = 0;
    while (*words != '\0') {
        struct record r = {0};
        unsigned spare = 0;
        r.stamp = (uint32_t)strtoul(words, (char **)&words, 16);
        while (*words != ';' && *words != '\0') {
            char c = *words++;
            switch (c) {
            case ' ': break;
            case 'R': r.reset = 1; break;
            case 'Q': r.rqst = 1; break;
            case 'S': r.start = 1; break;
            case 'K': r.ack = 1; break;
            case 'T': r.tm1 = 1; break;
            case 't': r.tm0 = 1; break;
            case 'P': r.sp = 1; break;
            case 'V': r.spv = 1; break;
            case 'a': r.arb = (uint8_t)strtoul(words, (char **)&words, 10); break;
            case 'd': r.ad = (uint32_t)strtoul(words, (char **)&words, 16); break;
            case 's': spare = (unsigned)strtoul(words, (char **)&words, 16); break;
            default: fprintf(stderr, "no such word: %c\n", c); exit(2);
            }
        }
        record_spare_write(&r, spare, bytes + len);
        len += RECORD;
        while (*words == ';' || *words == ' ')
            words++;
    }
    return len;
}

void golden_text(const char *totals, const char *verdict, char *text)
{
    unsigned long long n[6];
    sscanf(totals, "%llu %llu %llu %llu %llu %llu", &n[0], &n[1], &n[2], &n[3], &n[4], &n[5]);
    snprintf(text, TEXT, "records %llu span %llu starts %llu acks %llu aborted %llu open %llu\n%s\n",
             n[0], n[1], n[2], n[3], n[4], n[5], verdict);
}

/* 01's example of the program, byte for byte. */
static const uint8_t example[64] = {
    0xFF, 0xFF, 0xFF, 0xFE, 0x68, [16] = 0xFF, 0xFF, 0xFF, 0xFF, 0x68,
    [32] = 0x00, 0x00, 0x00, 0x00, 0x2A, 0x0F, 0xA0, [48] = 0x00, 0x00, 0x00, 0x03, 0x01, 0xC0};

/* Rule 11 at the program's limit: sixteen attention cycles at one ARB, and a seventeenth. */
static void rule_11(const char *command)
{
    uint8_t bytes[100 * RECORD];
    char words[2000] = WAVE, text[TEXT];
    for (int i = 0; i < 17; i++) {
        int n = (int)strlen(words), at = 2 + 3 * i;
        snprintf(words + n, sizeof words - (size_t)n, "%X S Q K T t a7; %X Q; %X Q; ", at, at + 1,
                 at + 2);
    }
    size_t len = golden_tell(words, bytes);
    golden_text("50 49 16 16 0 0", "breach rule 11 record 50 span 50", text);
    golden_recording(command, "11", bytes, len, text);
    golden_text("50 49 16 16 0 0", "conforming", text);
    golden_recording(command, "11, twin", bytes, 50 * RECORD, text);
}

void golden_judged(const char *command, const struct judged *list, size_t count)
{
    uint8_t bytes[40 * RECORD];
    char text[TEXT];
    for (size_t i = 0; i < count; i++) {
        size_t len = golden_tell(list[i].records, bytes);
        golden_text(list[i].totals, list[i].verdict, text);
        golden_recording(command, list[i].name, bytes, len, text);
    }
}

void golden_rules(const char *command)
{
    golden_recording(command, "01's example", example, 64,
                     "records 4 span 5 starts 1 acks 1 aborted 0 open 0\nconforming\n");
    golden_recording(command, "torn example", example, 63,
                     "records 3 span 2 starts 1 acks 0 aborted 0 open 1\nrefused 1\n");
    golden_judged(command, cases, sizeof cases / sizeof cases[0]);
    rule_11(command);
}
