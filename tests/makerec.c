/* Writes a recording to standard output:

   makerec boot RECORDS          a boot-like run that conforms
   makerec breach RECORDS RULE   the same, with a record two thirds on that breaks the rule; a RULE
                                 of 8a, 8b or 8c is that kind of rule 8
   makerec phases RECORDS        a boot with marks (02, wish 1), and rule 8 broken behind them
   makerec marked CROWD SEED S/N ..
                                 the marks in order, before each up to CROWD that are nearly marks,
                                 and behind the last one's ACK one record that breaks a rule;
                                 with CROWD 0 each is near to where a read of 1,000 bytes ends
   makerec sound RECORDS SEED    simulated traffic of any kind that conforms
   makerec wild RECORDS SEED     whatever conforms
   makerec owners RECORDS SEED   made for the accounts (02, wish 3), conforming
   makerec late RECORDS SEED     the same, with a slot busy for 2^32 cycles or more
   makerec slow RECORDS SEED     the same, with words as late as rule 12 allows (02, wish 5)
   makerec watchdog ENDING SEED  a few transfers with such words and one of 24 endings, some a breach
   makerec damage RULE SEED      a recording whose first breach is of the rule */
#define _DEFAULT_SOURCE 1
#include <stdio.h>
#include <stdlib.h>
#include <string.h>
#include "marked.h"

/* A boot with one record changed so that it breaks the rule, and no lower one; of rule 8 the kind,
   0 for any. */
static int break_boot(struct maker *m, int rule, int kind)
{
    struct judge j;
    struct tally t = {0};
    size_t records = m->out.len / RECORD;
    judge_fresh(&j, 16);
    for (size_t i = 0; i < records; i++) {
        uint8_t *at = m->out.bytes + i * RECORD;
        for (int tries = 0; i > records * 2 / 3 && tries < 200; tries++) {
            struct record r;
            unsigned spare = record_read(&r, at);
            switch (rng_below(m->g, 7)) { /* one line or field, as a bad board would */
            case 0: r.start = !r.start; break;
            case 1: r.ack = !r.ack; break;
            case 2: r.rqst = !r.rqst; break;
            case 3: r.tm0 = !r.tm0; break;
            case 4: r.sp = !r.sp; break;
            case 5: r.arb = (uint8_t)rng_below(m->g, 16); break;
            case 6: r.stamp += 1 + rng_below(m->g, 400); break;
            }
            if (judge_lowest(judge_broken(&j, &r, spare)) == rule &&
                (kind == 0 || judge_lowest(judge_early(&j, &r)) == kind)) {
                record_write(&r, at);
                return 1;
            }
        }
        judge_one(&j, &t, at);
    }
    return 0;
}

/* The writes of a boot that are to be marks, each in the place of the first word transfer from a
   part of the recording on, in 4,096ths. */
static const struct {
    size_t from;
    unsigned slot, number;
    uint32_t folded; /* AD19 to AD6 */
    int status;
} writes[] = {
    {220, 10, 1, 0, SUCCESS},   {400, 2, 1, 0, ERROR},     {430, 2, 1, 0x00055540, SUCCESS},
    {1700, 11, 2, 0, SUCCESS},  {2300, 10, 1, 0, SUCCESS}, {2600, 15, 15, 0x000FFFC0, SUCCESS},
};

/* Makes the record at i a START of the write and the ACK behind it its end; 0 where it isn't a word
   transfer, or one that doesn't end in success. Neither breaks a rule that wasn't broken. */
static int put_write(struct maker *m, size_t i, size_t which)
{
    size_t records = m->out.len / RECORD, k = i + 1;
    struct record r, end = {0};
    record_read(&r, m->out.bytes + i * RECORD);
    if (r.reset || !r.start || r.ack || r.tm0 || (r.ad & 3) != 0)
        return 0;
    while (k < records && !end.ack && !end.reset)
        record_read(&end, m->out.bytes + k++ * RECORD);
    if (end.reset || !end.ack || code_status(end.tm1, end.tm0) != SUCCESS)
        return 0;
    r.tm1 = 1;
    r.ad = 0xF0000000u | writes[which].slot << 24 | writes[which].number << 2 | writes[which].folded;
    r.sp = (uint8_t)(r.spv && code_parity(r.ad));
    end.tm1 = (uint8_t)(writes[which].status >> 1);
    end.tm0 = writes[which].status & 1;
    record_write(&r, m->out.bytes + i * RECORD);
    record_write(&end, m->out.bytes + (k - 1) * RECORD);
    return 1;
}

static int put_writes(struct maker *m)
{
    size_t records = m->out.len / RECORD;
    for (size_t n = 0; n < sizeof writes / sizeof writes[0]; n++) {
        size_t i = writes[n].from * records / 4096;
        while (i < records && !put_write(m, i, n))
            i++;
        if (i == records)
            return 0;
    }
    return 1;
}

/* Records up to where a read of 1,000 bytes soon ends, with a record or within one. */
static void pad(struct maker *m)
{
    unsigned edge = rng_chance(m->g, 50) ? 125 : 125 + 62;
    marked_far(m, 123 + edge - (unsigned)(m->out.len / RECORD % 125) - rng_below(m->g, 8));
}

/* Adds the marks that the words name; 0 where a word names none, or they are too many. */
static int put_marks(struct maker *m, char **words, size_t count, unsigned crowd)
{
    struct mark marks[MOST_MARKS];
    if (count > MOST_MARKS)
        return 0;
    for (size_t i = 0; i < count; i++)
        if (sscanf(words[i], "%u/%u", &marks[i].slot, &marks[i].number) != 2 ||
            marks[i].slot > 15 || marks[i].number > 15)
            return 0;
    for (size_t i = 0; crowd == 0 && i < count; i++) {
        pad(m);
        marked_near(m, marks[i], THE_MARK);
    }
    if (crowd > 0)
        marked_boot(m, marks, count, count, crowd);
    marked_break(m);
    return 1;
}

/* The rule that a word names, 0 if it names none; 8a, 8b and 8c are rule 8 with its kind. */
static int rule_of(const char *word, int *kind)
{
    char *end;
    unsigned long rule = strtoul(word, &end, 10);
    *kind = rule == 8 && *end >= 'a' && *end <= 'c' ? *end++ - 'a' + NO_OWNER : 0;
    return *end == '\0' && rule >= 1 && rule <= 13 ? (int)rule : 0;
}

int main(int argc, char **argv)
{
    struct rng g = {19861023};
    struct maker m;
    unsigned long a = argc > 2 ? strtoul(argv[2], NULL, 0) : 0;
    unsigned long b = argc > 3 ? strtoul(argv[3], NULL, 0) : 0;
    const char *what = argc > 2 ? argv[1] : "";
    int kind = 0, rule = argc > 3 ? rule_of(argv[strcmp(what, "damage") == 0 ? 2 : 3], &kind) : 0;
    maker_start(&m, &g, 16);
    if (strcmp(what, "boot") == 0) {
        traffic_boot(&m, a);
    } else if (strcmp(what, "breach") == 0 && rule > 0) {
        traffic_boot(&m, a);
        if (!break_boot(&m, rule, kind)) {
            fprintf(stderr, "that rule could not be broken there\n");
            return 2;
        }
    } else if (strcmp(what, "phases") == 0) {
        traffic_boot(&m, a);
        if (!put_writes(&m) || !break_boot(&m, 8, 0)) {
            fprintf(stderr, "that boot is too short\n");
            return 2;
        }
    } else if (strcmp(what, "marked") == 0 && argc > 4) {
        g.state = b;
        if (!put_marks(&m, argv + 4, (size_t)argc - 4, (unsigned)a)) {
            fprintf(stderr, "up to 32 marks, slot/number, are to be named\n");
            return 2;
        }
    } else if (strcmp(what, "sound") == 0) {
        g.state = b;
        traffic_bus(&m, a);
    } else if (strcmp(what, "wild") == 0) {
        g.state = b;
        traffic_wild(&m, a);
    } else if (strcmp(what, "owners") == 0 || strcmp(what, "late") == 0 || strcmp(what, "slow") == 0) {
        g.state = b;
        traffic_owners(&m, a, what[0] == 'l' ? LATE_ABORTS : what[0] == 's' ? LATE_WORDS : PLAIN_OWNERS);
    } else if (strcmp(what, "watchdog") == 0) {
        g.state = b;
        traffic_slow(&m, (unsigned)a);
    } else if (strcmp(what, "damage") == 0 && rule > 0) {
        g.state = b;
        damage(&m, rule, kind);
    } else {
        fprintf(stderr, "makerec boot RECORDS | breach RECORDS RULE | phases RECORDS | "
                        "marked CROWD SEED S/N .. | sound RECORDS SEED | wild RECORDS SEED | "
                        "owners RECORDS SEED | late RECORDS SEED | slow RECORDS SEED | watchdog ENDING SEED | "
                        "damage RULE SEED\n");
        return 2;
    }
    if (fwrite(m.out.bytes, 1, m.out.len, stdout) != m.out.len || fflush(stdout) != 0) {
        perror("standard output");
        return 2;
    }
    return 0;
}
