/* The boot report a second time, straight from its definition over the whole recording: the judge
   says how many records conform, each record's cycle is found by counting the stamp's wraps, and a
   mark is looked for among the records as lines, without the decoder. Of a breach the judge says
   the rule alone; its kind and span are found over the recording too. It serves to check the model's
   report (document 02, wishes 1 and 2). */
#include <stdio.h>
#include <stdlib.h>
#include "marks.h"

struct seen {
    struct record *at;
    size_t count; /* the records that conform; that of the first breach is behind them */
};
enum { NOT_THERE = -1 };

/* TM1 TM0 AD1 AD0 are 1000 for a word write (001, table 2.2), AD31 to AD20 are F, slot, 0. */
static int is_start_of(const struct record *r, const struct mark *mark)
{
    uint32_t fixed = 0xF0000000u + mark->slot * 0x01000000u + mark->number * 4;
    return r->start && !r->ack && !r->reset && r->tm1 && !r->tm0 && (r->ad & 0xFFF0003F) == fixed;
}

/* The record with the ACK that ends the transfer begun in record i with success: no ACK and no
   RESET comes between, and it has none itself. */
static long success_of(const struct seen *s, long i)
{
    long k = i + 1;
    while (k < (long)s->count && !s->at[k].ack && !s->at[k].reset)
        k++;
    if (k >= (long)s->count || s->at[k].reset)
        return NOT_THERE;
    return s->at[k].tm1 && s->at[k].tm0 ? k : NOT_THERE;
}

/* The first START of the mark's kind from a record on that ends in success. */
static long first_from(const struct seen *s, long from, const struct mark *mark)
{
    for (long i = from; i < (long)s->count; i++)
        if (is_start_of(&s->at[i], mark) && success_of(s, i) != NOT_THERE)
            return i;
    return NOT_THERE;
}

/* The cycle of record i, the first record's being 0: a stamp that isn't above the one before it has
   wrapped once, as a difference is at most 2^31. */
static unsigned long long cycle_of(const struct seen *s, long i)
{
    unsigned long long wraps = 0;
    for (long k = 1; k <= i; k++)
        wraps += s->at[k].stamp < s->at[k - 1].stamp;
    return wraps * 0x100000000u + s->at[i].stamp - s->at[0].stamp;
}

static struct seen see(unsigned limit, const uint8_t *bytes, size_t len, struct verdict *v)
{
    struct seen s = {calloc(len / RECORD + 1, sizeof *s.at), 0};
    struct judge j;
    struct tally t = {0};
    if (s.at == NULL)
        exit(2);
    judge_fresh(&j, limit);
    judge_recording(&j, &t, bytes, len - len % RECORD, v);
    s.count = t.records;
    for (size_t i = 0; i < s.count + (v->rule != 0); i++)
        record_read(&s.at[i], bytes + i * RECORD);
    return s;
}

/* RQST so many cycles before record i's: of the record whose cycle that is, if there is one. */
static int rqst_before(const struct seen *s, long i, unsigned long long cycles)
{
    for (long k = i - 1; k >= 0 && cycle_of(s, i) - cycle_of(s, k) <= cycles; k--)
        if (cycle_of(s, i) - cycle_of(s, k) == cycles)
            return s->at[k].rqst && !s->at[k].reset;
    return 0;
}

/* A START that breaks rule 8: its kind shows in RQST in the two cycles before it. */
static const char *letter_of(const struct seen *s, long i)
{
    return !rqst_before(s, i, 1) ? "a" : !rqst_before(s, i, 2) ? "b" : "c";
}

/* The line of the breach, whose record is behind those that conform. */
static void say_breach(const struct seen *s, int rule, char *text)
{
    long i = (long)s->count, told = rule < 3 && i > 0 ? i - 1 : i;
    sprintf(text, "breach rule %d%s record %ld span %llu\n", rule,
            rule == 8 ? letter_of(s, i) : "", i, cycle_of(s, told));
}

/* What is said where a mark is absent. */
static void say_absent(const struct seen *s, const struct verdict *v, size_t len, size_t place,
                       char *text)
{
    int n = sprintf(text, "records %lu\n", (unsigned long)s->count);
    if (v->rule != 0)
        say_breach(s, v->rule, text + n);
    else if (len % RECORD != 0)
        sprintf(text + n, "refused 1\n");
    else
        sprintf(text + n, "refused 10 place %lu\n", (unsigned long)place);
}

void report_back(unsigned limit, const struct mark *marks, size_t count, const uint8_t *bytes,
                 size_t len, char *text)
{
    struct verdict v;
    struct seen s = see(limit, bytes, len, &v);
    long from = 0, before = 0;
    size_t place = 0;
    for (; place < count; place++) {
        long at = first_from(&s, from, &marks[place]);
        if (at == NOT_THERE)
            break;
        text += sprintf(text, "mark %lu span %llu", (unsigned long)place, cycle_of(&s, at));
        if (place > 0)
            text += sprintf(text, " diff %llu", cycle_of(&s, at) - cycle_of(&s, before));
        text += sprintf(text, "\n");
        before = at;
        from = success_of(&s, at) + 1;
    }
    if (place == count)
        sprintf(text, "records %ld\ncomplete\n", from);
    else
        say_absent(&s, &v, len, place, text);
    free(s.at);
}
