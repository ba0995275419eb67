/* The judge's rules a second time, said of the recording alone: every cycle stands in an array,
   missing ones included, and what came before is found by looking back; spans are found by counting
   the stamps' wraps. It is slow, for short recordings, and serves to check the model's judge (01,
   "The judge"; 02, wishes 2 and 5). */
#include <stdlib.h>
#include "lookback.h"

struct cycles {
    struct record *at; /* cycle n's lines */
    long *record;      /* the record told in cycle n, or -1 */
};
/* Of more missing cycles than these only so many stand in the array. No rule sees it: a transfer
   open before them is over age, a wave has fallen, and its STARTs are long past. */
enum { LONG_GAP = 600, MOST = 120000 };

static int is_open_start(const struct record *r)
{
    return !r->reset && r->start && !r->ack;
}

/* RQST as the judge sees it: nothing in a RESET, nothing before the recording. */
static int rqst(const struct cycles *c, long n)
{
    return n >= 0 && !c->at[n].reset && c->at[n].rqst;
}

/* The latest cycle before n with RESET, or -1. */
static long last_reset(const struct cycles *c, long n)
{
    long k = n - 1;
    while (k >= 0 && !c->at[k].reset)
        k--;
    return k;
}

/* The START that opened the transfer open in cycle n, or -1: none between is an ACK or RESET. */
static long opener(const struct cycles *c, long n)
{
    for (long k = n - 1; k >= 0; k--) {
        if (c->at[k].reset || c->at[k].ack)
            return -1;
        if (is_open_start(&c->at[k]))
            return k;
    }
    return -1;
}

static int wave_start(const struct cycles *c, long n)
{
    return !c->at[n].reset && c->at[n].start && rqst(c, n - 1);
}

/* The first cycle of the wave that is on in cycle n - 1. */
static long wave_begin(const struct cycles *c, long n)
{
    long k = n - 1;
    while (rqst(c, k - 1))
        k--;
    return k;
}

/* The latest START of the wave before cycle n, or -1. */
static long last_wave_start(const struct cycles *c, long n, long begin)
{
    for (long k = n - 1; k > begin; k--)
        if (wave_start(c, k))
            return k;
    return -1;
}

/* 8a: a START without RQST in the cycle before, and no wave's START back to the reset. */
static int parked_by_nobody(const struct cycles *c, long n)
{
    if (!c->at[n].start || rqst(c, n - 1))
        return 0;
    for (long k = last_reset(c, n) + 1; k < n; k++)
        if (wave_start(c, k))
            return 0;
    return 1;
}

/* 8b: the wave began in the cycle before the START. */
static int too_few(const struct cycles *c, long n)
{
    return wave_start(c, n) && wave_begin(c, n) == n - 1;
}

/* 8c: of the two cycles before the START, one had a START of the same wave. That is never so with
   8b, whose wave has no cycle in which it could have had one. */
static int too_soon(const struct cycles *c, long n)
{
    if (!wave_start(c, n))
        return 0;
    long last = last_wave_start(c, n, wave_begin(c, n));
    return last == n - 1 || (last >= 0 && last == n - 2);
}

static int kind_of(const struct cycles *c, long n)
{
    if (parked_by_nobody(c, n))
        return NO_OWNER;
    return too_few(c, n) ? TOO_FEW : too_soon(c, n) ? TOO_SOON : 0;
}

static int rule_11(const struct cycles *c, long n, unsigned limit)
{
    unsigned run = 1;
    long begin = wave_begin(c, n);
    for (long k = last_wave_start(c, n, begin); k >= 0; k = last_wave_start(c, k, begin)) {
        if (c->at[k].arb != c->at[n].arb)
            break;
        run++;
    }
    return run > limit;
}

static int words_of(const struct record *r)
{
    struct decoded start;
    code_decode(&start, r->tm1, r->tm0, r->ad);
    return code_words(start.op.unit);
}

/* The cycle from which the transfer's age counts: its last strobe's, if it is a block and has had one,
   else its START's (02, wish 5). TM0 in a single transfer is no strobe. */
static long restarted(const struct cycles *c, long n, long opened)
{
    long k = n - 1;
    if (words_of(&c->at[opened]) == 1)
        return opened;
    while (k > opened && !c->at[k].tm0)
        k--;
    return k;
}

static int rule_13(const struct cycles *c, long n, long opened)
{
    const struct record *r = &c->at[n];
    int strobes = 0, words;
    if (opened < 0 || r->start)
        return 0;
    words = words_of(&c->at[opened]);
    for (long k = opened + 1; k < n; k++)
        strobes += c->at[k].tm0;
    if (words == 1)
        return 0;
    if (r->ack)
        return r->tm1 && r->tm0 && strobes != words - 1;
    return r->tm0 && strobes == words - 1;
}

/* The lowest rule broken in cycle n, that of a record; the missing cycles before it have none but
   rule 9 to break, and that is told here. */
static int lowest(const struct cycles *c, long n, unsigned limit)
{
    const struct record *r = &c->at[n];
    struct decoded start;
    long opened = opener(c, n), last;
    if (r->reset)
        return 0;
    if (r->spv && r->sp != code_parity(r->ad))
        return 3;
    if (r->start && opened >= 0)
        return 4;
    if (r->ack && !r->start && opened < 0)
        return 5;
    if (r->start && r->ack && !(r->tm1 && r->tm0))
        return 6;
    if (r->start && !r->ack && code_decode(&start, r->tm1, r->tm0, r->ad) != 0)
        return 7;
    if (kind_of(c, n) != 0)
        return 8;
    if (rqst(c, n - 1) && !r->rqst && !r->start)
        return 9;
    for (long k = n - 1; k >= 0 && c->record[k] < 0; k--)
        if (rqst(c, k - 1))
            return 9;
    if (wave_start(c, n)) {
        last = last_wave_start(c, n, wave_begin(c, n));
        if (last >= 0 && r->arb > c->at[last].arb)
            return 10;
        if (rule_11(c, n, limit))
            return 11;
    }
    if (opened >= 0 && n - restarted(c, n, opened) > WATCHDOG)
        return 12;
    return rule_13(c, n, opened) ? 13 : 0;
}

/* The totals by counting over the records before the given one. */
static void count(const struct cycles *c, long until, struct tally *t, int *open)
{
    *t = (struct tally){0};
    *open = 0;
    for (long n = 0; n < until; n++) {
        const struct record *r = &c->at[n];
        if (c->record[n] < 0)
            continue;
        t->records++;
        t->aborted += r->reset && opener(c, n) >= 0;
        t->starts += !r->reset && r->start;
        t->acks += !r->reset && r->ack;
    }
    long last = until - 1;
    while (last >= 0 && c->record[last] < 0)
        last--;
    if (last >= 0)
        *open = !c->at[last].reset && (is_open_start(&c->at[last]) ||
                                       (!c->at[last].ack && opener(c, last) >= 0));
}

static uint32_t stamp_of(const uint8_t *bytes, size_t record)
{
    const uint8_t *b = bytes + record * RECORD;
    return (uint32_t)b[0] << 24 | (uint32_t)b[1] << 16 | (uint32_t)b[2] << 8 | b[3];
}

/* The cycles from the first record to the last of so many: a stamp below the one before it has
   wrapped, and once only, as no difference is over 2^31. */
static uint64_t span_of(const uint8_t *bytes, size_t records)
{
    uint64_t wraps = 0;
    for (size_t i = 1; i < records; i++)
        wraps += stamp_of(bytes, i) < stamp_of(bytes, i - 1);
    return records == 0 ? 0 : (wraps << 32) + stamp_of(bytes, records - 1) - stamp_of(bytes, 0);
}

/* Rules 1 and 2, said of the bytes. */
static int rule_1_or_2(const uint8_t *bytes, size_t record)
{
    const uint8_t *b = bytes + record * RECORD;
    if ((b[14] & 0x7F) != 0 || b[15] != 0)
        return 1;
    if (record == 0)
        return 0;
    uint32_t apart = stamp_of(bytes, record) - stamp_of(bytes, record - 1);
    return apart == 0 || apart > (uint32_t)1 << 31 ? 2 : 0;
}

/* Puts a record behind the cycles so far; gives its cycle, or -1 if there is no room. */
static long place(struct cycles *c, const uint8_t *bytes, size_t record, long until)
{
    uint32_t apart = record == 0 ? 1 : stamp_of(bytes, record) - stamp_of(bytes, record - 1);
    long n = until - 1 + (long)(apart < LONG_GAP ? apart : LONG_GAP);
    if (n >= MOST)
        return -1;
    for (long k = until; k < n; k++)
        c->record[k] = -1;
    record_read(&c->at[n], bytes + record * RECORD);
    c->record[n] = (long)record;
    return n;
}

/* The first breach, if any; gives the cycles before it, or -1 if there is no room for all. */
static long first_breach(struct cycles *c, const uint8_t *bytes, size_t records, unsigned limit,
                         struct verdict *v)
{
    long until = 0;
    for (size_t i = 0; i < records; i++, until++) {
        int rule = rule_1_or_2(bytes, i);
        if (rule != 0) {
            *v = (struct verdict){rule, 0, (uint32_t)i, span_of(bytes, i)};
            return until;
        }
        long n = place(c, bytes, i, until);
        if (n < 0)
            return -1;
        rule = lowest(c, n, limit);
        if (rule != 0) {
            *v = (struct verdict){rule, rule == 8 ? kind_of(c, n) : 0, (uint32_t)i,
                                  span_of(bytes, i + 1)};
            return until;
        }
        until = n;
    }
    return until;
}

/* Judges the recording; gives 0 if it is too long for this form. */
int lookback_judge(const uint8_t *bytes, size_t len, unsigned limit, struct lookback *out)
{
    struct cycles c = {calloc(MOST, sizeof *c.at), calloc(MOST, sizeof *c.record)};
    *out = (struct lookback){0};
    if (c.at == NULL || c.record == NULL)
        exit(2);
    long until = first_breach(&c, bytes, len / RECORD, limit, &out->v);
    if (until >= 0) {
        count(&c, until, &out->t, &out->open);
        out->t.span = span_of(bytes, out->t.records);
    }
    free(c.at);
    free(c.record);
    return until >= 0;
}
