/* The judge of recordings (01, "The judge"; 02, wishes 2 and 5). Each rule is worked out by itself from
   the state before the record and the record; the lowest broken one is told. For the accounts of wish 3
   the state keeps the owner's slot and how long the open transfer has been busy, which since wish 5 isn't
   its age. */
#include <stdio.h>
#include "spur.h"

int judge_fresh(struct judge *j, unsigned limit)
{
    if (limit < 1 || limit > 16)
        return 3;
    *j = (struct judge){.limit = (uint8_t)limit};
    return 0;
}

/* The bounds for refusal 5: exactly the paper's list. */
int tally_bounds(const struct tally *t)
{
    if (t->span > ((uint64_t)1 << 31) * t->records)
        return 0;
    return t->starts <= t->records && t->acks <= t->records && t->aborted <= t->records;
}

int judge_bounds(const struct judge *j, const struct tally *t)
{
    if (j->limit < 1 || j->limit > 16 || j->turn > j->limit || j->arb > 15)
        return 0;
    if (j->open && (j->age > WATCHDOG || j->words < 1 || j->words > 16 || j->strobes >= j->words))
        return 0;
    return tally_bounds(t);
}

/* What a record is, seen from the state before it. */
struct view {
    uint32_t diff;  /* to the last stamp; 0 where there is none */
    int gap;        /* cycles are missing before it */
    int rqst1, rqst2; /* RQST one cycle before, and two */
    int of_wave, parked; /* a START with RQST active one cycle before, or without */
    uint64_t age;   /* of the open transfer, in this record's cycle */
};

static struct view look(const struct judge *j, const struct record *r)
{
    struct view v = {0};
    v.diff = j->has_stamp ? r->stamp - j->stamp : 0;
    v.gap = j->has_stamp && v.diff != 1;
    v.rqst1 = j->has_stamp && !v.gap && j->rqst1;
    v.rqst2 = j->has_stamp && !v.gap && j->rqst2;
    v.of_wave = r->start && v.rqst1;
    v.parked = r->start && !v.rqst1;
    v.age = j->open ? (uint64_t)j->age + v.diff : 0;
    return v;
}

/* Rule 8 in the three parts that document 02's wish 2 makes of it, bit k for kind k. No recording
   breaks the second and the third at once; a state might, and then the second is told. */
static uint32_t too_early(const struct judge *j, const struct view *v)
{
    uint32_t kinds = 0;
    if (v->parked && !j->started)
        kinds |= 1u << NO_OWNER;
    if (v->of_wave && !v->rqst2)
        kinds |= 1u << TOO_FEW;
    if (v->of_wave && j->turn > 0 && j->since + 1 < 3)
        kinds |= 1u << TOO_SOON;
    return kinds;
}

uint32_t judge_early(const struct judge *j, const struct record *r)
{
    struct view v = look(j, r);
    return r->reset ? 0 : too_early(j, &v);
}

/* Rule 9: RQST may fall only in a cycle with START; a missing cycle has none. */
static int fell(const struct judge *j, const struct record *r, const struct view *v)
{
    if (!j->rqst1)
        return 0;
    return v->gap || (!r->rqst && !r->start);
}

/* Rule 13: too many strobes, or a successful ACK before all words. */
static int miscounted(const struct judge *j, const struct record *r)
{
    if (!j->open || r->start)
        return 0;
    if (r->ack)
        return code_status(r->tm1, r->tm0) == SUCCESS && j->strobes != j->words - 1;
    return j->words > 1 && r->tm0 && j->strobes + 1 > j->words - 1;
}

/* All the rules that the record breaks, bit n for rule n. */
uint32_t judge_broken(const struct judge *j, const struct record *r, unsigned spare)
{
    struct view v = look(j, r);
    struct decoded start;
    uint32_t broken = 0;
    if (spare != 0)
        broken |= 1u << 1;
    if (j->has_stamp && (v.diff < 1 || v.diff > (uint32_t)1 << 31))
        broken |= 1u << 2;
    if (r->reset)
        return broken;
    if (r->spv && r->sp != code_parity(r->ad))
        broken |= 1u << 3;
    if (r->start && j->open)
        broken |= 1u << 4;
    if (r->ack && !r->start && !j->open)
        broken |= 1u << 5;
    if (r->start && r->ack && !(r->tm1 && r->tm0))
        broken |= 1u << 6;
    if (r->start && !r->ack && code_decode(&start, r->tm1, r->tm0, r->ad) != 0)
        broken |= 1u << 7;
    if (too_early(j, &v) != 0)
        broken |= 1u << 8;
    if (fell(j, r, &v))
        broken |= 1u << 9;
    if (v.of_wave && j->turn > 0 && r->arb > j->arb)
        broken |= 1u << 10;
    if (v.of_wave && j->turn > 0 && r->arb == j->arb && j->turn >= j->limit)
        broken |= 1u << 11;
    if (j->open && v.age > WATCHDOG)
        broken |= 1u << 12;
    if (miscounted(j, r))
        broken |= 1u << 13;
    return broken;
}

int judge_lowest(uint32_t broken)
{
    int rule = 0;
    while (broken != 0 && !(broken & 1)) {
        rule++;
        broken >>= 1;
    }
    return broken == 0 ? 0 : rule;
}

/* What the wave was and becomes: it begins with RQST and ends with the START in which it falls. */
static void take_wave(struct judge *j, const struct record *r, const struct view *v)
{
    if (v->of_wave) {
        j->turn = j->turn > 0 && j->arb == r->arb ? (uint8_t)(j->turn + 1) : 1;
        j->arb = r->arb;
        j->since = 0;
        j->started = 1;
        j->owner = r->arb;
    } else if (j->turn > 0 && j->since < 3) {
        j->since++;
    }
    if (!r->rqst || !v->rqst1) { /* no wave, or one that begins here */
        j->turn = 0;
        j->arb = 0;
        j->since = 0;
    }
    j->rqst2 = (uint8_t)v->rqst1;
    j->rqst1 = r->rqst;
}

/* What the transfer becomes, and the counts of STARTs and ACKs. A strobe that breaks no rule takes an owed
   word, one too many being a breach of rule 13, so each restarts the age (02, wish 5); the busy time goes
   on. */
static void take_transfer(struct judge *j, struct tally *t, const struct record *r,
                          const struct view *v)
{
    struct decoded start;
    t->starts += r->start;
    t->acks += r->ack;
    if (r->start && !r->ack) {
        code_decode(&start, r->tm1, r->tm0, r->ad);
        j->open = 1;
        j->age = 0;
        j->busy = 1;
        j->words = (uint8_t)code_words(start.op.unit);
        j->strobes = 0;
    } else if (r->ack && !r->start) {
        j->open = j->words = j->strobes = 0;
        j->age = 0;
        j->busy = 0;
    } else if (j->open) {
        j->age = (uint16_t)v->age;
        j->busy += v->diff;
        if (j->words > 1 && r->tm0) {
            j->strobes++;
            j->age = 0;
        }
    }
}

/* Takes a record that breaks no rule. */
void judge_take(struct judge *j, struct tally *t, const struct record *r)
{
    struct view v = look(j, r);
    t->records++;
    t->span += v.diff;
    if (r->reset) {
        t->aborted += j->open;
        judge_fresh(j, j->limit);
    } else {
        take_wave(j, r, &v);
        take_transfer(j, t, r, &v);
    }
    j->has_stamp = 1;
    j->stamp = r->stamp;
}

/* "The breach also tells the span at its record; at record 0 or a breach of rule 1 or 2 it is the
   tally's" (document 02, wish 2). Missing cycles count, also those that broke the rule. */
static struct verdict breach(const struct judge *j, const struct tally *t, const struct record *r,
                             int rule)
{
    struct verdict v = {.rule = rule, .record = t->records, .span = t->span};
    if (rule == 8)
        v.kind = judge_lowest(judge_early(j, r));
    if (rule > 2)
        v.span += look(j, r).diff; /* 0 without a stamp before it */
    return v;
}

/* Judges one record of 16 bytes and takes it if no rule is broken. */
struct verdict judge_one(struct judge *j, struct tally *t, const uint8_t *bytes)
{
    struct record r;
    unsigned spare = record_read(&r, bytes);
    int rule = judge_lowest(judge_broken(j, &r, spare));
    if (rule != 0)
        return breach(j, t, &r, rule);
    judge_take(j, t, &r);
    return NO_BREACH;
}

/* Refusals in the order 5, 8, 1; else judged up to the first breach. */
int judge_recording(struct judge *j, struct tally *t, const uint8_t *bytes, size_t len,
                    struct verdict *v)
{
    *v = NO_BREACH;
    if (!judge_bounds(j, t))
        return 5;
    if (t->records + (uint64_t)(len / RECORD) > MOST_RECORDS)
        return 8;
    if (len % RECORD != 0)
        return 1;
    for (size_t at = 0; at < len && v->rule == 0; at += RECORD)
        *v = judge_one(j, t, bytes + at);
    return 0;
}

/* The line of a breach, rule 8 with its kind's letter (document 02, wish 2). */
void judge_breach_line(struct verdict v, char *text, size_t room)
{
    static const char *const letters[KINDS] = {"", "a", "b", "c"};
    snprintf(text, room, "breach rule %d%s record %lu span %llu\n", v.rule, letters[v.kind],
             (unsigned long)v.record, (unsigned long long)v.span);
}

/* The judging program's two lines (01, "Checked examples", its end). */
void judge_text(const struct tally *t, int open, struct verdict v, int refusal, char *text)
{
    int n = snprintf(text, TEXT, "records %lu span %llu starts %lu acks %lu aborted %lu open %d\n",
                     (unsigned long)t->records, (unsigned long long)t->span,
                     (unsigned long)t->starts, (unsigned long)t->acks, (unsigned long)t->aborted,
                     open);
    if (v.rule != 0)
        judge_breach_line(v, text + n, TEXT - (size_t)n);
    else if (refusal != 0)
        snprintf(text + n, TEXT - (size_t)n, "refused %d\n", refusal);
    else
        snprintf(text + n, TEXT - (size_t)n, "conforming\n");
}

int judge_program(unsigned limit, const uint8_t *bytes, size_t len, char *text)
{
    struct judge j;
    struct tally t = {0};
    int refusal = 0;
    if (judge_fresh(&j, limit) != 0) { /* nothing is judged, so there are no totals */
        snprintf(text, TEXT, "refused 3\n");
        return 2;
    }
    for (size_t at = 0; len - at >= RECORD; at += RECORD) {
        if (t.records == MOST_RECORDS) {
            refusal = 8;
            break;
        }
        struct verdict v = judge_one(&j, &t, bytes + at);
        if (v.rule != 0) {
            judge_text(&t, j.open, v, 0, text);
            return 1;
        }
    }
    if (refusal == 0 && len % RECORD != 0)
        refusal = 1;
    judge_text(&t, j.open, NO_BREACH, refusal, text);
    return refusal != 0 ? 2 : 0;
}
