/* The model against itself: its judge against the rules said of the recording alone, on sound,
   wild and damaged recordings, none of which breaks 8b and 8c at once; the stepper's traffic against
   the judge (the maker stops the program where that breaks a rule); its accounts, its boot report, its
   byte lanes and the stepper's watchdog against a second way.

   selftest [COUNT [SEED]] */
#include <stdio.h>
#include <stdlib.h>
#include "lookback.h"
#include "make.h"
#include "selfaccounts.h"
#include "selflanes.h"
#include "selfmarks.h"
#include "selfwatchdog.h"
#include "watchdogmet.h"

enum { ENOUGH = 50 }; /* a count at which everything is to be met */
static unsigned long compared, differ, rules[14], kinds[KINDS], far, too_long;

static void say(const char *who, const struct verdict *v, const struct tally *t, int open)
{
    printf("%s: rule %d kind %d record %lu span %llu; records %lu span %llu starts %lu acks %lu "
           "aborted %lu open %d\n", who, v->rule, v->kind, (unsigned long)v->record,
           (unsigned long long)v->span, (unsigned long)t->records, (unsigned long long)t->span,
           (unsigned long)t->starts, (unsigned long)t->acks, (unsigned long)t->aborted, open);
}

static int same_verdict(const struct verdict *a, const struct verdict *b)
{
    return a->rule == b->rule && a->kind == b->kind && a->record == b->record && a->span == b->span;
}

static int same_tally(const struct tally *a, const struct tally *b)
{
    return a->records == b->records && a->span == b->span && a->starts == b->starts &&
           a->acks == b->acks && a->aborted == b->aborted;
}

static void check(const struct maker *m, unsigned limit)
{
    struct lookback l;
    struct judge j;
    struct tally t = {0};
    struct verdict v;
    if (!lookback_judge(m->out.bytes, m->out.len, limit, &l)) {
        too_long++;
        return;
    }
    judge_fresh(&j, limit);
    judge_recording(&j, &t, m->out.bytes, m->out.len, &v);
    compared++;
    watchdog_meet(&m->out, limit);
    rules[v.rule]++;
    kinds[v.kind]++;
    far += v.span >> 32 != 0;
    if (same_verdict(&v, &l.v) && same_tally(&t, &l.t) && j.open == l.open &&
        t.starts == t.acks + t.aborted + j.open && never_both(&m->out, limit) &&
        selfaccounts_check(m->g, &m->out, limit, l.t.records))
        return;
    differ++;
    say("judge", &v, &t, j.open);
    say("looking back", &l.v, &l.t, l.open);
}

/* Sound, wild and damaged recordings under any limit, and the accounts'; rule 8 has three kinds. */
static void some_recording(struct maker *m, int which)
{
    if (which >= 1 && which <= 13)
        damage(m, which, 0);
    else if (which > 17)
        damage(m, 8, which - 17);
    else if (which == 16)
        traffic_owners(m, 100, rng_chance(m->g, 50) ? LATE_WORDS : PLAIN_OWNERS);
    else if (which % 2)
        traffic_bus(m, 300);
    else
        traffic_wild(m, 100);
}

/* Says what was compared; each rule and kind is to be among it, and a breach at a great span. */
static void summary(int count)
{
    unsigned long least = far;
    printf("by rule:");
    for (int r = 0; r <= 13; r++) {
        printf(" %d:%lu", r, rules[r]);
        least = rules[r] < least ? rules[r] : least;
    }
    printf("; 8a:%lu 8b:%lu 8c:%lu; breaches at a span of 2^32 or more: %lu; too long to look back: "
           "%lu\n", kinds[NO_OWNER], kinds[TOO_FEW], kinds[TOO_SOON], far, too_long);
    for (int k = 1; k < KINDS; k++)
        least = kinds[k] < least ? kinds[k] : least;
    if (!watchdog_met())
        least = 0;
    if (count >= ENOUGH && least == 0) {
        printf("something of these was never met\n");
        differ++;
    }
}

int main(int argc, char **argv)
{
    int count = argc > 1 ? atoi(argv[1]) : 100;
    struct rng g = {argc > 2 ? strtoul(argv[2], NULL, 0) : 1};
    for (int i = 0; i < count; i++)
        for (int which = 0; which <= 17 + KINDS; which++) {
            struct maker m;
            unsigned limit = 1 + rng_below(&g, rng_chance(&g, 50) ? 3 : 16);
            maker_start(&m, &g, limit);
            if (which == 17 + KINDS)
                traffic_slow(&m, (unsigned)i);
            else
                some_recording(&m, which);
            check(&m, limit);
            buffer_free(&m.out);
        }
    summary(count);
    compared += selfaccounts(count, &g, &differ);
    compared += selfmarks(count, &g, &differ);
    compared += selflanes(&differ);
    compared += selfwatchdog(count, &g, &differ);
    printf("selftest: %lu passed, %lu failed\n", compared - differ, differ);
    return differ > 0 || compared == 0;
}
