/* The model's accounts (document 02, wish 3) against the same worked out over the whole recording
   (accountsback.c), and what the wish says of them: in one call or many they are the same, the STARTs
   add up to the tally's, each entry is within its bounds, all busy cycles are different ones, a
   breach changes none, and an open transfer adds none. Of a simulated bus's recording the stepper knows
   who started, and the accounts are to say the same. */
#include <stdio.h>
#include <stdlib.h>
#include "accountsback.h"
#include "accountsmet.h"
#include "selfaccounts.h"

enum { ENOUGH = 50 }; /* a count at which everything is to be met */

struct run {
    struct judge j;
    struct tally t;
    struct entry account[SLOTS];
};

static int same(const struct entry *a, const struct entry *b)
{
    for (int k = 0; k < SLOTS; k++)
        if (a[k].starts != b[k].starts || a[k].busy != b[k].busy)
            return 0;
    return 1;
}

/* So many records at most in a call; any number of them where it is 0. */
static void judge_in(struct rng *g, struct run *run, const struct buffer *in, unsigned limit,
                     size_t records, uint32_t a_call)
{
    struct verdict v = NO_BREACH;
    *run = (struct run){0};
    judge_fresh(&run->j, limit);
    for (size_t at = 0, n; at < records && v.rule == 0; at += n) {
        n = a_call == 0 ? records : 1 + rng_below(g, a_call);
        n = n < records - at ? n : records - at;
        account_recording(&run->j, &run->t, run->account, SLOTS, in->bytes + at * RECORD, n * RECORD,
                          &v);
    }
}

static int as_looked_back(const struct run *run, const struct buffer *in)
{
    struct record *at = calloc(run->t.records + 1, sizeof *at);
    int good = 1;
    if (at == NULL)
        exit(2);
    for (size_t i = 0; i < run->t.records; i++)
        record_read(&at[i], in->bytes + i * RECORD);
    for (unsigned k = 0; k < SLOTS && good; k++) {
        struct entry e = account_back(at, run->t.records, k), has = run->account[k];
        good = e.starts == has.starts && e.busy == has.busy;
        if (!good)
            printf("slot %u: the model has STARTs %lu busy %llu, looking back STARTs %lu busy %llu\n",
                   k, (unsigned long)has.starts, (unsigned long long)has.busy,
                   (unsigned long)e.starts, (unsigned long long)e.busy);
    }
    free(at);
    return good;
}

/* The STARTs add up; each is within the bounds of refusal 5, and together the busy cycles are some of
   those from the first record to the last, which are one more than the span. */
static int sums(const struct run *run)
{
    uint64_t starts = 0, busy = 0;
    for (int k = 0; k < SLOTS; k++) {
        starts += run->account[k].starts;
        busy += run->account[k].busy;
        if (!account_bounds(&run->account[k], &run->t))
            return 0;
    }
    return starts == run->t.starts && busy <= run->t.span + 1;
}

/* The busy cycles are those that there were before the open transfer's START. */
static int open_adds_nothing(struct rng *g, const struct run *run, const struct buffer *in,
                             unsigned limit)
{
    struct run before;
    size_t start = run->t.records;
    struct record r = {0};
    if (!run->j.open)
        return 1;
    while (!r.start)
        record_read(&r, in->bytes + --start * RECORD);
    judge_in(g, &before, in, limit, start, 0);
    for (int k = 0; k < SLOTS; k++)
        if (before.account[k].busy != run->account[k].busy)
            return 0;
    return run->t.starts == before.t.starts + 1;
}

int selfaccounts_check(struct rng *g, const struct buffer *in, unsigned limit, size_t records)
{
    struct run whole, parts, conforming;
    const char *what = NULL;
    account_meet(in, limit);
    judge_in(g, &whole, in, limit, in->len / RECORD, 0);
    judge_in(g, &parts, in, limit, in->len / RECORD, 1 + rng_below(g, 5));
    judge_in(g, &conforming, in, limit, records, 0);
    if (whole.t.records != records || !as_looked_back(&whole, in))
        what = "looking back";
    else if (!same(whole.account, parts.account))
        what = "one call or many";
    else if (!same(whole.account, conforming.account))
        what = "a breach changes no entry";
    else if (!sums(&whole))
        what = "the sums and bounds";
    else if (!open_adds_nothing(g, &whole, in, limit))
        what = "an open transfer adds nothing";
    if (what != NULL)
        printf("accounts, %s: limit %u, %lu records\n", what, limit, (unsigned long)records);
    return what == NULL;
}

/* The starter that the stepper answered, against the one that the lines show. */
static int as_stepped(struct rng *g, unsigned limit)
{
    struct maker m;
    struct run run;
    maker_start(&m, g, limit);
    traffic_bus(&m, 20 + rng_below(g, 300));
    judge_in(g, &run, &m.out, limit, m.out.len / RECORD, 0);
    int good = same(run.account, m.stepped) && run.t.records == m.out.len / RECORD;
    if (!good)
        printf("accounts, against the stepper: limit %u\n", limit);
    buffer_free(&m.out);
    return good;
}

unsigned long selfaccounts(int count, struct rng *g, unsigned long *differ)
{
    unsigned long apart = 0;
    for (int i = 0; i < 5 * count; i++) {
        struct maker m;
        unsigned limit = 1 + rng_below(g, 16);
        maker_start(&m, g, limit);
        traffic_owners(&m, 10 + rng_below(g, 150),
                       i % 8 == 0 ? LATE_ABORTS : i % 8 == 4 ? LATE_WORDS : PLAIN_OWNERS);
        apart += !selfaccounts_check(g, &m.out, limit, m.out.len / RECORD);
        buffer_free(&m.out);
        apart += !as_stepped(g, limit);
    }
    if (!account_met() && count >= ENOUGH) {
        printf("something that the accounts count was never met\n");
        apart++;
    }
    *differ += apart;
    return 10 * (unsigned long)count;
}
