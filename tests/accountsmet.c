/* Counts what the recordings had that the accounts of document 02's wish 3 turn on, so that a runner
   can fail where something of it was never met. */
#include <stdio.h>
#include "accountsmet.h"

enum feature {
    PARKED, OTHER_ARB, BEGINNING, BEHIND_ATTENTION, ATTENTION, PARKED_ATTENTION, SLOT_0, MISSING, WRAPS,
    WATCHDOG_LAST, LONGER, LONGEST_ONE, ABORTED, ABORTED_NEXT, ABORTED_GAP, ABORTED_LONG, LEFT_OPEN, BREACH_OPEN,
    BEYOND, FEATURES
};
static const char *const names[FEATURES] = {
    "parked STARTs", "with another ARB than the owner's", "in a wave's first cycle",
    "right behind an attention cycle", "attention cycles", "parked ones", "STARTs of slot 0",
    "transfers with cycles missing", "with a wrap", "of 257 cycles", "of more that end by ACK", "of 4,097",
    "aborted",
    "in the cycle behind their START", "behind missing cycles", "beyond 4,097 cycles",
    "recordings that end with one open", "breaches with one open",
    "slots busy for 2^32 cycles or more"};
static unsigned long met[FEATURES], of_slot[SLOTS];

/* What the open transfer has had so far. */
struct transfer {
    int missing, wrapped, records;
};

/* At the recording's end, or the breach. */
static void meet_account(const struct entry *account)
{
    for (int k = 0; k < SLOTS; k++)
        met[BEYOND] += account[k].busy >> 32 != 0;
}

static void meet_start(const struct judge *j, const struct record *r, int attention_before)
{
    int parked = j->stamp + 1 != r->stamp || !j->rqst1;
    met[ATTENTION] += r->ack;
    met[SLOT_0] += (parked ? j->owner : r->arb) == 0;
    if (!parked)
        return;
    met[PARKED]++;
    of_slot[j->owner]++;
    met[OTHER_ARB] += r->arb != j->owner;
    met[BEGINNING] += r->rqst;
    met[BEHIND_ATTENTION] += attention_before && j->stamp + 1 == r->stamp;
    met[PARKED_ATTENTION] += r->ack;
}

static void meet_end(const struct judge *j, const struct record *r, const struct transfer *t)
{
    uint32_t cycles = r->stamp - j->stamp;
    met[MISSING] += t->missing;
    met[WRAPS] += t->wrapped;
    met[WATCHDOG_LAST] += j->busy + cycles == WATCHDOG + 1;
    if (!r->reset) { /* the age is no longer the busy time (document 02, wish 5) */
        met[LONGER] += j->busy + cycles > WATCHDOG + 1;
        met[LONGEST_ONE] += j->busy + cycles == LONGEST;
        return;
    }
    met[ABORTED]++;
    met[ABORTED_NEXT] += t->records == 1 && cycles == 1;
    met[ABORTED_GAP] += cycles > 1;
    met[ABORTED_LONG] += j->busy + (uint64_t)cycles > LONGEST;
}

static void meet_record(const struct judge *j, const struct record *r, struct transfer *t,
                        int *attention)
{
    t->missing |= j->stamp + 1 != r->stamp;
    t->wrapped |= r->stamp < j->stamp;
    t->records++;
    if (j->open && (r->reset || r->ack))
        meet_end(j, r, t);
    if (!r->reset && r->start) {
        meet_start(j, r, *attention);
        *t = (struct transfer){0};
    }
    *attention = !r->reset && r->start && r->ack;
}

void account_meet(const struct buffer *in, unsigned limit)
{
    struct judge j;
    struct tally t = {0};
    struct entry account[SLOTS] = {{0}};
    struct transfer transfer = {0};
    struct verdict v = NO_BREACH;
    int attention = 0;
    judge_fresh(&j, limit);
    for (size_t at = 0; v.rule == 0 && in->len - at >= RECORD; at += RECORD) {
        struct judge before = j;
        struct record r;
        record_read(&r, in->bytes + at);
        v = account_one(&j, &t, account, in->bytes + at);
        if (v.rule == 0)
            meet_record(&before, &r, &transfer, &attention);
    }
    met[v.rule != 0 ? BREACH_OPEN : LEFT_OPEN] += j.open;
    meet_account(account);
}

int account_met(void)
{
    unsigned long least = met[PARKED];
    for (int i = 0; i < FEATURES; i++) {
        printf("%s%s %lu", i == 0 ? "accounts: " : ", ", names[i], met[i]);
        least = met[i] < least ? met[i] : least;
    }
    printf("; parked by slot:");
    for (int k = 0; k < SLOTS; k++) {
        printf(" %lu", of_slot[k]);
        least = of_slot[k] < least ? of_slot[k] : least;
    }
    printf("\n");
    return least > 0;
}
