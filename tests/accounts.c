/* Who used the bus (document 02, wish 3): an account for each slot, kept record by record beside the
   tally. */
#include <stdio.h>
#include "spur.h"

/* Cycles from the judge's last record to this one; missing ones count. */
static uint32_t since_last(const struct judge *j, const struct record *r)
{
    return j->has_stamp ? r->stamp - j->stamp : 0;
}

/* The slot that starts: that of a wave's START is what its ARB shows, and "a parked START is the
   owner's", who is the last wave's starter since the reset. RQST in the cycle before makes it the
   wave's. */
static unsigned starter(const struct judge *j, const struct record *r)
{
    int of_wave = j->has_stamp && since_last(j, r) == 1 && j->rqst1;
    return of_wave ? r->arb : j->owner;
}

/* "STARTs and busy cycles, START to ACK or abort, both ends counted, an attention cycle being 1"; "a
   transfer still open adds nothing to busy cycles until it ends". No START comes while a transfer is
   open, so that one is still its owner's. RESET's own cycle is the abort's end. */
void account_take(struct entry *account, const struct judge *before, const struct record *r)
{
    if (r->reset ? before->open : r->ack && !r->start)
        account[before->owner].busy += (uint64_t)before->busy + since_last(before, r);
    if (r->reset || !r->start)
        return;
    struct entry *e = &account[starter(before, r)];
    e->starts++;
    if (r->ack)
        e->busy++;
}

/* 5 is "for an entry with more STARTs than the tally, or more busy cycles than span plus its
   STARTs". */
int account_bounds(const struct entry *e, const struct tally *t)
{
    return e->starts <= t->starts && e->busy <= t->span + e->starts;
}

/* "A breach changes no entry." */
struct verdict account_one(struct judge *j, struct tally *t, struct entry *account,
                           const uint8_t *bytes)
{
    struct judge before = *j;
    struct record r;
    struct verdict v = judge_one(j, t, bytes);
    if (v.rule != 0)
        return v;
    record_read(&r, bytes);
    account_take(account, &before, &r);
    return v;
}

/* Refusals in the order 5, 8, 1. All sixteen entries are looked at, of a shorter or longer account
   those among them that there are. */
int account_recording(struct judge *j, struct tally *t, struct entry *account, size_t entries,
                      const uint8_t *bytes, size_t len, struct verdict *v)
{
    *v = NO_BREACH;
    if (!judge_bounds(j, t))
        return 5;
    for (size_t k = 0; k < entries && k < SLOTS; k++)
        if (!account_bounds(&account[k], t))
            return 5;
    if (t->records + (uint64_t)(len / RECORD) > MOST_RECORDS)
        return 8;
    if (len % RECORD != 0 || entries != SLOTS)
        return 1;
    for (size_t at = 0; at < len && v->rule == 0; at += RECORD)
        *v = account_one(j, t, account, bytes + at);
    return 0;
}

/* "An accepted answer for one slot depends on its entry alone": refusals in the order 5 (the tally's
   bounds, and the entry's where it is a slot's and lent), 1, 2. */
int account_slot(const struct tally *t, const struct entry *account, size_t entries, unsigned slot,
                 struct entry *e)
{
    *e = (struct entry){0};
    if (!tally_bounds(t))
        return 5;
    if (slot < SLOTS && slot < entries && !account_bounds(&account[slot], t))
        return 5;
    if (entries != SLOTS)
        return 1;
    if (slot >= SLOTS)
        return 2;
    *e = account[slot];
    return 0;
}

void account_lines(const struct entry *account, char *text, size_t room)
{
    int n = 0;
    for (int k = 0; k < SLOTS; k++)
        n += snprintf(text + n, room - (size_t)n, "slot %d starts %lu busy %llu\n", k,
                      (unsigned long)account[k].starts, (unsigned long long)account[k].busy);
}

/* The lines of the judging program for the records counted, then the account of them. */
int account_program(unsigned limit, const uint8_t *bytes, size_t len, char *text)
{
    struct entry account[SLOTS] = {{0}};
    struct judge j;
    struct tally t = {0};
    struct verdict v = NO_BREACH;
    int status = judge_program(limit, bytes, len, text);
    size_t n = 0;
    if (judge_fresh(&j, limit) != 0)
        return status; /* refused alone: nothing is judged */
    for (size_t at = 0; v.rule == 0 && t.records < MOST_RECORDS && len - at >= RECORD; at += RECORD)
        v = account_one(&j, &t, account, bytes + at);
    while (text[n] != '\0')
        n++;
    account_lines(account, text + n, ACCOUNT_TEXT - n);
    return status;
}
