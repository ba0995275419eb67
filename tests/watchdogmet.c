/* Counts what the recordings had that rule 12 turns on since the watchdog restarts with each word
   (document 02, wish 5), so that a runner can fail where something of it was never met. */
#include <stdio.h>
#include "watchdogmet.h"

enum feature {
    STROBE_255, STROBE_256, IN_WAVE, OVER, LONGEST_ONE, ACK_BEHIND, SINGLE_LATE, WRAPPED, ABORT_BEHIND,
    ABORT_LONG, BROKEN_NONE, BROKEN_ONE, BROKEN_SOME, BROKEN_ALL, BROKEN_SINGLE, BY_STROBE, BY_ACK,
    BY_EXTRA, EXTRA_LATE, LOWER, FEATURES
};
static const char *const names[FEATURES] = {
    "strobes at age 255", "at 256", "of them within a wave", "transfers over 257 cycles that end by ACK",
    "of 4,097", "ACKs at age 256 behind a strobe", "at 256 in a single transfer with TM0 before",
    "wraps between START and strobe", "aborts behind a strobe", "beyond 4,097 cycles",
    "rule 12 broken in a block with no strobe", "with one", "with some", "with all",
    "in a single transfer with TM0 before", "by a strobe at 257", "by an ACK at 257 behind a strobe",
    "by a strobe too many", "rule 13 broken by one at 256", "a lower rule than 12 at 257 behind a strobe"};
static unsigned long met[FEATURES];

/* What the open transfer has had so far. */
struct transfer {
    int tm0, wrapped; /* TM0 without START and ACK; a wrap of the stamp */
};

static int strobes(const struct judge *j, const struct record *r)
{
    return j->open && j->words > 1 && r->tm0 && !r->start && !r->ack && !r->reset;
}

static void meet_end(const struct judge *j, const struct record *r, const struct transfer *t,
                     uint64_t since)
{
    uint64_t busy = j->busy + since, age = j->age + since;
    if (r->reset) {
        met[ABORT_BEHIND] += j->strobes > 0;
        met[ABORT_LONG] += j->strobes > 0 && busy > LONGEST;
        return;
    }
    met[OVER] += busy > WATCHDOG + 1;
    met[LONGEST_ONE] += busy == LONGEST;
    met[ACK_BEHIND] += age == WATCHDOG && j->strobes > 0;
    met[SINGLE_LATE] += age == WATCHDOG && j->words == 1 && t->tm0;
}

/* A record that breaks no rule. */
static void meet_taken(const struct judge *j, const struct record *r, struct transfer *t)
{
    uint64_t since = (uint32_t)(r->stamp - j->stamp), age = j->age + since;
    if (!j->open) {
        *t = (struct transfer){0, 0};
        return;
    }
    t->wrapped |= r->stamp < j->stamp;
    if (r->reset || r->ack) {
        meet_end(j, r, t, since);
        return;
    }
    t->tm0 |= r->tm0;
    if (!strobes(j, r))
        return;
    met[STROBE_255] += age == WATCHDOG - 1;
    met[STROBE_256] += age == WATCHDOG;
    met[IN_WAVE] += age == WATCHDOG && j->rqst1;
    met[WRAPPED] += t->wrapped;
}

static void meet_breach(const struct judge *j, const struct record *r, const struct transfer *t, int rule)
{
    uint64_t age = j->age + (uint64_t)(uint32_t)(r->stamp - j->stamp);
    int all = j->strobes + 1 == j->words;
    if (!j->open)
        return;
    met[LOWER] += rule > 2 && rule < 12 && age == WATCHDOG + 1 && j->strobes > 0;
    met[EXTRA_LATE] += rule == 13 && strobes(j, r) && age == WATCHDOG;
    if (rule != 12)
        return;
    if (j->words == 1) {
        met[BROKEN_SINGLE] += t->tm0;
        return;
    }
    met[j->strobes == 0 ? BROKEN_NONE : all ? BROKEN_ALL : j->strobes == 1 ? BROKEN_ONE : BROKEN_SOME]++;
    met[BY_STROBE] += strobes(j, r) && !all && age == WATCHDOG + 1;
    met[BY_ACK] += r->ack && j->strobes > 0 && age == WATCHDOG + 1;
    met[BY_EXTRA] += strobes(j, r) && all;
}

void watchdog_meet(const struct buffer *in, unsigned limit)
{
    struct judge j;
    struct tally t = {0};
    struct transfer transfer = {0, 0};
    int rule = 0;
    judge_fresh(&j, limit);
    for (size_t at = 0; rule == 0 && in->len - at >= RECORD; at += RECORD) {
        struct judge before = j;
        struct record r;
        record_read(&r, in->bytes + at);
        rule = judge_one(&j, &t, in->bytes + at).rule;
        if (rule == 0)
            meet_taken(&before, &r, &transfer);
        else
            meet_breach(&before, &r, &transfer, rule);
    }
}

int watchdog_met(void)
{
    unsigned long least = met[0];
    for (int i = 0; i < FEATURES; i++) {
        printf("%s%s %lu", i == 0 ? "watchdog: " : ", ", names[i], met[i]);
        least = met[i] < least ? met[i] : least;
    }
    printf("\n");
    return least > 0;
}
