/* Calls on the account beside the judge's tally (document 02, wish 3; 23, 24 and 25): how many entries
   are lent, entries at their bounds and just over, tallies and states that don't belong together, and
   questions for each slot. */
#include <string.h>
#include "caller.h"

enum { ONE_MORE = SLOTS + 1 };

uint8_t account_lent(struct rng *g)
{
    static const uint8_t others[] = {0, 1, 8, 14, 15, 17, 18, 32, 255};
    return rng_chance(g, 95) ? SLOTS : others[rng_below(g, sizeof others)];
}

static void ask(struct caller *c, unsigned slot, unsigned entries)
{
    caller_clear(c, 24);
    c->call[1] = (uint8_t)slot;
    c->call[2] = (uint8_t)entries;
    caller_issue(c);
}

static void set_entry(struct caller *c, unsigned entry, uint32_t starts, uint64_t busy)
{
    caller_clear(c, 25);
    c->call[1] = (uint8_t)(entry + (rng_chance(c->g, 20) ? ENTRIES * rng_below(c->g, 14) : 0));
    caller_number(c, 2, 4, starts);
    caller_number(c, 6, 8, busy);
    caller_issue(c);
}

static void ask_all(struct caller *c)
{
    for (unsigned k = 0; k < SLOTS; k++)
        ask(c, k, SLOTS);
}

static unsigned some_slot(struct caller *c)
{
    switch (rng_below(c->g, 6)) {
    case 0: return rng_chance(c->g, 50) ? 16 : rng_chance(c->g, 50) ? 17 : rng_below(c->g, 256);
    case 1: case 2: return rng_below(c->g, SLOTS);
    default: return c->d.judge.owner;
    }
}

/* An entry at a bound, one off it, far from it, or as great as can be. */
static void some_entry(struct caller *c, unsigned entry)
{
    struct rng *g = c->g;
    const struct tally *t = &c->d.tally;
    uint32_t starts = t->starts + rng_below(g, 3) - 1;
    if (rng_chance(g, 40))
        starts = rng_chance(g, 60) ? 0 : rng_chance(g, 50) ? 0xFFFFFFFF : rng_word(g);
    uint64_t busy = t->span + starts + rng_below(g, 3) - 1;
    if (rng_chance(g, 30))
        busy = rng_chance(g, 60) ? 0 : rng_chance(g, 50) ? (uint64_t)-1
                                                         : rng_next(g) >> rng_below(g, 64);
    set_entry(c, entry, starts, busy);
}

void account_between(struct caller *c)
{
    if (rng_chance(c->g, 40))
        ask(c, some_slot(c), account_lent(c->g));
    if (rng_chance(c->g, 2))
        some_entry(c, rng_below(c->g, ENTRIES));
    if (rng_chance(c->g, 1))
        ask_all(c);
}

/* Entries that are out of bounds are set to their bounds or to 0. */
static void mend(struct caller *c)
{
    for (unsigned k = 0; k < SLOTS; k++) {
        struct entry e = c->d.account[k];
        if (account_bounds(&e, &c->d.tally))
            continue;
        e.starts = rng_chance(c->g, 50) ? c->d.tally.starts : 0;
        e.busy = rng_chance(c->g, 50) ? c->d.tally.span + e.starts : 0;
        set_entry(c, k, e.starts, e.busy);
    }
}

void account_again(struct caller *c)
{
    uint8_t kept[CALL];
    memcpy(kept, c->call, CALL);
    if (c->answer[0] == 5 && judge_bounds(&c->d.judge, &c->d.tally)) {
        if (rng_chance(c->g, 30))
            ask(c, some_slot(c), SLOTS);
        mend(c);
    } else if (c->answer[0] != 1 || kept[50] == SLOTS) {
        return; /* the account isn't why */
    }
    memcpy(c->call, kept, CALL);
    c->call[50] = SLOTS;
    caller_issue(c);
}

/* A judging of so many records, with an account of so many entries. */
static void judge_with(struct caller *c, const struct record *r, size_t records, unsigned entries)
{
    caller_clear(c, 23);
    c->call[1] = (uint8_t)(records * RECORD);
    for (size_t i = 0; i < records; i++)
        record_write(&r[i], c->call + 2 + i * RECORD);
    c->call[50] = (uint8_t)entries;
    caller_issue(c);
}

/* The bounds of an entry beside a tally, at the edge and one past it, seen by a question for it, one
   for another, a judging of nothing with an account, and one without. */
static void edges(struct caller *c)
{
    static const uint32_t most = 0xFFFFFFFF;
    const struct tally tallies[] = {
        {0, 0, 0, 0, 0}, {1, (uint64_t)1 << 31, 1, 0, 0}, {1000, 5000000000, 400, 9, 9},
        {7, 0, 7, 7, 0}, {1u << 30, (uint64_t)1 << 61, 1u << 30, 0, 0}, {most, 3, most, most, most},
        {most, ((uint64_t)1 << 31) * most, most, 0, 0}, {3, 7, 4, 0, 0}, {3, 7, 3, 0, 4}};
    const struct tally *t = &tallies[rng_below(c->g, sizeof tallies / sizeof tallies[0])];
    unsigned k = rng_below(c->g, SLOTS);
    call_set_tally(c, t);
    for (int i = 0; i < 8; i++) {
        uint32_t starts = i == 0 ? t->starts : i == 1 ? t->starts + 1 : i < 4 ? 0 : t->starts / 2;
        uint64_t busy = t->span + starts + (i == 3 || i == 5);
        if (i >= 6)
            busy = i == 6 ? (uint64_t)-1 : t->span;
        set_entry(c, k, starts, busy);
        ask(c, k, SLOTS);
        ask(c, (k + 1) % SLOTS, SLOTS);
        judge_with(c, NULL, 0, SLOTS);
        caller_clear(c, 20);
        c->call[1] = 0;
        caller_issue(c);
    }
}

/* An entry out of bounds, in each place, and accounts of every length: which are looked at, and 5
   before 1 before 2. */
static void lengths(struct caller *c)
{
    unsigned k = rng_chance(c->g, 30) ? SLOTS : rng_below(c->g, SLOTS);
    set_entry(c, k, 1 + rng_below(c->g, 5), 0);
    for (unsigned entries = k > 1 ? k - 1 : 0; entries <= ONE_MORE + 1; entries++) {
        judge_with(c, NULL, 0, entries);
        ask(c, k, entries);
        ask(c, SLOTS, entries);
        ask(c, rng_below(c->g, 256), entries);
    }
}

/* A wave's START of a slot, right behind a RESET; the stamp is that of its cycle. */
static uint32_t start_of(struct caller *c, uint8_t slot, int attention)
{
    struct record r[5] = {{.stamp = rng_word(c->g), .reset = 1}};
    for (uint32_t i = 1; i < 4; i++)
        r[i] = (struct record){.stamp = r[0].stamp + i, .rqst = i < 3};
    r[3].start = 1;
    r[3].arb = slot;
    r[3].ack = r[3].tm1 = r[3].tm0 = (uint8_t)attention;
    judge_with(c, r, 3, SLOTS);
    judge_with(c, r + 3, 1, SLOTS);
    return r[3].stamp;
}

/* Strobes of the open block, each as late as it may come: the age restarts and the busy time goes on (02,
   wish 5). Gives the cycles that it took. */
static uint32_t late_words(struct caller *c, uint32_t count)
{
    uint32_t began = c->d.judge.stamp;
    for (; count > 0; count--) {
        struct record r = {.stamp = c->d.judge.stamp + 256u - c->d.judge.age, .tm0 = 1};
        judge_with(c, &r, 1, SLOTS);
    }
    return c->d.judge.stamp - began;
}

/* A state and a tally that don't belong together: a transfer set open, of some age, beside a tally of
   little or no span. Its end is counted and pushes the entry past its bounds, so the next judging is
   refused, and so is a question for that slot alone, until the tally allows what was counted. */
static void apart(struct caller *c)
{
    static const struct tally roomy = {1000, 100000, 100, 100, 0};
    struct rng *g = c->g;
    uint8_t slot = (uint8_t)rng_below(g, SLOTS);
    struct record end = {.stamp = start_of(c, slot, rng_chance(g, 50))};
    struct judge j = {.limit = 16, .open = 1, .words = (uint8_t)(1 + rng_below(g, MOST_WORDS))};
    struct tally t = {3 + rng_below(g, 3), rng_below(g, 3), rng_below(g, 4), 0, 0};
    j.strobes = (uint8_t)rng_below(g, j.words);
    j.age = (uint16_t)(rng_chance(g, 50) ? 256 - rng_below(g, 3) : rng_below(g, 256));
    j.turn = 1;
    j.arb = (uint8_t)rng_below(g, SLOTS); /* the wave's, and not the owner's */
    end.stamp += 1 + (j.age < 256 ? rng_below(g, 256u - j.age) : 0);
    end.reset = j.age == 256 || rng_chance(g, 40);
    end.ack = end.tm1 = 1;
    call_set_judge(c, &j);
    if (rng_chance(g, 70))
        call_set_tally(c, &t);
    if (j.age < 256)
        end.stamp += late_words(c, rng_below(g, j.words - j.strobes));
    judge_with(c, &end, 1, SLOTS);
    ask(c, slot, SLOTS);
    ask(c, (slot + 1u) % SLOTS, SLOTS);
    ask(c, j.arb, SLOTS);
    judge_with(c, NULL, 0, SLOTS);
    if (rng_chance(g, 30))
        mend(c);
    else
        call_set_tally(c, &roomy);
    ask(c, slot, SLOTS);
}

void account_scene(struct caller *c)
{
    call_fresh(c, 1 + rng_below(c->g, 16));
    switch (rng_below(c->g, 3)) {
    case 0: edges(c); break;
    case 1: lengths(c); break;
    case 2: apart(c); break;
    }
    ask_all(c);
}
