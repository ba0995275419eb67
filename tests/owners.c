/* Sound recordings made for the accounts (document 02, wish 3): waves whose STARTs show any slot,
   parked STARTs under any ARB, in the cycle in which a wave begins too, attention cycles, transfers
   with cycles missing and over a wrap of the stamp, RESETs at any time after a START, and some whose words
   come as late as they may. Some have two
   masters alone and RESETs as late as can be, so that a slot is busy for more than 2^32 cycles. */
#include "make.h"

/* A recording's manner. */
struct manner {
    uint32_t lowest, slots; /* those that ever start in a wave */
    int late;               /* RESETs are */
    uint32_t slow;          /* the chance in a hundred that a word comes as late as it may */
};

/* The cycle so many after the last record's, RQST being as it was. */
static struct record later(const struct maker *m, uint32_t cycles)
{
    return (struct record){.stamp = m->j.stamp + cycles, .rqst = m->j.rqst1};
}

/* A START: an attention cycle, or a transfer of any unit; with slow words the longest often. */
static void drive_start(struct rng *g, const struct manner *how, struct record *r)
{
    struct operation op = {(uint8_t)rng_below(g, 2), (uint8_t)rng_below(g, UNITS), rng_word(g)};
    if (rng_chance(g, how->slow / 2))
        op.unit = BLOCK16;
    r->start = 1;
    if (rng_chance(g, 30)) {
        r->ack = r->tm1 = r->tm0 = 1;
        return;
    }
    op.address &= ~(code_size(op.unit) - 1);
    code_encode(&op, &r->tm1, &r->tm0, &r->ad);
}

/* RESET after so many cycles; its other lines count for nothing. */
static void reset_after(struct maker *m, uint32_t cycles)
{
    struct record r = {.stamp = m->j.stamp + cycles, .reset = 1};
    uint32_t lines = rng_below(m->g, 128);
    r.rqst = lines & 1;
    r.start = lines >> 1 & 1;
    r.ack = lines >> 2 & 1;
    r.arb = lines >> 3 & 15;
    maker_try(m, &r, 0);
}

static uint32_t some_gap(struct rng *g)
{
    switch (rng_below(g, 4)) {
    case 0: return 1;
    case 1: return 1 + rng_below(g, 5);
    case 2: return 1 + rng_below(g, 400);
    default: return ((uint32_t)1 << rng_below(g, 31)) + rng_below(g, 2);
    }
}

/* The next word of a block, or the end where all are there, as late as rule 12 allows: sixteen words so are
   4,097 busy cycles (document 02, wish 5). */
static void late_word(struct maker *m)
{
    struct record r = later(m, m->j.rqst1 ? 1 : WATCHDOG - m->j.age);
    r.tm0 = 1;
    r.tm1 = (uint8_t)rng_below(m->g, 2);
    if (m->j.strobes + 1 == m->j.words)
        r.ack = r.tm1 = 1;
    maker_try(m, &r, 0);
}

static uint8_t some_slot(struct rng *g, const struct manner *how)
{
    return (uint8_t)(how->lowest + rng_below(g, how->slots));
}

/* The open transfer gets older, ends or is aborted. Within a wave no cycle may be missing, but before
   a RESET. */
static void go_on(struct maker *m, const struct manner *how)
{
    struct rng *g = m->g;
    uint32_t most = WATCHDOG - m->j.age, cycles = rng_chance(g, 60) ? 1 : 1 + rng_below(g, most + 1);
    if (most > 0 && rng_chance(g, how->slow)) {
        late_word(m);
        return;
    }
    if (rng_chance(g, 15)) {
        reset_after(m, how->late ? ((uint32_t)1 << 31) - rng_below(g, 3) : some_gap(g));
        return;
    }
    if (m->j.rqst1)
        cycles = 1;
    else if (rng_chance(g, 10))
        cycles = most;
    struct record r = later(m, cycles < most ? cycles : most);
    r.arb = (uint8_t)rng_below(g, 16);
    if (rng_chance(g, 60)) { /* success where all words are there, else another status */
        r.ack = 1;
        r.tm1 = (uint8_t)rng_below(g, 2);
        r.tm0 = m->j.strobes + 1 == m->j.words ? (uint8_t)rng_below(g, 2) : !r.tm1;
    } else if (m->j.words > 1 && m->j.strobes + 1 < m->j.words) {
        r.tm0 = (uint8_t)rng_below(g, 2);
    }
    maker_try(m, &r, 0);
}

/* A wave waits, or one of its members starts. */
static void in_wave(struct maker *m, const struct manner *how)
{
    struct rng *g = m->g;
    struct record r = later(m, 1);
    int may = m->j.rqst2 && (m->j.turn == 0 || m->j.since >= 2);
    do
        r.arb = some_slot(g, how);
    while (m->j.turn > 0 && r.arb > m->j.arb);
    if (m->j.turn > 0 && m->j.turn < m->j.limit && rng_chance(g, 40))
        r.arb = m->j.arb;
    if (may && rng_chance(g, 80)) {
        drive_start(g, how, &r);
        r.rqst = (uint8_t)rng_chance(g, how->slow > 0 ? 10 : 40);
    }
    maker_try(m, &r, 0);
}

/* Nothing is open and no wave is on: the owner starts, whatever ARB shows, a wave begins, or both; or
   time passes. Now and then it is right before the stamp's wrap. */
static void when_idle(struct maker *m, const struct manner *how)
{
    struct rng *g = m->g;
    struct record r = later(m, some_gap(g));
    r.arb = (uint8_t)rng_below(g, 16);
    if (rng_chance(g, 15)) /* as far on as can be, or to the wrap if that is nearer */
        r.stamp = m->j.stamp >> 31 ? 0u - 1 - rng_below(g, 5) : m->j.stamp + ((uint32_t)1 << 31);
    if (m->j.started && rng_chance(g, 60)) {
        drive_start(g, how, &r);
        r.rqst = (uint8_t)rng_chance(g, how->slow > 0 ? 10 : 30);
    } else if (rng_chance(g, 70)) {
        r.rqst = 1;
    }
    maker_try(m, &r, 0);
}

void traffic_owners(struct maker *m, size_t records, enum owners owners)
{
    size_t want = m->out.len + records * RECORD;
    struct manner how = {0, SLOTS, 0, 0};
    if (owners == LATE_ABORTS)
        how = (struct manner){rng_below(m->g, SLOTS - 1), 2, 1, 0};
    else if (owners == LATE_WORDS)
        how.slow = 94 + rng_below(m->g, 7);
    if (!m->j.has_stamp)
        m->j.stamp = rng_chance(m->g, 50) ? 0u - rng_below(m->g, 40) : rng_word(m->g);
    while (m->out.len < want) {
        size_t before = m->out.len;
        if (m->j.open)
            go_on(m, &how);
        else if (m->j.rqst1)
            in_wave(m, &how);
        else
            when_idle(m, &how);
        if (m->out.len == before || rng_chance(m->g, 1))
            reset_after(m, 1);
    }
}
