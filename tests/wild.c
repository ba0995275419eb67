/* Sound recordings of whatever the rules allow, and not only what a sound bus does: records are
   proposed at random near the rules' edges, and the model's judge keeps those that conform. The
   same proposals serve to break a rule on purpose. */
#include "make.h"

/* Distances between stamps: mostly the next cycle, else an edge of rule 2, 8, 9 or 12. */
static uint32_t distance(struct rng *g, const struct judge *j, unsigned chaos)
{
    if (!rng_chance(g, 12 + chaos))
        return 1;
    switch (rng_below(g, 12)) {
    case 0: return 2;
    case 1: return 3;
    case 2: return j->open ? 256u - j->age : 256;
    case 3: return j->open ? 257u - j->age : 257;
    case 4: return (uint32_t)1 << 31;
    case 5: return ((uint32_t)1 << 31) - rng_below(g, 3);
    case 6: return chaos ? ((uint32_t)1 << 31) + rng_below(g, 3) : 1;
    case 7: return chaos ? 0 : 1;
    case 8: return 1 + rng_below(g, 300);
    case 9: return chaos ? (uint32_t)rng_next(g) : 4;
    case 10: return j->open ? 255u - j->age : 5;
    default: return 1 + rng_below(g, 6);
    }
}

static uint8_t some_arb(struct rng *g, const struct judge *j)
{
    if (j->turn > 0) {
        if (rng_chance(g, 50))
            return j->arb;
        if (rng_chance(g, 50))
            return j->arb > 0 ? (uint8_t)(j->arb - 1) : 0;
        if (rng_chance(g, 40))
            return j->arb < 15 ? (uint8_t)(j->arb + 1) : 15;
    }
    return (uint8_t)rng_below(g, 16);
}

static uint32_t some_ad(struct rng *g, unsigned chaos)
{
    static const uint32_t low[] = {0x02, 0x06, 0x0E, 0x1E, 0x3A, 0x36, 0x2E, 0x12};
    uint32_t ad = rng_word(g);
    if (rng_chance(g, 50))
        ad = (ad & ~(uint32_t)0x3F) | low[rng_below(g, 8)];
    if (rng_chance(g, 2 + chaos / 4))
        ad |= 0x3E;
    return ad;
}

/* A record that may come next; the more chaos, the likelier it breaks something. */
void wild_propose(struct maker *m, struct record *r, unsigned *spare, unsigned chaos)
{
    struct rng *g = m->g;
    const struct judge *j = &m->j;
    *r = (struct record){0};
    *spare = rng_chance(g, chaos / 8) ? 1u << rng_below(g, 15) : 0;
    r->stamp = j->has_stamp ? j->stamp + distance(g, j, chaos) : rng_word(g);
    r->reset = (uint8_t)rng_chance(g, 1);
    r->rqst = (uint8_t)rng_chance(g, j->rqst1 ? 88 : 30);
    r->start = (uint8_t)rng_chance(g, j->open ? 3 + chaos / 2 : 35);
    r->ack = (uint8_t)rng_chance(g, r->start ? 30 : j->open ? 12 : 1 + chaos / 3);
    r->arb = some_arb(g, j);
    r->ad = some_ad(g, chaos);
    r->tm1 = (uint8_t)rng_below(g, 2);
    r->tm0 = (uint8_t)rng_below(g, 2);
    if (r->start && r->ack && !rng_chance(g, chaos))
        r->tm1 = r->tm0 = 1;
    if (r->start && !r->ack && rng_chance(g, 60))
        r->tm0 = 0;
    if (r->ack && j->open && j->strobes + 1 == j->words && rng_chance(g, 70))
        r->tm1 = r->tm0 = 1;
    r->spv = (uint8_t)rng_chance(g, 30);
    r->sp = (uint8_t)(r->spv && !rng_chance(g, chaos / 2) ? code_parity(r->ad)
                                                          : (int)rng_below(g, 2));
    if (rng_chance(g, 15))
        noise(g, r);
    if (!r->start && !r->ack && rng_chance(g, 50)) {
        r->ad = 0;
        r->sp = r->spv = 0;
    }
    if (rng_chance(g, 5)) /* all lines inactive */
        *r = (struct record){.stamp = r->stamp};
}

/* The next cycle with no line but RQST as it was: always within the rules unless the age is. */
static struct record quiet(const struct maker *m)
{
    return (struct record){.stamp = m->j.stamp + 1, .rqst = m->j.rqst1};
}

static void reset(struct maker *m)
{
    struct record r = {.stamp = m->j.has_stamp ? m->j.stamp + 1 : rng_word(m->g), .reset = 1};
    maker_try(m, &r, 0);
}

/* Gets on with the bus: ends a transfer with an error. */
static int settle(struct maker *m)
{
    struct record r = quiet(m);
    if (!m->j.open)
        return 1;
    r.ack = r.tm1 = 1;
    return maker_try(m, &r, 0) == 0;
}

/* Waits within a wave until its next START may come. */
static int wait_turn(struct maker *m)
{
    for (int i = 0; i < 4; i++) {
        struct record r = quiet(m);
        if (m->j.rqst1 && m->j.rqst2 && (m->j.turn == 0 || m->j.since >= 2))
            return 1;
        r.rqst = 1;
        if (maker_try(m, &r, 0) != 0)
            return 0;
    }
    return 0;
}

/* A START of the wave at the given ARB: an attention cycle, or a transfer of the unit. */
static int wave_start(struct maker *m, uint8_t arb, int unit, int rqst)
{
    struct record r;
    if (!settle(m) || !wait_turn(m))
        return 0;
    r = quiet(m);
    r.start = 1;
    r.rqst = (uint8_t)rqst;
    r.arb = arb;
    if (unit < 0) {
        r.ack = r.tm1 = r.tm0 = 1;
    } else {
        struct operation op = {(uint8_t)rng_below(m->g, 2), (uint8_t)unit, 0};
        op.address = rng_word(m->g) & ~(code_size(unit) - 1);
        code_encode(&op, &r.tm1, &r.tm0, &r.ad);
    }
    return maker_try(m, &r, 0) == 0;
}

static int some_unit(struct rng *g)
{
    return rng_chance(g, 30) ? -1 : (int)rng_below(g, UNITS);
}

/* Strobes of the open block, as many as are asked for and allowed. */
static void strobes(struct maker *m, uint32_t count)
{
    for (uint32_t i = 0; i < count && m->j.open && m->j.strobes + 1 < m->j.words; i++) {
        struct record r = quiet(m);
        r.tm0 = 1;
        if (maker_try(m, &r, 0) != 0)
            return;
    }
}

/* Lets the open transfer grow old, to at most the given age, by records or by a gap. */
static void grow_old(struct maker *m, unsigned age)
{
    if (!m->j.open || m->j.age >= age)
        return;
    if (!m->j.rqst1 && rng_chance(m->g, 60)) {
        struct record r = quiet(m);
        r.stamp += age - m->j.age - 1;
        r.ad = rng_word(m->g);
        maker_try(m, &r, 0);
        return;
    }
    while (m->j.open && m->j.age < age) {
        struct record r = quiet(m);
        if (maker_try(m, &r, 0) != 0)
            return;
    }
}

/* Words of the open block that come late (document 02, wish 5): each at the last age that rule 12 allows,
   or one or two before. Within a wave every cycle of it has its record. */
static void slow_words(struct maker *m, uint32_t count)
{
    for (; count > 0 && m->j.open && m->j.strobes + 1 < m->j.words; count--) {
        struct record r = quiet(m);
        unsigned age = WATCHDOG - (rng_chance(m->g, 60) ? 0 : rng_below(m->g, 3));
        if (m->j.rqst1 || rng_chance(m->g, 20)) {
            grow_old(m, age - 1);
            r = quiet(m);
        } else if (age > m->j.age) {
            r.stamp = m->j.stamp + age - m->j.age;
        }
        r.tm0 = 1;
        r.tm1 = (uint8_t)rng_below(m->g, 2);
        if (maker_try(m, &r, 0) != 0)
            return;
    }
}

/* None of a block's strobes, one, some, or all. */
static uint32_t some_words(struct rng *g)
{
    switch (rng_below(g, 4)) {
    case 0: return 0;
    case 1: return 1;
    case 2: return 2 + rng_below(g, 5);
    default: return MOST_WORDS;
    }
}

/* Near rule 12: a transfer of any unit that has grown old, some of them behind words that came late. */
static int near_watchdog(struct maker *m, uint8_t arb)
{
    struct rng *g = m->g;
    int slow = rng_chance(g, 60), unit = slow ? BLOCK2 + (int)rng_below(g, 4) : (int)rng_below(g, UNITS);
    if (!m->j.open && !wave_start(m, arb, unit, rng_chance(g, slow ? 15 : 60)))
        return 0;
    slow_words(m, slow ? some_words(g) : 0);
    grow_old(m, 250 + rng_below(g, 7));
    return 1;
}

/* A reset, or on from where the bus is; gives an ARB that the wave allows. */
static uint8_t fresh_or_on(struct maker *m)
{
    if (!m->j.has_stamp || rng_chance(m->g, 40))
        reset(m);
    if (m->j.turn > 0)
        return m->j.arb > 0 ? (uint8_t)rng_below(m->g, m->j.arb + 1u) : 0;
    return (uint8_t)rng_below(m->g, 16);
}

int wild_open(struct maker *m, int unit, int rqst)
{
    uint8_t arb = fresh_or_on(m);
    return wave_start(m, arb, unit, rqst);
}

/* Near each kind: no wave's START since a reset; in a wave's first cycle, half of them right behind
   the last START of another, and some with a parked one in it; or right after one of its STARTs. */
int wild_early(struct maker *m, int kind)
{
    struct rng *g = m->g;
    uint8_t arb = fresh_or_on(m);
    if (kind == NO_OWNER) {
        reset(m);
        return 1;
    }
    if (kind == TOO_SOON)
        return wave_start(m, arb, some_unit(g), 1) && settle(m);
    if (!settle(m) || ((m->j.rqst1 || rng_chance(g, 50)) && !wave_start(m, arb, -1, 0)))
        return 0;
    struct record r = quiet(m);
    r.rqst = 1;
    if (m->j.started && rng_chance(g, 30))
        r.start = r.ack = r.tm1 = r.tm0 = 1;
    return maker_try(m, &r, 0) == 0;
}

void wild_far(struct maker *m, uint32_t records)
{
    reset(m);
    for (; records > 0; records--) {
        struct record r = quiet(m);
        r.stamp += ((uint32_t)1 << 31) - 1;
        maker_try(m, &r, 0);
    }
}

int wild_setup(struct maker *m, int rule)
{
    struct rng *g = m->g;
    uint8_t arb = fresh_or_on(m);
    uint32_t turns;
    switch (rule) {
    case 4:
        return wave_start(m, arb, (int)rng_below(g, UNITS), rng_chance(g, 50));
    case 6:
    case 7:
        return settle(m) && wait_turn(m);
    case 8:
        return wild_early(m, 1 + (int)rng_below(g, KINDS - 1));
    case 9:
        return wave_start(m, arb, some_unit(g), 1);
    case 10:
        if (arb == 15)
            arb = 14;
        return wave_start(m, arb, some_unit(g), 1) && settle(m) && wait_turn(m);
    case 11:
        turns = m->j.limit;
        if (m->j.turn > 0 && m->j.arb == arb)
            turns -= m->j.turn;
        while (turns-- > 0)
            if (!wave_start(m, arb, some_unit(g), 1))
                return 0;
        return settle(m) && wait_turn(m);
    case 12:
        return near_watchdog(m, arb);
    case 13:
        if (!m->j.open && !wave_start(m, arb, BLOCK2 + (int)rng_below(g, 4), rng_chance(g, 60)))
            return 0;
        strobes(m, rng_chance(g, 60) ? 15 : rng_below(g, 16));
        return 1;
    default:
        return 1;
    }
}

/* Sound records, some of them on the way to a rule's edge. */
void traffic_wild(struct maker *m, size_t records)
{
    size_t want = m->out.len + records * RECORD;
    while (m->out.len < want) {
        struct record r;
        unsigned spare;
        int tries = 0;
        if (rng_chance(m->g, 2))
            wild_setup(m, 4 + (int)rng_below(m->g, 10));
        do
            wild_propose(m, &r, &spare, 0);
        while (++tries < 100 && maker_try(m, &r, spare) != 0);
        if (tries == 100)
            reset(m);
    }
}
