/* Recordings with marks (document 02, wish 1): transfers that conform, each after a wave or parked,
   with missing cycles, lines that mean nothing and inter-cache noise, many of them nearly a mark. */
#include <stdio.h>
#include <stdlib.h>
#include "marked.h"

const char *const near_names[NEARS] = {
    "the mark", "folded", "error", "timeout", "try again", "RESET between", "RESET with ACK",
    "RESET with START", "attention", "no START", "read", "byte", "halfword", "block", "not F",
    "not low", "number higher", "other slot", "other number", "exchanged", "anything"};
unsigned long near_made[NEARS];

/* The lines of a START. */
struct code {
    uint8_t tm1, tm0;
    uint32_t ad;
};

static void add(struct maker *m, struct record *r)
{
    if (rng_chance(m->g, 20)) {
        r->spv = 1;
        r->sp = (uint8_t)code_parity(r->ad);
    }
    if (rng_chance(m->g, 10))
        noise(m->g, r);
    if (maker_try(m, r, 0) != 0) {
        fprintf(stderr, "a recording that is made with marks breaks a rule\n");
        exit(2);
    }
}

/* The cycle after the last record and so many missing ones; RQST stays as it is. */
static struct record following(const struct maker *m, uint32_t missing)
{
    return (struct record){.stamp = m->j.stamp + 1 + missing, .rqst = m->j.rqst1};
}

/* Lines as a mark's START would have them, without START and ACK: they mean nothing. TM0 would be
   a strobe in a block. */
static void mislead(struct maker *m, struct record *r)
{
    if (rng_chance(m->g, 60))
        return;
    r->ad = 0xF0000000 | (rng_word(m->g) & 0x0F00003C);
    r->tm1 = (uint8_t)rng_below(m->g, 2);
    r->tm0 = (uint8_t)(!(m->j.open && m->j.words > 1) && rng_chance(m->g, 50));
    r->arb = (uint8_t)rng_below(m->g, 16);
}

/* Lets cycles pass, and gives those that are missing before the next record. */
static uint32_t pass(struct maker *m, uint32_t cycles)
{
    uint32_t missing = 0;
    for (; cycles > 0; cycles--) {
        if (!m->j.rqst1 && rng_chance(m->g, 60)) {
            missing++;
            continue;
        }
        struct record r = following(m, missing);
        r.rqst |= (uint8_t)rng_chance(m->g, 5);
        mislead(m, &r);
        add(m, &r);
        missing = 0;
    }
    return missing;
}

/* Cycles with no transfer open: few, or so many that the stamp wraps. */
static uint32_t idle(struct maker *m)
{
    uint32_t missing = pass(m, rng_chance(m->g, 50) ? 0 : rng_below(m->g, 6));
    if (m->j.rqst1 || !rng_chance(m->g, 8))
        return missing;
    switch (rng_below(m->g, 3)) {
    case 0: return ((uint32_t)1 << 31) - 1;
    case 1: return ((uint32_t)1 << 31) - 1 - rng_below(m->g, 5);
    default: return (uint32_t)rng_next(m->g) >> (1 + rng_below(m->g, 30));
    }
}

/* Ends a transfer that other traffic has left open, and a wave that can have no START any more. */
static void settle(struct maker *m)
{
    struct record r = following(m, 0);
    int stuck = m->j.rqst1 && m->j.turn == m->j.limit && m->j.arb == 0;
    if (!m->j.open && !stuck)
        return;
    r.ack = r.tm1 = !stuck && m->j.age < WATCHDOG;
    r.reset = !r.ack;
    add(m, &r);
}

/* RQST for as many cycles as a START of the wave asks for (rule 8), and then its ARB (rules 10, 11);
   RQST falls in it where the wave could have no further START. */
static struct record wave_start(struct maker *m)
{
    const struct judge *j = &m->j;
    uint32_t missing = j->rqst1 ? 0 : idle(m);
    while (!(j->rqst1 && j->rqst2 && (j->turn == 0 || j->since >= 2))) {
        struct record r = following(m, missing);
        missing = 0;
        r.rqst = 1;
        mislead(m, &r);
        add(m, &r);
    }
    struct record r = following(m, 0);
    int again = j->turn > 0 && j->turn < j->limit && (j->arb == 0 || rng_chance(m->g, 60));
    r.arb = (uint8_t)(again ? j->arb : rng_below(m->g, j->turn > 0 ? j->arb : 16u));
    int turn = again ? j->turn + 1 : 1;
    r.rqst = (uint8_t)((r.arb > 0 || turn < j->limit) && rng_chance(m->g, 50));
    return r;
}

static void start(struct maker *m, struct code c, int attention)
{
    struct record r;
    settle(m);
    if (m->j.started && !m->j.rqst1 && rng_chance(m->g, 40)) {
        uint32_t missing = idle(m);
        r = m->j.rqst1 ? wave_start(m) : following(m, missing);
        if (!m->j.rqst1)
            r.rqst = (uint8_t)rng_chance(m->g, 20);
    } else {
        r = wave_start(m);
    }
    r.start = 1;
    r.ack = (uint8_t)attention;
    r.tm1 = c.tm1;
    r.tm0 = c.tm0;
    r.ad = c.ad;
    add(m, &r);
}

/* A record with RESET, and any other lines beside it. */
static void reset(struct maker *m, int start_line, int ack, struct code c)
{
    struct record r = {.stamp = rng_word(m->g), .reset = 1};
    if (m->j.has_stamp)
        r.stamp = following(m, rng_chance(m->g, 70) ? 0 : rng_below(m->g, 400)).stamp;
    r.start = (uint8_t)start_line;
    r.ack = (uint8_t)ack;
    r.tm1 = c.tm1;
    r.tm0 = c.tm0;
    r.ad = c.ad;
    add(m, &r);
}

static void ack(struct maker *m, int status)
{
    uint32_t strobes = m->j.words - 1u, room = WATCHDOG - 1;
    int slow = rng_chance(m->g, 10); /* words as late as they may be (document 02, wish 5) */
    for (; strobes > 0 && (status == SUCCESS || rng_chance(m->g, 50)); strobes--) {
        struct record s = following(m, slow && !m->j.rqst1 ? room : 0);
        s.tm0 = 1;
        s.ad = rng_word(m->g);
        add(m, &s);
    }
    uint32_t missing = pass(m, slow || rng_chance(m->g, 10) ? room : rng_below(m->g, 4));
    struct record r = following(m, missing);
    r.ack = 1;
    r.tm1 = (uint8_t)(status >> 1);
    r.tm0 = status & 1;
    r.ad = rng_word(m->g);
    add(m, &r);
}

static void transfer(struct maker *m, struct code c, int status)
{
    start(m, c, 0);
    ack(m, status);
}

static struct code code_of(struct mark k)
{
    return (struct code){1, 0, 0xF0000000u | k.slot << 24 | k.number << 2};
}

static uint32_t one_of(struct rng *g, uint32_t low, unsigned lines)
{
    return low << rng_below(g, lines);
}

/* The mark's code with something changed so that it is none. */
static struct code spoilt(struct rng *g, struct mark k, enum near kind)
{
    struct code c = code_of(k);
    if (rng_chance(g, 50))
        c.ad |= rng_word(g) & 0x000FFFC0;
    switch (kind) {
    case A_READ: c.tm1 = 0; break;
    case A_BYTE: c.tm0 = 1; c.ad |= rng_below(g, 4); break;
    case A_HALFWORD: c.ad |= rng_chance(g, 50) ? 1 : 3; break;
    case A_BLOCK: c.ad |= 2; c.ad &= ~(uint32_t)(k.number == 15 ? 0x20 : 0); break;
    case NOT_F: c.ad ^= one_of(g, 0x10000000, 4); break;
    case NOT_LOW: c.ad ^= one_of(g, 0x00100000, 4); break;
    case NUMBER_HIGHER: c.ad = (c.ad & 0xFFFFFC03) | k.number << 6 | (k.number ^ 1) << 2; break;
    case OTHER_SLOT: c.ad ^= one_of(g, 0x01000000, 4); break;
    case OTHER_NUMBER: c.ad ^= one_of(g, 0x4, 4); break;
    case EXCHANGED: c.ad = code_of((struct mark){k.number, k.slot}).ad; break;
    case ANYTHING: c = (struct code){(uint8_t)rng_below(g, 2), 1, rng_word(g)}; break;
    case THE_MARK: c.ad &= 0xFFF0003F; break;
    case FOLDED: c.ad |= rng_next(g) & 0x000FFFC0; break;
    default: break;
    }
    return c;
}

static void no_start(struct maker *m, struct code c)
{
    settle(m);
    struct record r = following(m, 0);
    r.tm1 = c.tm1;
    r.ad = c.ad;
    add(m, &r);
}

void marked_near(struct maker *m, struct mark k, enum near kind)
{
    struct rng *g = m->g;
    struct code c = spoilt(g, k, kind), both = {1, 1, c.ad};
    near_made[kind]++;
    if (!m->j.has_stamp)
        reset(m, 0, 0, both);
    switch (kind) {
    case ENDS_IN_ERROR: transfer(m, c, ERROR); break;
    case TIMES_OUT: transfer(m, c, TIMEOUT); break;
    case TRY_AGAIN: transfer(m, c, AGAIN); break;
    case RESET_BETWEEN:
    case RESET_WITH_ACK:
        start(m, c, 0);
        pass(m, rng_below(g, 3));
        reset(m, rng_chance(g, 20), kind == RESET_WITH_ACK, both);
        break;
    case RESET_WITH_START: reset(m, 1, 0, c); break;
    case ATTENTION: start(m, both, 1); break;
    case NO_START: no_start(m, c); break;
    default: transfer(m, c, SUCCESS);
    }
}

/* A number that is often one of few, so that marks are alike. */
static unsigned some_number(struct rng *g)
{
    static const unsigned few[] = {0, 15, 3, 8};
    return rng_chance(g, 60) ? few[rng_below(g, 4)] : rng_below(g, 16);
}

size_t marked_choose(struct rng *g, struct mark *marks)
{
    size_t count = rng_chance(g, 70) ? 1 + rng_below(g, 5) : 1 + rng_below(g, MOST_MARKS);
    if (rng_chance(g, 5))
        count = MOST_MARKS;
    for (size_t i = 0; i < count; i++) {
        marks[i] = (struct mark){some_number(g), some_number(g)};
        if (i > 0 && rng_chance(g, 30))
            marks[i] = marks[rng_below(g, (uint32_t)i)]; /* the same again */
    }
    return count;
}

void marked_boot(struct maker *m, const struct mark *marks, size_t count, size_t left_out,
                 unsigned crowd)
{
    struct rng *g = m->g;
    for (size_t i = 0; i < count; i++) {
        for (uint32_t n = rng_below(g, crowd + 1); n > 0; n--) {
            size_t of = rng_chance(g, 70) ? i : rng_below(g, (uint32_t)count);
            /* Another mark of the list may stand there itself, the one looked for only nearly. */
            int first = of != i && rng_chance(g, 40) ? THE_MARK : ENDS_IN_ERROR;
            marked_near(m, marks[of], (enum near)(first + (int)rng_below(g, NEARS - (uint32_t)first)));
        }
        if (i != left_out)
            marked_near(m, marks[i], rng_chance(g, 50) ? THE_MARK : FOLDED);
    }
}

void marked_far(struct maker *m, unsigned records)
{
    reset(m, 0, 0, (struct code){0, 0, 0});
    for (; records > 0; records--) {
        struct record r = following(m, ((uint32_t)1 << 31) - 1);
        add(m, &r);
    }
}

void marked_open(struct maker *m, struct mark k)
{
    if (!m->j.has_stamp)
        reset(m, 0, 0, code_of(k));
    start(m, code_of(k), 0);
    pass(m, rng_below(m->g, 3));
}

void marked_break(struct maker *m)
{
    struct record r;
    unsigned spare;
    do
        wild_propose(m, &r, &spare, 40);
    while (judge_broken(&m->j, &r, spare) == 0);
    maker_add_raw(m, &r, spare);
}
