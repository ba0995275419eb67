/* Sound recordings from a simulated bus: sixteen masters and a slave over the model's cycles
   (01, "One bus cycle"), written down as line records. Cycles in which all lines are inactive
   are left out or kept, as chance has it. */
#include <stdio.h>
#include <stdlib.h>
#include "make.h"

/* How a run behaves; each number a chance in a hundred unless said. */
struct manner {
    uint16_t slots;    /* those that ever want */
    uint32_t wanting;  /* in a thousand, each cycle */
    uint32_t holding, dropping, nothing, blocks;
    uint32_t prompt, failing, silent, slow;
    uint32_t parity, snooping, loud, kept, resets /* in ten thousand */, jumps;
    int tidy; /* addresses and data as a boot has them, and not near the codes' edges */
};

struct sim {
    struct bus bus;
    struct node nodes[SLOTS];
    struct manner how;
    uint32_t stamp, last, walk;
    int any, silent, slow;
    uint8_t due;    /* the age at which a slow slave sends its next word */
    uint8_t user;   /* the slot whose transfer is open */
    uint32_t began; /* the stamp of its START */
};

/* The inter-cache lines are recorded but not judged. */
void noise(struct rng *g, struct record *r)
{
    uint64_t bits = rng_next(g);
    r->vtm1 = bits & 1;
    r->vtm0 = bits >> 1 & 1;
    r->vack = bits >> 2 & 1;
    r->vsack = bits >> 3 & 1;
    r->vad = bits >> 31;
}

static struct manner some_manner(struct rng *g)
{
    static const uint32_t rates[] = {1, 5, 20, 100, 400, 900};
    struct manner h = {0};
    do
        h.slots = (uint16_t)(rng_next(g) & rng_next(g));
    while (h.slots == 0);
    if (rng_chance(g, 20))
        h.slots = 0xFFFF;
    if (rng_chance(g, 15))
        h.slots = (uint16_t)(1u << rng_below(g, 16));
    h.wanting = rates[rng_below(g, 6)];
    h.holding = rng_chance(g, 50) ? rng_below(g, 101) : 0;
    h.dropping = rng_chance(g, 50) ? rng_below(g, 10) : 0;
    h.nothing = rng_chance(g, 50) ? rng_below(g, 30) : 0;
    h.blocks = rng_below(g, 101);
    h.prompt = 1 + rng_below(g, 100);
    h.failing = rng_below(g, 10);
    h.silent = rng_chance(g, 40) ? rng_below(g, 10) : 0;
    h.slow = rng_chance(g, 25) ? 1 + rng_below(g, 100) : 0;
    h.parity = rng_chance(g, 30) ? 0 : rng_below(g, 101);
    h.snooping = rng_chance(g, 60) ? rng_below(g, 40) : 0;
    h.loud = rng_chance(g, 50) ? rng_below(g, 60) : 0;
    h.kept = rng_chance(g, 60) ? rng_below(g, 101) : 0;
    h.resets = rng_chance(g, 50) ? rng_below(g, 200) : 0;
    h.jumps = rng_chance(g, 50) ? rng_below(g, 30) : 0;
    return h;
}

static void ask(struct sim *s, struct rng *g)
{
    static const uint8_t lengths[] = {2, 4, 8, 16};
    for (int i = 0; i < SLOTS; i++) {
        struct node *n = &s->nodes[i];
        if (n->wants) {
            if (s->how.dropping && rng_below(g, 1000) < s->how.dropping)
                n->wants = 0;
            continue;
        }
        if (!(s->how.slots >> i & 1) || rng_below(g, 1000) >= s->how.wanting)
            continue;
        n->wants = 1;
        n->holds = (uint8_t)rng_chance(g, s->how.holding);
        n->words = rng_chance(g, s->how.blocks) ? lengths[rng_below(g, 4)] : 1;
        if (rng_chance(g, s->how.nothing))
            n->words = 0;
    }
}

/* A disk's word comes in any of the watchdog's 256 cycles, in the last ones often (document 02, wish 5). */
static uint8_t some_due(struct rng *g)
{
    return (uint8_t)(WATCHDOG - 1 - (rng_chance(g, 70) ? rng_below(g, 3) : rng_below(g, WATCHDOG)));
}

/* Whether the slave does something in this cycle. */
static int acts(struct sim *s, struct rng *g)
{
    if (!s->bus.open || s->silent)
        return 0;
    if (!s->slow)
        return rng_chance(g, s->how.prompt);
    if (s->bus.age == 0)
        s->due = some_due(g);
    return s->bus.age >= s->due;
}

/* A slave that never ends a successful transfer short nor strobes too often. */
static int slave(struct sim *s, struct rng *g, int *status)
{
    *status = SUCCESS;
    if (!acts(s, g))
        return NOTHING;
    if (rng_chance(g, s->how.failing)) {
        *status = (int)rng_below(g, 3);
        return FINISH;
    }
    return s->bus.owed > 1 ? STROBE : FINISH;
}

static int highest(unsigned set)
{
    int s = 15;
    while (s > 0 && !(set >> s & 1))
        s--;
    return s;
}

static uint32_t data(struct sim *s, struct rng *g)
{
    return s->how.tidy ? (uint32_t)rng_next(g) : rng_word(g);
}

/* A boot walks through the memory board in slot 8, and sends a word to a slot's interrupt space
   (address F, slot, 0; the number in AD5 to AD2) now and then. */
static void tidy_start(struct sim *s, struct rng *g, struct operation *op)
{
    op->write = (uint8_t)rng_chance(g, 30);
    if (op->unit < WORD && rng_chance(g, 80))
        op->unit = WORD;
    s->walk = (s->walk + code_size(op->unit)) & 0x7FFFF;
    op->address = 0xF8100000 + s->walk;
    if (op->unit == WORD && rng_chance(g, 4)) {
        op->write = 1;
        op->address = 0xF0000000 + (rng_below(g, 16) << 24) + (rng_below(g, 16) << 2);
    }
}

/* The START's code for the starter's words, at any address that fits. */
static void drive_start(struct sim *s, struct rng *g, const struct node *n, struct record *r)
{
    struct operation op = {(uint8_t)rng_below(g, 2), WORD, rng_word(g)};
    switch (n->words) {
    case 2: op.unit = BLOCK2; break;
    case 4: op.unit = BLOCK4; break;
    case 8: op.unit = BLOCK8; break;
    case 16: op.unit = BLOCK16; break;
    default: op.unit = (uint8_t)rng_below(g, 3);
    }
    if (s->how.tidy)
        tidy_start(s, g, &op);
    op.address &= ~(code_size(op.unit) - 1);
    code_encode(&op, &r->tm1, &r->tm0, &r->ad);
}

/* The lines of a cycle: before is the bus before it, a the cycle's answer. */
static void drive(struct sim *s, struct rng *g, const struct bus *before, const struct answer *a,
                  int strobe, int block, struct record *r)
{
    r->rqst = a->rqst;
    r->start = a->start;
    r->ack = a->ack;
    if (before->wave != 0)
        r->arb = (uint8_t)highest(before->wave);
    else if (s->bus.wave != 0)
        r->arb = (uint8_t)highest(s->bus.wave);
    if (a->start && a->ack) {
        r->tm1 = r->tm0 = 1;
        if (rng_chance(g, s->how.loud))
            r->ad = rng_word(g);
    } else if (a->start) {
        drive_start(s, g, &s->nodes[a->starter], r);
    } else if (a->ack) {
        r->tm1 = a->status >> 1;
        r->tm0 = a->status & 1;
        r->ad = data(s, g);
    } else if (strobe) {
        r->tm0 = 1;
        r->tm1 = (uint8_t)rng_chance(g, s->how.loud);
        r->ad = data(s, g);
    } else if (rng_chance(g, s->how.loud)) {
        /* Lines that mean nothing here: TM0 outside an open block is no strobe. */
        r->ad = rng_chance(g, 50) ? rng_word(g) : 0;
        r->tm1 = (uint8_t)rng_below(g, 2);
        if (!block)
            r->tm0 = (uint8_t)rng_below(g, 2);
        r->arb = rng_chance(g, 20) ? (uint8_t)rng_below(g, 16) : r->arb;
    }
    if (rng_chance(g, s->how.parity) && !(s->how.tidy && !a->start && !a->ack && !strobe)) {
        r->spv = 1;
        r->sp = (uint8_t)code_parity(r->ad);
    } else if (rng_chance(g, s->how.loud)) {
        r->sp = (uint8_t)rng_below(g, 2);
    }
    if (rng_chance(g, s->how.snooping))
        noise(g, r);
}

static void drive_reset(struct rng *g, struct record *r)
{
    r->reset = 1;
    if (rng_chance(g, 50))
        return;
    uint64_t bits = rng_next(g);
    r->rqst = bits & 1;
    r->arb = bits >> 1 & 15;
    r->start = bits >> 5 & 1;
    r->ack = bits >> 6 & 1;
    r->tm1 = bits >> 7 & 1;
    r->tm0 = bits >> 8 & 1;
    r->sp = bits >> 9 & 1;
    r->spv = bits >> 10 & 1;
    r->ad = (uint32_t)(bits >> 11);
    noise(g, r);
}

/* Who used the bus (document 02, wish 3), by the stepper's answer and without a look at the lines. */
static void use(struct maker *m, struct sim *s, const struct answer *a, int ended)
{
    if (ended)
        m->stepped[s->user].busy += (uint32_t)(s->stamp - s->began) + (uint64_t)1;
    if (!a->start)
        return;
    m->stepped[a->starter].starts++;
    m->stepped[a->starter].busy += a->ack;
    s->user = a->starter;
    s->began = s->stamp;
}

static void one_cycle(struct maker *m, struct sim *s)
{
    struct rng *g = m->g;
    struct record r = {.stamp = s->stamp};
    struct answer a;
    struct bus before = s->bus;
    int status, event, reset = rng_below(g, 10000) < s->how.resets;
    ask(s, g);
    event = slave(s, g, &status);
    bus_cycle(&s->bus, reset, event, status, s->nodes, SLOTS, &a);
    use(m, s, &a, before.open && (reset || a.ack));
    if (reset)
        drive_reset(g, &r);
    else
        drive(s, g, &before, &a, event == STROBE && !a.ack, m->j.open && m->j.words > 1, &r);
    if (a.start) {
        struct node *n = &s->nodes[a.starter];
        int stays = s->bus.wave >> a.starter & 1;
        if (!stays || rng_chance(g, 10))
            n->wants = 0;
        s->silent = rng_chance(g, s->how.silent);
        s->slow = s->how.slow > 0 && rng_chance(g, s->how.slow);
    }
    if (!record_inactive(&r) || !s->any || rng_chance(g, s->how.kept) ||
        s->stamp - s->last >= (uint32_t)1 << 31) {
        if (maker_try(m, &r, 0) != 0) {
            fprintf(stderr, "the model's own traffic breaks a rule\n");
            exit(2);
        }
        s->last = s->stamp;
        s->any = 1;
    }
    s->stamp++;
    if (s->any && s->bus.wave == 0 && !s->bus.open && rng_chance(g, s->how.jumps)) {
        uint32_t most = ((uint32_t)1 << 31) - (s->stamp - s->last);
        uint32_t by = rng_next(g) >> (33 + rng_below(g, 31)) & 0x7FFFFFFF;
        s->stamp += by < most ? by : most;
    }
}

static void run(struct maker *m, struct sim *s, size_t records)
{
    size_t want = m->out.len + records * RECORD;
    s->stamp = rng_chance(m->g, 50) ? rng_word(m->g) : 0u - rng_below(m->g, 3000);
    if (m->j.has_stamp) { /* after other records: from a reset on */
        struct record r = {.stamp = m->j.stamp + 1, .reset = 1};
        maker_try(m, &r, 0);
        s->last = m->j.stamp;
        s->stamp = s->last + 1;
        s->any = 1;
    }
    for (uint64_t cycles = 0; m->out.len < want && cycles < 2000 + 200 * (uint64_t)records; cycles++)
        one_cycle(m, s);
}

void traffic_bus(struct maker *m, size_t records)
{
    struct sim s = {.how = some_manner(m->g)};
    bus_fresh(&s.bus, m->j.limit);
    run(m, &s, records);
}

/* A boot: RESET for some cycles, one master that walks its memory word by word, then more
   masters with blocks, a few dead addresses, inter-cache traffic; no odd lines. */
void traffic_boot(struct maker *m, size_t records)
{
    struct sim s = {.how = {.prompt = 40, .tidy = 1}};
    size_t part = records / 4;
    bus_fresh(&s.bus, m->j.limit);
    s.stamp = 0xFFFFF000;
    for (int i = 0; i < 8; i++) {
        struct record r = {.stamp = s.stamp++, .reset = 1};
        maker_try(m, &r, 0);
    }
    s.last = s.stamp - 1;
    s.any = 1;
    for (int phase = 0; phase < 4; phase++) {
        size_t want = phase == 3 ? records * RECORD : (size_t)(phase + 1) * part * RECORD;
        s.how.slots = (uint16_t)(phase == 0 ? 0x0400 : phase == 1 ? 0x0C24 : 0xFC26);
        s.how.wanting = phase == 0 ? 40 : phase == 3 ? 12 : 5;
        s.how.blocks = phase == 0 ? 0 : 60;
        s.how.holding = phase < 2 ? 0 : 15;
        s.how.nothing = phase < 2 ? 0 : 3;
        s.how.silent = phase == 1 ? 5 : 0;
        s.how.failing = phase < 2 ? 0 : 2;
        s.how.parity = phase < 2 ? 0 : 100;
        s.how.snooping = phase < 3 ? 0 : 30;
        while (m->out.len < want)
            one_cycle(m, &s);
    }
}
