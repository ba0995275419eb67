/* Runs of bus cycles with adversarial slaves and masters (01, "One bus cycle"). */
#include <stdlib.h>
#include "caller.h"

enum manner { POLITE, SILENT, STROBING, LATE, RANDOM, BRINK, SLOW, MANNERS };

struct scene {
    enum manner slave;
    uint16_t slots;
    uint32_t wanting, leaving, holding, nothing, blocks, resets, bad;
    struct node nodes[17];
};

static const uint8_t lengths[] = {2, 4, 8, 16};

static struct scene some_scene(struct rng *g)
{
    struct scene s = {0};
    static const uint32_t rates[] = {1, 3, 10, 40, 90};
    s.slave = (enum manner)rng_below(g, MANNERS);
    s.slots = (uint16_t)(rng_chance(g, 30) ? 0xFFFF : rng_next(g) & rng_next(g));
    s.wanting = rates[rng_below(g, 5)];
    s.leaving = rng_chance(g, 50) ? rng_below(g, 10) : 0;
    s.holding = rng_chance(g, 30) ? 0 : rng_below(g, 101);
    s.nothing = rng_chance(g, 40) ? rng_below(g, 25) : 0;
    s.blocks = rng_below(g, 101);
    s.resets = rng_chance(g, 30) ? rng_below(g, 4) : 0;
    s.bad = rng_chance(g, 40) ? rng_below(g, 12) : 0;
    return s;
}

/* What the slave does, seen from the state before the cycle. */
static int event(struct caller *c, const struct scene *s, int *status)
{
    struct rng *g = c->g;
    const struct bus *b = &c->d.bus;
    *status = rng_chance(g, 70) ? SUCCESS : (int)rng_below(g, 4);
    if (rng_chance(g, 2))
        return (int)rng_below(g, 3); /* anything, at any time */
    switch (s->slave) {
    case POLITE:
        if (!b->open || rng_chance(g, 50))
            return NOTHING;
        return b->owed > 1 ? STROBE : FINISH;
    case SILENT:
        return NOTHING;
    case STROBING:
        return rng_chance(g, 95) ? STROBE : FINISH;
    case LATE: /* around the watchdog's cycle */
        if (b->open && b->age >= 252)
            return rng_chance(g, 40) ? FINISH : rng_chance(g, 50) ? STROBE : NOTHING;
        return NOTHING;
    case BRINK: /* in the watchdog's very cycle */
        if (b->open && b->age == 255)
            return 1 + (int)rng_below(g, 2);
        return NOTHING;
    case SLOW: /* each word there as long as one is owed (02, wish 5), and then anything */
        if (!b->open || b->age < 255)
            return NOTHING;
        return b->owed > 1 ? STROBE : (int)rng_below(g, 3);
    default:
        return rng_chance(g, 70) ? NOTHING : (int)rng_below(g, 3);
    }
}

/* Who wants, who changes its mind, who is done. */
static void masters(struct caller *c, struct scene *s)
{
    struct rng *g = c->g;
    for (int i = 0; i < SLOTS; i++) {
        struct node *n = &s->nodes[i];
        if (n->wants) {
            if (rng_chance(g, s->leaving))
                n->wants = 0;
            if (rng_chance(g, 5))
                n->holds = !n->holds;
        } else if ((s->slots >> i & 1) && rng_chance(g, s->wanting)) {
            n->wants = 1;
            n->holds = (uint8_t)rng_chance(g, s->holding);
            n->words = (uint8_t)(rng_chance(g, s->blocks) ? lengths[rng_below(g, 4)] : 1);
            if (rng_chance(g, s->nothing))
                n->words = 0;
        }
    }
    s->nodes[16].words = 1;
}

static void cycle(struct caller *c, struct scene *s)
{
    struct rng *g = c->g;
    int status, e = event(c, s, &status);
    masters(c, s);
    caller_clear(c, 9);
    c->call[1] = rng_chance(g, s->resets) ? (uint8_t)(1 + rng_below(g, 255)) : 0;
    c->call[2] = (uint8_t)(e + 3 * (rng_chance(g, 10) ? (int)rng_below(g, 84) : 0));
    c->call[3] = (uint8_t)(status + 4 * (rng_chance(g, 10) ? (int)rng_below(g, 63) : 0));
    c->call[4] = 16;
    for (int i = 0; i < 17; i++)
        c->call[5 + i] =
            (uint8_t)(s->nodes[i].wants << 7 | s->nodes[i].holds << 6 | s->nodes[i].words);
    if (rng_chance(g, s->bad)) { /* a bad table: its length, or a node's words */
        if (rng_chance(g, 60))
            c->call[4] = (uint8_t)(rng_chance(g, 80) ? rng_below(g, 18) : rng_below(g, 256));
        if (rng_chance(g, 60)) {
            uint8_t *n = &c->call[5 + rng_below(g, 17)];
            *n = (uint8_t)((*n & 0xC0) | rng_below(g, 64));
        }
    }
    caller_issue(c);
    if (c->answer[0] == 0 && c->answer[2] && c->answer[4] < SLOTS) {
        struct node *n = &s->nodes[c->answer[4]];
        int stays = c->d.bus.wave >> c->answer[4] & 1;
        if (!stays ? rng_chance(g, 80) : rng_chance(g, 10))
            n->wants = 0;
    }
}

static void set_bus(struct caller *c, const struct bus *b)
{
    caller_clear(c, 10);
    caller_number(c, 16, 2, b->wave);
    c->call[18] = b->settling;
    c->call[19] = b->turn;
    c->call[20] = b->owner;
    c->call[21] = b->limit;
    c->call[22] = b->open ? (uint8_t)(rng_chance(c->g, 80) ? 1 : 1 + rng_below(c->g, 255)) : 0;
    c->call[23] = b->owed;
    c->call[24] = b->age;
    caller_issue(c);
}

/* Any state within the bounds. */
static struct bus some_bus(struct rng *g)
{
    struct bus b = {0};
    b.limit = (uint8_t)(1 + rng_below(g, 16));
    if (rng_chance(g, 75)) {
        b.wave = (uint16_t)(rng_chance(g, 50) ? 1u << rng_below(g, 16) : rng_next(g));
        b.settling = b.wave ? (uint8_t)rng_below(g, 3) : 0;
        b.turn = b.wave ? (uint8_t)rng_below(g, b.limit) : 0;
    }
    b.owner = (uint8_t)(rng_chance(g, 30) ? NOBODY : rng_below(g, 16));
    b.open = (uint8_t)rng_chance(g, 50);
    b.owed = (uint8_t)(1 + rng_below(g, 16));
    b.age = (uint8_t)(rng_chance(g, 50) ? 250 + rng_below(g, 6) : rng_below(g, 256));
    return b;
}

/* A state just outside one bound (or more); owed and age without a transfer aren't looked at. */
static void spoil(struct rng *g, struct bus *b)
{
    do
        switch (rng_below(g, 8)) {
        case 0: b->settling = (uint8_t)(rng_chance(g, 70) ? 3 : rng_below(g, 256)); break;
        case 1: b->turn = b->limit; break;
        case 2: b->owner = (uint8_t)(rng_chance(g, 50) ? 16 : 16 + rng_below(g, 239)); break;
        case 3: b->limit = (uint8_t)(rng_chance(g, 40) ? 0 : rng_chance(g, 60) ? 17
                                                             : rng_below(g, 256)); break;
        case 4: b->open = 1; b->owed = (uint8_t)(rng_chance(g, 40) ? 0 : 17); break;
        case 5: b->wave = 0; b->settling = (uint8_t)(1 + rng_below(g, 2)); break;
        case 6: b->wave = 0; b->turn = 1; break;
        case 7: b->open = 0; b->owed = 0; break;
        }
    while (rng_chance(g, 25));
}

static void begin(struct caller *c)
{
    struct rng *g = c->g;
    struct bus b = some_bus(g);
    if (rng_chance(g, 40)) {
        set_bus(c, &b);
    } else {
        caller_clear(c, 8);
        c->call[1] = (uint8_t)(rng_chance(g, 85) ? 1 + rng_below(g, 16)
                               : rng_chance(g, 50) ? 17 : rng_below(g, 256));
        caller_issue(c);
    }
}

/* A state out of bounds for some calls, and then the old one again. */
static void out_of_bounds(struct caller *c, struct scene *s)
{
    struct bus kept = c->d.bus, b = kept;
    spoil(c->g, &b);
    set_bus(c, &b);
    for (uint32_t i = rng_below(c->g, 3); i > 0; i--)
        cycle(c, s);
    set_bus(c, &kept);
}

/* Every bound at its edge and one past it, with a cycle after each. */
static void bounds(struct caller *c)
{
    static const struct bus list[] = {
        {0, 0, 0, 255, 1, 0, 0, 0},    {0, 0, 0, 255, 0, 0, 0, 0},    {0, 0, 0, 255, 16, 0, 0, 0},
        {0, 0, 0, 255, 17, 0, 0, 0},   {0, 1, 0, 255, 16, 0, 0, 0},   {0, 0, 1, 255, 16, 0, 0, 0},
        {1, 2, 0, 255, 16, 0, 0, 0},   {1, 3, 0, 255, 16, 0, 0, 0},   {1, 255, 0, 255, 16, 0, 0, 0},
        {1, 0, 15, 255, 16, 0, 0, 0},  {1, 0, 16, 255, 16, 0, 0, 0},  {1, 0, 0, 255, 1, 0, 0, 0},
        {1, 0, 1, 255, 1, 0, 0, 0},    {1, 0, 0, 15, 16, 0, 0, 0},    {1, 0, 0, 16, 16, 0, 0, 0},
        {1, 0, 0, 254, 16, 0, 0, 0},   {1, 0, 0, 0, 16, 1, 1, 0},     {1, 0, 0, 0, 16, 1, 0, 0},
        {1, 0, 0, 0, 16, 1, 16, 0},    {1, 0, 0, 0, 16, 1, 17, 0},    {1, 0, 0, 0, 16, 1, 3, 255},
        {1, 0, 0, 0, 16, 1, 1, 254},   {0x8000, 0, 7, 3, 8, 0, 0, 0}, {0x8000, 0, 8, 3, 8, 0, 0, 0},
        {0, 0, 0, 5, 16, 0, 99, 99},   {0xFFFF, 2, 15, 15, 16, 1, 16, 255}};
    struct scene quiet = {.slave = RANDOM, .slots = 0x0021, .wanting = 50, .holding = 50};
    for (size_t i = 0; i < sizeof list / sizeof list[0]; i++) {
        set_bus(c, &list[i]);
        cycle(c, &quiet);
        if (rng_chance(c->g, 50))
            cycle(c, &quiet);
    }
    /* The same good state with every table length, and each words from 0 to 63. */
    for (int n = 0; n < 18 + 64; n++) {
        caller_clear(c, 9);
        c->call[1] = rng_chance(c->g, 20);
        c->call[4] = (uint8_t)(n < 18 ? n : 16);
        for (int i = 0; i < 17; i++)
            c->call[5 + i] = (uint8_t)(rng_below(c->g, 4) << 6 | 1);
        if (n >= 18)
            c->call[5 + rng_below(c->g, 17)] = (uint8_t)(rng_below(c->g, 4) << 6 | (n - 18));
        caller_issue(c);
    }
}

static void run(struct caller *c, size_t calls)
{
    struct rng *g = c->g;
    struct scene s = some_scene(g);
    uint32_t cycles = rng_chance(g, 30) ? 600 : 20 + rng_below(g, 150);
    if (c->out->len > 0 || rng_chance(g, 50)) /* at first the bus is fresh, with limit 16 */
        begin(c);
    while (cycles-- > 0 && !caller_full(c, calls)) {
        cycle(c, &s);
        if (rng_chance(g, 2))
            out_of_bounds(c, &s);
        if (c->d.bus.open && c->d.bus.age < 240 && rng_chance(g, s.slave == SLOW ? 30 : 4)) { /* time passes */
            struct bus b = c->d.bus;
            b.age = (uint8_t)(250 + rng_below(g, 6));
            set_bus(c, &b);
        }
        if (rng_chance(g, 1))
            s.slave = (enum manner)rng_below(g, MANNERS);
    }
}

void calls_bus(struct buffer *out, struct rng *g, size_t calls)
{
    struct caller *c = malloc(sizeof *c);
    if (c == NULL)
        exit(2);
    caller_start(c, out, g);
    if (rng_chance(g, 50)) {
        run(c, calls);
        bounds(c);
    }
    while (!caller_full(c, calls))
        run(c, calls);
    free(c);
}
