/* The worst wait of a master: for each slot and limit a run of the model's bus from its fresh state in
   which the others do what hurts most, and the quote is to be what that run reaches. */
#include <stdio.h>
#include <stdlib.h>
#include <string.h>
#include "desk.h"

struct wait {
    uint64_t others, cycles; /* STARTs of others before its own; the cycle of asking is the first */
};
static unsigned long runs, reached;

static const struct node asks = {1, 0, MOST_WORDS}, keeps = {1, 1, MOST_WORDS}, quiet = {0, 0, 0};

static struct answer step(struct bus *b, const struct node *nodes, int event)
{
    struct answer a;
    if (bus_cycle(b, 0, event, ERROR, nodes, SLOTS, &a) != 0) {
        fprintf(stderr, "the model refuses a cycle\n");
        exit(2);
    }
    return a;
}

static void all(struct node *nodes, struct node n)
{
    for (int i = 0; i < SLOTS; i++)
        nodes[i] = n;
}

/* The slot alone starts once, so that it is the owner, and that transfer ends. */
static void own(struct bus *b, unsigned slot, struct node *nodes)
{
    struct answer a;
    all(nodes, quiet);
    nodes[slot] = asks;
    do
        a = step(b, nodes, NOTHING);
    while (!a.start);
    all(nodes, quiet);
    step(b, nodes, FINISH);
}

/* The slave that makes a transfer last longest: each word that it may strobe comes in the 256th cycle, and
   the last one never, so that the watchdog ends it (document 02, wish 5). */
static int slowest(const struct bus *b)
{
    return b->open && b->owed > 1 && b->age == WATCHDOG - 1 ? STROBE : NOTHING;
}

/* Where a cycle without an event has changed nothing but the age, more like it do the same as long as the
   timer doesn't fire. Goes on to the age before its cycle and gives the cycles left out. */
static uint64_t waiting(struct bus *b, const struct bus *before, const struct answer *a)
{
    struct bus older = *before;
    older.age++;
    if (!before->open || a->start || a->ack || b->wave != older.wave || b->settling != older.settling ||
        b->turn != older.turn || b->owner != older.owner || b->owed != older.owed || b->age != older.age)
        return 0;
    b->age = WATCHDOG - 1;
    return (uint64_t)WATCHDOG - 1 - older.age;
}

/* The master starts once more, parked, while the fifteen others form a wave without it, all to hold as
   long as they may; it asks again in the next cycle. The slave is the slowest, and the watchdog ends each
   transfer. For a slot over 0 the lowest of the others, slot 0, makes its last START of that wave an attention
   cycle: the bus is idle, and it starts once more, parked, while the next wave forms. Run whole, or without the
   cycles of waiting. */
static struct wait worst(unsigned slot, unsigned limit, int whole)
{
    struct bus b;
    struct node nodes[SLOTS];
    struct wait w = {0, 0};
    struct answer a;
    bus_fresh(&b, limit);
    own(&b, slot, nodes);
    all(nodes, keeps);
    nodes[slot] = asks;
    a = step(&b, nodes, NOTHING);
    if (!a.start || a.starter != slot) {
        fprintf(stderr, "the master isn't parked\n");
        exit(2);
    }
    do {
        struct bus before = b;
        int event = slowest(&b);
        nodes[0].words = slot > 0 && b.wave == 1 && b.turn + 1u == limit ? 0 : MOST_WORDS;
        a = step(&b, nodes, event);
        w.cycles++;
        w.others += a.start && a.starter != slot;
        if (!whole && event == NOTHING)
            w.cycles += waiting(&b, &before, &a);
    } while (!a.start || a.starter != slot);
    runs++;
    return w;
}

/* By the paper's theorem, with the number of document 02's wish 5. */
static struct wait bound(unsigned slot, unsigned limit)
{
    struct wait w = {(30 - slot) * limit, LONGEST * ((30 - slot) * limit + 1)};
    w.others += slot > 0;
    w.cycles += slot > 0;
    return w;
}

/* The digits of n / 10^7 by moving the point in its digits. */
static void say_time(struct buffer *out, const char *digits)
{
    while (*digits == '0')
        digits++;
    size_t len = strlen(digits);
    if (len <= 7) {
        buffer_say(out, "0.%.*s%s\n", (int)(7 - len), "0000000", digits);
        return;
    }
    buffer_say(out, "%.*s.%s\n", (int)(len - 7), digits, digits + len - 7);
}

/* Every cycle is run at limit 1, and for the longest wait of all. */
static void one_quote(unsigned slot, unsigned limit)
{
    int whole = limit == 1 || (slot == 0 && limit == 16);
    struct wait w = worst(slot, limit, whole), most = bound(slot, limit);
    struct said right = {{0}, NULL};
    char digits[32], words[64];
    int same = w.others == most.others && w.cycles == most.cycles;
    reached += same ? 1 : 0;
    if (desk_outcome(same, "a run that reaches the bound of demand 3"))
        printf("  slot %u limit %u: others %llu of %llu, cycles %llu of %llu\n", slot, limit,
               (unsigned long long)w.others, (unsigned long long)most.others,
               (unsigned long long)w.cycles, (unsigned long long)most.cycles);
    if (desk.quote == NULL)
        return;
    snprintf(digits, sizeof digits, "%llu", (unsigned long long)w.cycles);
    buffer_say(&right.out, "slot %u limit %u others %llu cycles %s seconds ", slot, limit,
               (unsigned long long)w.others, digits);
    say_time(&right.out, digits);
    snprintf(words, sizeof words, " %u %u", slot, limit);
    desk_compare(desk.quote, words, NULL, 0, (struct feed){BY_FILE, 0}, &right, "a quote");
    buffer_free(&right.out);
}

void desk_quotes(void)
{
    for (unsigned slot = 0; slot < SLOTS; slot++)
        for (unsigned limit = 1; limit <= 16; limit++)
            one_quote(slot, limit);
    printf("worst waits: %lu of %lu runs reach the bound of demand 3\n", reached, runs);
}

/* A run in which everyone does as chance has it, near to the worst; no wait is over the bound. */
static void searched(struct rng *g, unsigned slot, unsigned limit)
{
    static const uint8_t words[] = {16, 16, 16, 1, 0, 2, 16};
    struct wait most = bound(slot, limit), w = {0, 0};
    struct bus b;
    struct node nodes[SLOTS];
    uint32_t wanting = 50 + rng_below(g, 51), holding = 50 + rng_below(g, 51),
             ending = rng_chance(g, 50) ? 0 : rng_below(g, 20), pausing = rng_below(g, 8),
             leaving_out = 20 + rng_below(g, 81);
    int asking = 0, good = 1;
    bus_fresh(&b, limit);
    all(nodes, quiet);
    for (uint64_t cycle = 0; cycle < 3 * most.cycles && good; cycle++) {
        struct bus before = b;
        int event = slowest(&b);
        for (unsigned i = 0; i < SLOTS; i++)
            if (i != slot && rng_chance(g, 10))
                nodes[i] = (struct node){(uint8_t)rng_chance(g, wanting), (uint8_t)rng_chance(g, holding),
                                         words[rng_below(g, 7)]};
        if (!asking && rng_below(g, 8) >= pausing) {
            asking = 1;
            w = (struct wait){0, 0};
        }
        nodes[slot] = asking ? asks : quiet;
        if (before.open && rng_chance(g, ending))
            event = rng_chance(g, 50) ? FINISH : STROBE;
        struct answer a = step(&b, nodes, event);
        uint64_t left_out = event == NOTHING && rng_chance(g, leaving_out) ? waiting(&b, &before, &a) : 0;
        w.cycles += 1 + left_out;
        cycle += left_out;
        if (a.start && a.starter == slot)
            asking = 0;
        else
            w.others += a.start;
        good = !asking || (w.others <= most.others && w.cycles < most.cycles);
    }
    desk_outcome(good, "no wait is over the bound of demand 3");
}

void desk_quotes_searched(struct rng *g)
{
    for (int i = 0; i < desk.count; i++)
        searched(g, rng_below(g, SLOTS), 1 + rng_below(g, 4));
}

/* Refusals and words. The long numbers are 3 or 4 to a build that keeps 8, 32 or 64 bits of them. */
static const struct {
    const char *words, *lines; /* no lines: a complaint */
} cases[] = {
    {"16 1", "refused 2\n"}, {"17 16", "refused 2\n"}, {"255 1", "refused 2\n"},
    {"256 1", "refused 2\n"}, {"259 4", "refused 2\n"}, {"4294967296 1", "refused 2\n"},
    {"4294967299 4", "refused 2\n"}, {"18446744073709551619 4", "refused 2\n"},
    {"1000000000000000000000000000000 1", "refused 2\n"},
    {"340282366920938463463374607431768211459 4", "refused 2\n"},
    {"0 0", "refused 3\n"}, {"15 0", "refused 3\n"}, {"0 17", "refused 3\n"}, {"3 255", "refused 3\n"},
    {"3 256", "refused 3\n"}, {"3 260", "refused 3\n"}, {"3 4294967300", "refused 3\n"},
    {"3 18446744073709551620", "refused 3\n"}, {"3 1000000000000000000000000000000", "refused 3\n"},
    {"3 340282366920938463463374607431768211460", "refused 3\n"},
    /* the slot first */
    {"16 0", "refused 2\n"}, {"16 17", "refused 2\n"}, {"256 4294967300", "refused 2\n"},
    {"1000000000000000000000000000000 1000000000000000000000000000000", "refused 2\n"},
    {"000 000", "refused 3\n"}, {"0016 0", "refused 2\n"},
    /* (30 - 7) x 4 and one are 93 STARTs, 93 x 4,097 and the parked one's cycle 381,022. */
    {"007 0004", "slot 7 limit 4 others 93 cycles 381022 seconds 0.0381022\n"},
    {"", ""}, {"3", ""}, {"3 4 5", ""}, {"3 4 ''", ""}, {"'' 4", ""}, {"3 ''", ""}, {"x 4", ""},
    {"3 x", ""}, {"-3 4", ""}, {"3 -4", ""}, {"+3 4", ""}, {"3 +4", ""}, {"0x3 4", ""}, {"3 4x", ""},
    {"x3 4", ""}, {"3.0 4", ""}, {"' 3' 4", ""}, {"'3 ' 4", ""}, {"'3 4'", ""}, {"3/4", ""},
    {"16 x", ""}, {"x 0", ""}, {"16 0 0", ""}, {"3 4 x", ""}, {"three four", ""},
};

void desk_words(void)
{
    if (desk.quote == NULL)
        return;
    for (size_t i = 0; i < sizeof cases / sizeof cases[0]; i++) {
        struct said right = {{0}, cases[i].lines[0] == '\0' ? "spurquote:" : NULL};
        char words[256];
        buffer_say(&right.out, "%s", cases[i].lines);
        snprintf(words, sizeof words, " %s", cases[i].words);
        desk_compare(desk.quote, words, NULL, 0, (struct feed){BY_FILE, 0}, &right, "words of a quote");
        buffer_free(&right.out);
    }
}
